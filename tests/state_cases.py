"""Cases of the command `state`, and of the manual's chapter on it."""
import json
import re
import shlex

from explanation_cases import blocks, chapter
from harness import EXAMPLES, SEND_HI, check, run, wants

SPECIFICATION = "[{['_','$1'],[{'>','$1',5}],[{message,{{big,'$1'}}},{return_trace}]}]"

# The states of examples/numbers.term by the moves '0! go!', worked out by hand: before any move, and after the last one.
FIRST = """== session s tracer t
absent
== process <0.100.0> {m,go,1}
runnable
{messages,[]}
{links,[]}
== process <0.101.0> {m,rest,0}
runnable
{messages,[]}
{links,[]}
"""
LAST = f"""== session s tracer t
live
{{m,tell,2}} {{traced,global}} {{match_spec,{SPECIFICATION}}}
== process <0.100.0>
exited
== process <0.101.0> {{m,rest,0}}
runnable
{{messages,[{{n,3}},{{n,8}}]}}
{{links,[]}}
"""

# A process that starts another, links itself to it and to one that never was; a session with each setting, and one that
# is destroyed.
FAMILY = b"""{function,m,go,exported,[],[{spawn,'X',{m,child},[]},{link,'X'},{link,<0.150.0>}]}.
{function,m,child,exported,[],[{'receive','Y'}]}.
{process,m,go,[]}.
{control,[{session_create,s,t,[]},{process,s,new,true,[silent,procs]},{function,s,{m,'_','_'},true,[local]},
  {send,s,false,[]},{recv,s,[{['_','_',hi],[],[]}],[]},{recv,s,no,[]},{function,s,{m,go,0},false,[local]},
  {session_create,s2,t2,[]},{session_destroy,s2}]}.
"""
SETTINGS = """== session s tracer t
live
<0.101.0> {flags,[procs,silent]}
new_processes {flags,[procs,silent]}
{m,child,0} {traced,local} {match_spec,[]}
send {match_spec,false}
'receive' {match_spec,[{['_','_',hi],[],[]}]}
"""
DESTROYED = "== session s2 tracer t2\ndestroyed\n"
PROCESSES = """== process <0.100.0> {m,go,0}
runnable
{frame,1} {m,go,0} {step,4} {'Self',<0.100.0>} {'X',<0.101.0>}
{messages,[]}
{links,[<0.101.0>]}
{signal,noproc}
== process <0.101.0> {m,child,0}
waiting
{frame,1} {m,child,0} {step,1} {'Self',<0.101.0>}
{messages,[]}
{links,[<0.100.0>]}
"""

# A call that is marked for exceptions, and one in it that is marked for returns.
MARKED = b"""{function,m,go,exported,[],[{call,'_',{m,f},[]}]}.
{function,m,f,exported,[],[{call,'_',{m,g},[]}]}.
{function,m,g,exported,[],[{return,ok}]}.
{process,m,go,[]}.
{control,[{session_create,s,t,[]},{process,s,all,true,[call]},
  {function,s,{m,f,0},[{'_',[],[{exception_trace}]}],[]},{function,s,{m,g,0},[{'_',[],[{return_trace}]}],[]}]}.
"""
MARKS = ["<0.100.0> {frame,2} exception_trace", "<0.100.0> {frame,3} return_trace"]


def states():
    """The sample of the manual's chapter, states that are worked out by hand, and what isn't there."""
    lines = chapter("The state after a move")
    samples = blocks(lines)
    numbers = (EXAMPLES / "numbers.term").read_bytes()
    words = shlex.split(samples[0][0].partition(" < ")[0])[1:]
    wants("the sample of a state", run(words, numbers), 0, ("\n".join(samples[1]) + "\n").encode())
    moves = ["state", "--moves", "0! go!", "--at"]
    wants("the state before any move", run([*moves, "0"], numbers), 0, FIRST.encode())
    wants("the state after the last move", run([*moves, "11"], numbers), 0, LAST.encode())
    family = ["state", "--moves", "0! 100*3 101 100", "--at", "14"]
    wants("a state with each setting", run(family, FAMILY), 0, (SETTINGS + DESTROYED + PROCESSES).encode())
    one = run([*family, "--session", "s2"], FAMILY)
    wants("the state of one session", one, 0, (DESTROYED + PROCESSES).encode())
    marked = run(["state", "--moves", "0! go*3", "--at", "7"], MARKED)
    found = [line for line in marked.stdout.decode().splitlines() if line.endswith("_trace")]
    check("the marks of a state", found == MARKS and marked.returncode == 0, marked)
    shown = "".join(text.stdout.decode() for text in (run(words, numbers), run(family, FAMILY), marked))
    told = (FIRST + LAST + shown).splitlines()
    for row in (line for line in lines if line.startswith("| `")):
        said = row.split("`")[1]
        check(f"the line {said}", said in told, told)


def state_ends():
    """A state does not depend on later picks; what isn't there is refused; JSON has each line with its number."""
    numbers = (EXAMPLES / "numbers.term").read_bytes()
    whole = ["0", "0", "0", *["100"] * 8]
    for count in range(len(whole) + 1):
        at = ["--at", str(count)]
        by_all = run(["state", "--picks", " ".join(whole), *at], numbers)
        by_front = run(["state", "--picks", " ".join(whole[:count]), *at], numbers)
        check(f"the state after {count} moves", by_all.returncode == 0 and by_all.stdout == by_front.stdout, (by_all, by_front))
    journal = run(["run", "--quiet"], numbers).stdout.decode().splitlines()[-1]
    for at in ("0", "5", "15"):
        by_round = run(["state", "--round", "--control", "first", "--at", at], numbers)
        by_picks = run(["state", "--picks", journal, "--at", at], numbers)
        check(f"the state after {at} moves of a round", by_round.returncode == 0 and by_round.stdout == by_picks.stdout, by_round)
    moves = ["state", "--moves", "0! go!"]
    wants("a state past the last move", run([*moves, "--at", "12"], numbers), 2, b"", b"error: the run has no move 12: its moves are 1 to 11\n")
    unknown = run([*moves, "--at", "12", "--session", "s9"], numbers)
    wants("a state of an unknown session", unknown, 2, b"", b"error: the script creates no session s9: it creates s\n")
    wants("a state of no script", run(["state", "--picks", "", "--at", "0"], b"{"), 2, b"refused 2 token at 1\n")
    wants("a state by bad picks", run(["state", "--picks", "0 00", "--at", "0"], SEND_HI), 2, b"refused 20 bad picks\n")
    for words in (["--at", "0"], ["--picks", ""], ["--picks", "", "--at", "x"], ["--picks", "", "--at", "-1"], ["--picks", "", "--at"]):
        ran = run(["state", *words], numbers)
        check(f"state {' '.join(words)}", ran.returncode == 2 and not ran.stdout and ran.stderr, ran)
    plain = run([*moves, "--at", "9"], numbers).stdout.decode().splitlines()
    rows = [json.loads(line) for line in run([*moves, "--at", "9", "--json"], numbers).stdout.decode().splitlines()]
    wanted = [{"line": number, "text": text} for number, text in enumerate(plain, 1)]
    check("the JSON of a state", rows == wanted and all(re.match(r"[={<a-z']", text) for text in plain), rows)
