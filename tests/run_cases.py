"""Cases of runs: worked runs, examples, workers, passes and limits."""
import shlex
import tempfile

import layers
from harness import EMPTY, EXAMPLES, NO_FORMS, PLAIN, PROBE, ROWS, SEND_HI, check, note_of_nobody, run, wants


def note_of(row):
    """What a worked run that isn't refused has on standard error: its own file, or nothing."""
    return (row / "stderr").read_bytes() if (row / "stderr").exists() else None


def rows():
    """Each worked run."""
    for row in sorted(ROWS.iterdir()):
        status = row / "status"
        words = (row / "args").read_text().removesuffix("\n").split("\n")
        ran = run(words, (row / "stdin").read_bytes())
        wanted = int(status.read_text()) if status.exists() else 0
        wants(f"row {row.name}", ran, wanted, (row / "stdout").read_bytes(), note_of(row))


def plain():
    """The program without clap: each worked run by picks or by rounds, and words that it doesn't take."""
    for row in sorted(ROWS.iterdir()):
        words = (row / "args").read_text().removesuffix("\n").split("\n")
        script = (row / "stdin").read_bytes()
        ran = run(words, script, command=(str(PLAIN),))
        again = run(words, script)
        wants(f"row {row.name} without clap", ran, again.returncode, again.stdout, again.stderr)
    for words in ([], ["round", "--limit", "0"], ["round", "--limit", "65537"], ["replay", "0"], ["workers"]):
        ran = run(words, SEND_HI, command=(str(PLAIN),))
        check(f"the words {words} without clap", ran.returncode == 2 and not ran.stdout and ran.stderr, ran)


def notes_of(script):
    """The commands in an example's comments, each with the lines that stand below it."""
    notes = [line[4:] for line in script.read_text().splitlines() if line.startswith("%   ")]
    places = [place for place, line in enumerate(notes) if line.startswith("./tracenode ")]
    return [(notes[here], notes[here + 1 : there]) for here, there in zip(places, [*places[1:], len(notes)])]


def examples():
    """Each example, by the commands in its comments: the listing where one is shown, and an explanation; a trap is in them."""
    for script in sorted(EXAMPLES.glob("*.term")):
        commands = []
        for command, shown in notes_of(script):
            words = shlex.split(command.partition(" < ")[0])[1:]
            commands.append(words[0])
            ran = run(words, script.read_bytes())
            lines = ran.stdout.decode().splitlines()
            if words[0] == "replay":
                listings = ran.stdout.decode().partition("== replies\n")[0].splitlines()
                lines = [line for line in listings if not line.startswith("== session ")] if shown else []
            remarks = ran.stderr.decode().splitlines()
            refusals = [line for line in remarks if " replies badarg: " in line]
            traps = [line.partition(": clause ")[2] for line in remarks if line not in refusals]
            good = ran.returncode == 0 and lines == shown and all(trap and f": clause {trap}\n" in script.read_text() for trap in traps)
            if words[0] == "replay":
                good = good and len(refusals) == ran.stdout.splitlines().count(b"badarg")
            else:
                good = good and not remarks
            check(f"{words[0]} of example {script.stem}", good, ran)
        check(f"the commands of example {script.stem}", commands == ["replay", "explain"], commands)


# Functions of which each calls the next 64 times, and a process that calls the first: more moves than a journal has places.
CALLING = "".join(
    "{function,m,%s,exported,[],[%s]}.\n" % (here, ",".join(["{call,'_',%s,[]}" % below] * 64)) for here, below in zip("abc", "bcd")
)
CALLS = CALLING + "{function,m,d,exported,[],[]}.\n{process,m,a,[]}.\n"


def called(name):
    """The function that each move of a call to this function calls; None where one returns."""
    yield name
    for _ in range(64 if name < "d" else 0):
        yield from called(chr(ord(name) + 1))
    yield None


# How many picks of a run may move.
MOST_MOVES = 65536


def last_moves():
    """The last picks that move: one fewer than may, as many, and one more, which is passed over; so it is of moves."""
    script = CALLS.encode()
    outputs = [b"== replies\n== journal\n" + b" ".join([b"100"] * count) + b"\n" for count in (MOST_MOVES - 1, MOST_MOVES)]
    with tempfile.NamedTemporaryFile() as file:
        for count, output in zip((MOST_MOVES - 1, MOST_MOVES, MOST_MOVES + 1), (*outputs, outputs[1])):
            file.seek(0)
            file.write(b" ".join([b"100"] * count))
            file.flush()
            wants(f"{count:,} picks that could move", run(["replay", "--picks-file", file.name], script), 0, output)
    one_fewer = str(MOST_MOVES - 1)
    wants("a round of one fewer than may move", run(["round", "--limit", one_fewer], script), 0, outputs[0])
    for times, output in ((f"100*{one_fewer}", outputs[0]), (f"100*{one_fewer} 100*2", outputs[1])):
        wants(f"the moves {times}", run(["replay", "--moves", times], script), 0, output)


def full_journals():
    """A full journal: by a round, by picks and more picks, and by passes after a worker's one turn; and with a message at each call."""
    journal = b" ".join([b"100"] * MOST_MOVES)
    output = b"== replies\n== journal\n" + journal + b"\n"
    wants("a full journal", run(["round", "--limit", str(MOST_MOVES)], CALLS.encode()), 0, output)
    wants("passes until the journal is full", run(["workers", "--n", "1", "--turns", "1"], CALLS.encode()), 0, output)
    picks = [*["0"] * 3, *["100"] * (MOST_MOVES - 3)]
    script = CALLS + "{control,[{session_create,s1,t1,[]},{process,s1,all,true,[call]},{function,s1,{m,'_','_'},true,[local]}]}.\n"
    lines = ["{trace,<0.100.0>,call,{m,%s,[]}}\n" % name for _, name in zip(picks[3:], called("a")) if name]
    told = "== session s1 tracer t1\n%s== replies\n{session,s1}\n1\n4\n== journal\n%s\n" % ("".join(lines), " ".join(picks))
    with tempfile.NamedTemporaryFile() as file:
        file.write(journal + b" 100 999 0")
        file.flush()
        ran = run(["replay", "--picks-file", file.name], CALLS.encode())
        wants("picks after a full journal", ran, 0, output, note_of_nobody(MOST_MOVES + 2, 999))
        file.seek(0)
        file.truncate()
        file.write(" ".join(picks).encode())
        file.flush()
        ran = run(["replay", "--picks-file", file.name], script.encode())
        wants(f"a listing of {len(lines)} messages", ran, 0, told.encode())
        ran = run(["workers", "--n", "2"], script.encode())
        file.seek(0)
        file.truncate()
        file.write(ran.stdout.removesuffix(b"\n").rpartition(b"\n")[2])
        file.flush()
        again = run(["replay", "--picks-file", file.name], script.encode())
        good = ran.returncode == 0 and ran.stdout.count(b"call,") > 30000 and ran.stdout == again.stdout
        check("such a listing by two workers", good, (ran.returncode, ran.stderr, len(ran.stdout), len(again.stdout)))


def many_lines():
    """Ten events that each of nine sessions tells: all of their lines come from the board, and one worker puts all there."""
    sessions = range(1, 10)
    waits, sends, receives = (",".join([step] * n) for step, n in (("{call,'_',wait,[]}", 12), ("{send,<0.101.0>,x}", 10), ("{'receive','_'}", 10)))
    functions = f"{{function,m,go,exported,[],[{waits},{sends}]}}. {{function,m,wait,exported,[],[]}}. {{function,m,sink,exported,[],[{receives}]}}. "
    commands = ",".join(f"{{session_create,s{n},t{n},[]}},{{process,s{n},<0.101.0>,true,['receive']}}" for n in sessions)
    script = f"{functions}{{process,m,go,[]}}. {{process,m,sink,[]}}. {{control,[{commands}]}}.".encode()
    picks = " ".join([*["0"] * 18, *["100"] * 35, *["101"] * 11])
    line = "{trace,<0.101.0>,'receive',x}\n"
    told = "".join(f"== session s{n} tracer t{n}\n" + line * 10 for n in sessions)
    replies = "".join(f"{{session,s{n}}}\n1\n" for n in sessions)
    output = f"{told}== replies\n{replies}== journal\n{picks}\n"
    wants("ten events of nine sessions", run(["replay", "--picks", picks], script), 0, output.encode())
    whole = next(text for text, name in layers.of_live(output) if name == layers.WHOLE)
    wants("their lines from a board", run(["live", picks], script, command=(str(PROBE),)), 0, whole.encode())
    wants("their lines by one worker", run(["lines", ""], script, command=(str(PROBE),)), 0, b"lines 90\n")


def passes():
    """The picks of passes, replayed, give what a round gives."""
    one = " ".join(["0", *(str(pid) for pid in range(100, 164))])
    for name in ("round-of-send-hi", "recursion-to-the-limit"):
        row = ROWS / name
        ran = run(["replay", "--picks", " ".join([one] * 67)], (row / "stdin").read_bytes())
        wants(f"the passes of {name}", ran, 0, (row / "stdout").read_bytes())


# Two processes that call a function 60 times each.
CALLERS = """{{function,m,go,exported,[],[{calls}]}}. {{function,m,f,exported,[],[{{return,a}}]}}.
{{process,m,go,[]}}. {{process,m,go,[]}}.
""".format(calls=",".join(["{call,'_',f,[]}"] * 60))


def seeds():
    """Of 20 seeds at least five have different journals by two workers: each turn gives way as its seed says."""
    runs = [run(["workers", "--n", "2", "--quiet", "--spread", str(seed)], CALLERS.encode()) for seed in range(20)]
    journals = {ran.stdout.rpartition(b"== journal\n")[2] for ran in runs if ran.returncode == 0 and not ran.stderr}
    check("seeds give different journals", len(journals) >= 5, (len(journals), runs[0]))


def workers():
    """Each example by workers: the journal that is printed, replayed, gives the same bytes."""
    for script in sorted(EXAMPLES.glob("*.term")):
        for words in (["--n", "1"], ["--n", "3"], ["--n", "16", "--turns", "2"], ["--n", "4", "--spread", "7"]):
            ran = run(["workers", *words], script.read_bytes())
            picks = ran.stdout.decode().removesuffix("\n").rpartition("\n")[2]
            again = run(["replay", "--picks", picks], script.read_bytes())
            name = f"workers {' '.join(words)} on {script.stem}"
            good = ran.returncode == 0 and picks and ran.stderr == again.stderr and ran.stdout == again.stdout
            check(name, good, (ran, again))
    wants("workers on a refused script", run(["workers", "--n", "2"], b"7."), 2, b"refused 5 form 1\n")
    wants("workers on no script", run(["workers", "--n", "2"]), 0, EMPTY, NO_FORMS)


# Processes that start, link and leave others, under three sessions that follow them in three ways.
FAMILY = b"""{function,m,go,exported,['N'],[{spawn,'A',{m,kid},['N']},{link,'A'},{spawn,'B',{m,kid},[{b,'N'}]},
  {send,'A',{hi,'Self'}},{send,'B',bye},{'receive','X'},{exit,{done,'X'}}]}.
{function,m,kid,exported,['N'],[{'receive','Y'},{call,'Z',same,['Y']},{send,<0.100.0>,'Z'}]}.
{function,m,same,internal,['V'],[{return,['V','V']}]}.
{process,m,go,[1]}.
{process,m,go,[2]}.
{control,[{session_create,s1,t1,[]},{process,s1,all,true,[send,'receive',procs]},
  {session_create,s2,t2,[]},{process,s2,<0.100.0>,true,[call,procs,set_on_spawn]},
  {function,s2,{m,'_','_'},[{'_',[],[{return_trace}]}],[local]},
  {session_create,s3,t3,[]},{process,s3,<0.101.0>,true,[send,procs,set_on_first_link]},{session_destroy,s1}]}.
"""


def schedules():
    """200 runs by four workers whose turns give way as the seed says: their journals differ, and each is replayed to the same bytes."""
    journals = set()
    for seed in range(200):
        ran = run(["workers", "--n", "4", "--turns", "40", "--spread", str(seed)], FAMILY)
        picks = ran.stdout.decode().removesuffix("\n").rpartition("\n")[2]
        again = run(["replay", "--picks", picks], FAMILY)
        good = ran.returncode == 0 and picks.count(" ") >= 20 and ran.stdout == again.stdout
        check(f"a run by workers with the seed {seed}", good, (ran, again))
        journals.add(picks)
    check("the journals of 200 seeds", len(journals) > 20, len(journals))


def limits():
    """Limits that differ by one: of a round, of workers and of their turns."""
    listing, replies = "== session s1 tracer t1\n", "== replies\n{session,s1}\n"
    for limit, journal in (("3", "== journal\n0 100 101\n"), ("4", "2\n== journal\n0 100 101 0\n")):
        ran = run(["round", "--limit", limit], SEND_HI)
        wants(f"a limit of {limit}", ran, 0, (listing + replies + journal).encode())
    idle = "{function,m,f,exported,[],[]}.\n" + "{process,m,f,[]}.\n" * 5
    script = (idle + "{control,[{session_create,s1,t1,[]}]}.").encode()
    for turns, journal in (("5", "0 100 101 102 103 100 101 102 103 104 104"), ("6", "0 100 101 102 103 104 100 101 102 103 104")):
        ran = run(["workers", "--n", "1", "--turns", turns], script)
        wants(f"{turns} turns", ran, 0, f"{listing}{replies}== journal\n{journal}\n".encode())
    commands = ",".join("{session_create,s%d,t%d,[]}" % (number, number) for number in range(7))
    script = (idle + "{control,[%s]}." % commands).encode()
    pids = list(range(100, 105))
    for count in range(1, 6):
        ran = run(["workers", "--n", str(count), "--turns", "1"], script)
        journal = [int(pick) for pick in ran.stdout.decode().splitlines()[-1].split()]
        behind = [0, *pids, 0, *pids[count - 1 :], 0, 0, 0, 0]
        good = sorted(journal[:count]) == [0, *pids][:count] and journal[count:] == behind
        check(f"{count} workers of one turn, and passes behind them", ran.returncode == 0 and good, ran)
