"""Cases of the built program: summaries and JSON, worked out by hand and read by Python's json."""
import json
import re

from harness import EXAMPLES, NO_FORMS, SEND_HI, SEND_HI_PICKS, check, parsed, run, wants
from schemas import is_valid

KINDS = """send send_to_non_existing_process 'receive' call return_from exception_from spawn spawned exit link unlink
    getting_linked getting_unlinked""".split()

# Names that need quotes and backslashes, and a message with both.
QUOTED = rb"""{function,m,go,exported,['To'],[{send,'To',{'a"b','c\\d','it\'s'}}]}.
{function,m,rest,exported,[],[{'receive','X'}]}.
{process,m,go,[<0.101.0>]}.
{process,m,rest,[]}.
{control,[{session_create,'a b: tracer c','d \'e',[]},{process,'a b: tracer c',all,true,[send]},{session_create,n,o,[]}]}.
"""

NO_MESSAGE = b"""== session s1 tracer t1
total: messages 0, bytes 0
== run
commands: 1
moves: 1
"""

SEND_HI_SUMMARY = b"""== session s1 tracer t1
send: messages 1, bytes 39
total: messages 1, bytes 39
greatest: bytes 39, line 1, {trace,<0.100.0>,send,{hi,1},<0.101.0>}
== run
commands: 2
moves: 4
"""

SEND_HI_LOADS = b"""{"session":"s1","tracer":"t1","kind":"send","messages":1,"bytes":39}
{"session":"s1","tracer":"t1","messages":1,"bytes":39}
{"session":"s1","tracer":"t1","greatest":1,"bytes":39,"text":"{trace,<0.100.0>,send,{hi,1},<0.101.0>}"}
{"commands":2}
{"moves":4}
"""

NO_LOADS = b"""{"session":"s1","tracer":"t1","messages":0,"bytes":0}
{"commands":1}
{"moves":1}
"""

SEND_HI_JSON = b"""{"session":"s1","tracer":"t1","messages":1}
{"session":"s1","tracer":"t1","message":1,"move":4,"kind":"send","pid":"<0.100.0>","text":"{trace,<0.100.0>,send,{hi,1},<0.101.0>}"}
{"reply":1,"text":"{session,s1}"}
{"reply":2,"text":"2"}
{"journal":[0,0,100,100]}
"""

SEND_HI_MOVE = b"""{"move":4,"pick":100,"event":"<0.100.0> send {hi,1} <0.101.0>"}
{"move":4,"pick":100,"event":"<0.100.0> send {hi,1} <0.101.0>","session":"s1","line":"=> {trace,<0.100.0>,send,{hi,1},<0.101.0>}","trace_message":"{trace,<0.100.0>,send,{hi,1},<0.101.0>}"}
{"move":4,"pick":100,"event":"<0.101.0> 'receive' {hi,1}"}
{"move":4,"pick":100,"event":"<0.101.0> 'receive' {hi,1}","session":"s1","line":"no flag 'receive'","no_flag":"'receive'"}
"""

QUOTED_JSON = rb"""{"session":"'a b: tracer c'","tracer":"'d \\'e'","messages":1}
{"session":"'a b: tracer c'","tracer":"'d \\'e'","message":1,"move":5,"kind":"send","pid":"<0.100.0>","text":"{trace,<0.100.0>,send,{'a\"b','c\\\\d','it\\'s'},<0.101.0>}"}
{"session":"n","tracer":"o","messages":0}
{"reply":1,"text":"{session,'a b: tracer c'}"}
{"reply":2,"text":"2"}
{"reply":3,"text":"{session,n}"}
{"journal":[0,0,0,100,100]}
"""

# The refusals of a script and of picks as JSON.
REFUSED_JSON = b"""{"refused":2,"line":"refused 2 token at 2","place":"1:3","why":"syntax error: ',' or '}' expected, found the full stop: '{' at 1:1 is not closed"}
"""
REFUSED_PICKS_JSON = b"""{"refused":20,"line":"refused 20 bad picks","place":null,"why":"picks are numbers up to 4294967295 with one space between each two"}
"""

# Lines that are no object of the schema.
NO_OBJECTS = (
    '{"session":"s1","messages":1}',
    '{"session":"s1","tracer":"t1","messages":-1}',
    '{"session":"s1","tracer":"t1","messages":1,"more":1}',
    '{"session":"s1","tracer":"t1","message":1,"kind":"sends","pid":"<0.100.0>","text":""}',
    '{"session":"s1","tracer":"t1","message":1,"kind":"send","pid":"100","text":""}',
    '{"session":"s1","tracer":"t1","message":1,"move":0,"kind":"send","pid":"<0.100.0>","text":""}',
    '{"session":"s1","tracer":"t1","kind":"send","messages":0,"bytes":0}',
    '{"session":"s1","tracer":"t1","kind":"sends","messages":1,"bytes":39}',
    '{"session":"s1","tracer":"t1","messages":1,"bytes":-1}',
    '{"session":"s1","tracer":"t1","greatest":0,"bytes":0,"text":""}',
    '{"commands":-1}',
    '{"commands":2,"moves":4}',
    '{"reply":0,"text":"1"}',
    '{"reply":true,"text":"1"}',
    '{"journal":[-1]}',
    '{"move":1,"pick":0,"event":"","session":"s1"}',
    '{"command":"fun"}',
    '{"status":5,"output":"","errors":""}',
    '{"status":0,"output":""}',
    '{"error":"no request"}',
    '{"refused":0,"line":"","place":null,"why":""}',
    '{"refused":2,"line":"","place":"1:","why":""}',
    '{"refused":2,"line":"","why":""}',
    '"text"',
    "[]",
)


def sections(output):
    """The sections of an output: each first line, with the lines after it."""
    found = []
    for line in output.decode().splitlines():
        if line.startswith("== "):
            found.append((line, []))
        else:
            found[-1][1].append(line)
    return found


def summary(output):
    """The summary of an output, as the manual says."""
    told = []
    for head, lines in sections(output):
        if head == "== replies":
            told += ["== run", f"commands: {len(lines)}"]
        elif head == "== journal":
            told += [f"moves: {len(lines[0].split())}"]
        else:
            kinds = [line.split(",")[2] for line in lines]
            sizes = [len(line) for line in lines]
            told.append(head)
            for kind in KINDS:
                own = [size for size, of in zip(sizes, kinds) if of == kind]
                told += [f"{kind}: messages {len(own)}, bytes {sum(own)}"] if own else []
            told.append(f"total: messages {len(lines)}, bytes {sum(sizes)}")
            if lines:
                at = sizes.index(max(sizes))
                told.append(f"greatest: bytes {sizes[at]}, line {at + 1}, {lines[at]}")
    return "".join(f"{line}\n" for line in told).encode()


def loads(output):
    """The values of JSON that the summary of an output of bare names is, as the manual says."""
    found = []
    for head, lines in sections(output):
        if head == "== replies":
            found.append({"commands": len(lines)})
        elif head == "== journal":
            found.append({"moves": len(lines[0].split())})
        else:
            _, _, name, _, tracer = head.split()
            session = {"session": name, "tracer": tracer}
            sizes = [len(line) for line in lines]
            for kind in KINDS:
                own = [len(line) for line in lines if line.split(",")[2] == kind]
                found += [{**session, "kind": kind, "messages": len(own), "bytes": sum(own)}] if own else []
            found.append({**session, "messages": len(lines), "bytes": sum(sizes)})
            if lines:
                at = sizes.index(max(sizes))
                found.append({**session, "greatest": at + 1, "bytes": sizes[at], "text": lines[at]})
    return found


def moves_told(account):
    """The numbers of the moves of each session's messages, by an account of sessions with bare names."""
    told = {}
    for line in account.decode().splitlines():
        if line.startswith("  "):
            name, _, said = line[2:].partition(": ")
            told.setdefault(name, []).extend([number] if said.startswith("=> ") else [])
        else:
            number = int(line.split(" ", 1)[0])
    return told


def values(output, moves):
    """The values of JSON that an output of bare names is, as the manual says, with the moves of its messages."""
    found = []
    for head, lines in sections(output):
        if head == "== replies":
            found += [{"reply": at, "text": line} for at, line in enumerate(lines, 1)]
        elif head == "== journal":
            found.append({"journal": [int(pick) for pick in lines[0].split()]})
        else:
            _, _, name, _, tracer = head.split()
            session = {"session": name, "tracer": tracer}
            found.append({**session, "messages": len(lines)})
            for at, line in enumerate(lines, 1):
                pid, kind = line.split(",")[1:3]
                move = moves[name][at - 1]
                found.append({**session, "message": at, "move": move, "kind": kind, "pid": pid, "text": line})
    return found


# The text of a term: it has no colon but in quotes.
WRITTEN_TERM = r"(?:'(?:[^'\\]|\\.)*'|[^':])*"

# What the first words of a line that explains say, and the members that it has then.
LINE_WORDS = (
    (r"clause (\d+)(?: \(line \d+\))? fires", lambda n: {"clause": int(n), "fires": True}),
    (r"clause (\d+)(?: \(line \d+\))? fires: (.*)", lambda n, effects: {"clause": int(n), "fires": True, "effects": effects}),
    (
        rf"clause (\d+)(?: \(line \d+\))?: condition (\d+) is ({WRITTEN_TERM})",
        lambda n, m, value: {"clause": int(n), "fires": False, "condition": int(m), "value": value},
    ),
    (
        rf"clause (\d+)(?: \(line \d+\))?: condition (\d+) is ({WRITTEN_TERM}): (.*)",
        lambda n, m, value, bound: {"clause": int(n), "fires": False, "condition": int(m), "value": value, "bound": bound},
    ),
    (
        r"clause (\d+)(?: \(line \d+\))?: condition (\d+) faults at (.*)",
        lambda n, m, part: {"clause": int(n), "fires": False, "condition": int(m), "faults_at": part},
    ),
    (r"clause (\d+)(?: \(line \d+\))?: .*", lambda n: {"clause": int(n), "fires": False}),
    (r"=> no message: (.*)", lambda why: {"trace_message": None, "why": why}),
    (r"=> (.*)", lambda text: {"trace_message": text}),
    (r"on a node: (.*)", lambda text: {"on_a_node": text}),
)


# What a line of an account says besides.
ACCOUNT_WORDS = (
    (r"replies (\{.*)", lambda reply: {"reply": reply}),
    (r"replies ([^:]*)", lambda reply: {"reply": reply}),
    (r"replies ([^:]*): (.*)", lambda reply, why: {"reply": reply, "why": why}),
    (r"no flag (.*)", lambda flag: {"no_flag": flag}),
    (r"no setting for (.*)", lambda function: {"no_setting": function}),
    (r"the setting is false", lambda: {"setting": "false"}),
    (r"the setting is global, and the call doesn't name the module", lambda: {"setting": "global"}),
    (r"no clause fires", lambda: {"fires": False}),
    (r"silent", lambda: {"silent": True}),
    (r"message false", lambda: {"message": False}),
    (r"the call is marked", lambda: {"mark": "set"}),
    (r"the call is marked for exceptions", lambda: {"mark": "set for exceptions"}),
    (r"the call has no mark", lambda: {"mark": "none"}),
    (r"the call is marked for returns alone", lambda: {"mark": "for returns alone"}),
    (r"the mark is gone", lambda: {"mark": "gone"}),
    (r"past a limit: (.*)", lambda limit: {"past_limit": limit}),
    (r"- (.*)", lambda text: {"node_lacks": text}),
    (r"\+ (.*)", lambda text: {"node_has": text}),
)


def line_members(line, words=LINE_WORDS):
    """The members of a line that explains, beside its text."""
    found = ((re.fullmatch(pattern, line, re.DOTALL), members) for pattern, members in words)
    return next((members(*match.groups()) for match, members in found if match), {})


def account(text):
    """The values of JSON that an account of sessions with bare names is, as the manual says."""
    found = []
    for line in text.decode().splitlines():
        if line.startswith("  "):
            name, _, said = line[2:].partition(": ")
            found.append({**moved, "session": name, "line": said, **line_members(said, ACCOUNT_WORDS + LINE_WORDS)})
        else:
            number, pick, event = line.split(" ", 2)
            moved = {"move": int(number), "pick": int(pick), "event": event}
            found.append(moved)
    return found


def holds(name, ran, wanted):
    """Each line of a run is one JSON value, these in order, with their keys in order."""
    pairs = parsed(name, lambda text: [json.loads(line, object_pairs_hook=list) for line in text.splitlines()], ran.stdout)
    check(name, ran.returncode == 0 and pairs == [list(value.items()) for value in wanted], ran)


def schema():
    """Each line of JSON that the program prints is one object of the schema, and other values are none."""
    for line in NO_OBJECTS:
        check(f"the schema has no {line}", not is_valid(json.loads(line)), line)
    trial = ["spec", "--list", "[]", "[{'_',[],[{message,{self}}]}]"]
    lines = [([*SEND_HI_PICKS, "--json"], SEND_HI), ([*trial, "--json"], b"")]
    for path in sorted(EXAMPLES.glob("*.term")):
        script = path.read_bytes()
        picks = run(["round", "--quiet"], script).stdout.decode().splitlines()[-1]
        lines += [(["round", "--quiet", "--json"], script), (["round", "--quiet", "--summary", "--json"], script)]
        lines += [(["explain", "--picks", picks, "--json"], script)]
        lines += [(["state", "--picks", picks, "--at", "0", "--json"], script)]
    lines += [(["round", "--json"], b"{a."), (["replay", "--picks", "x", "--json"], SEND_HI)]
    for words, script in lines:
        ran = run(words, script)
        name = f"the schema of {' '.join(words)[:60]}"
        found = parsed(name, lambda text: [json.loads(line) for line in text.splitlines()], ran.stdout)
        check(name, bool(found) and all(is_valid(value) for value in found), ran)


def formats():
    """Summaries and JSON: of worked runs, of all examples, and of what is refused."""
    wants("the summary of a send", run([*SEND_HI_PICKS, "--summary"], SEND_HI), 0, SEND_HI_SUMMARY)
    wants("a summary without messages", run(["replay", "--picks", "0", "--summary"], SEND_HI), 0, NO_MESSAGE)
    wants("the summary of a send as JSON", run([*SEND_HI_PICKS, "--summary", "--json"], SEND_HI), 0, SEND_HI_LOADS)
    ran = run(["replay", "--picks", "0", "--json", "--summary"], SEND_HI)
    wants("a summary without messages as JSON", ran, 0, NO_LOADS)
    wants("the JSON of a send", run([*SEND_HI_PICKS, "--json"], SEND_HI), 0, SEND_HI_JSON)
    wants("the JSON of no run", run(["round", "--json"]), 0, b'{"journal":[]}\n', NO_FORMS)
    ran = run(["replay", "--picks", "0 0 0 100 100", "--json"], QUOTED)
    wants("the JSON of names in quotes", ran, 0, QUOTED_JSON)
    ran = run(["explain", "--picks", "0 0 100 100", "--move", "4", "--json"], SEND_HI)
    wants("the JSON of a move", ran, 0, SEND_HI_MOVE)
    trial = ["spec", "--list", "[]", "[{'_',[],[{message,{self}}]}]"]
    told = b"""{"line":1,"text":"clause 1 fires: message <0.100.0>","clause":1,"fires":true,"effects":"message <0.100.0>"}
{"line":2,"text":"=> a message that ends in <0.100.0>","trace_message":"a message that ends in <0.100.0>"}
"""
    wants("the JSON of a trial", run([*trial, "--json"]), 0, told)
    of_examples()
    of_workers()
    wants("a refused script with --summary", run(["round", "--summary"], b"{"), 2, b"refused 2 token at 1\n")
    refused = ["replay", "--picks", "x"]
    wants("refused picks with --summary", run([*refused, "--summary"], SEND_HI), 2, b"refused 20 bad picks\n")
    wants("refused picks with --json", run([*refused, "--json"], SEND_HI), 2, REFUSED_PICKS_JSON)
    for words in (["run"], ["round"], ["round", "--summary"], ["state", "--round", "--at", "0"], ["explain", "--round"], ["explore"]):
        wants(f"a refused script with {' '.join(words)} --json", run([*words, "--json"], b"{a."), 2, REFUSED_JSON)
    wants("workers on a refused script with --json", run(["workers", "--n", "1", "--json"], b"{"), 2, b"refused 2 token at 1\n")
    for words in (["explain", "--picks", "0", "--summary"], [*trial, "--summary"]):
        ran = run(words, SEND_HI)
        check(f"{' '.join(words)} is refused", ran.returncode == 2 and not ran.stdout and ran.stderr, ran)
    ran = run([*SEND_HI_PICKS, "--summary", "--expect-line", "moves: 4"], SEND_HI)
    wants("a summary with a line that is expected", ran, 0, SEND_HI_SUMMARY, b"")
    ran = run([*SEND_HI_PICKS, "--json", "--reject-line", '{"reply":2,"text":"2"}'], SEND_HI)
    check("JSON with a line that is rejected", ran.returncode == 1 and ran.stdout == SEND_HI_JSON, ran)


def of_examples():
    """The summary and the JSON of each example's round, against its plain output; and the JSON of its account."""
    for path in sorted(EXAMPLES.glob("*.term")):
        script = path.read_bytes()
        plain = run(["round", "--quiet"], script)
        wants(f"the summary of {path.name}", run(["round", "--quiet", "--summary"], script), 0, summary(plain.stdout))
        ran = run(["round", "--quiet", "--summary", "--json"], script)
        holds(f"the summary of {path.name} as JSON", ran, loads(plain.stdout))
        picks = plain.stdout.decode().splitlines()[-1]
        told = run(["explain", "--picks", picks], script)
        wanted = values(plain.stdout, moves_told(told.stdout))
        holds(f"the JSON of {path.name}", run(["round", "--quiet", "--json"], script), wanted)
        holds(f"the JSON of the account of {path.name}", run(["explain", "--picks", picks, "--json"], script), account(told.stdout))


def without_moves(lines):
    """Lines of JSON, without the moves of messages."""
    return re.sub(rb'("message":\d+),"move":\d+', rb"\1", lines)


def of_workers():
    """A run by workers in a format is that of the replay of its journal, but for the moves of messages."""
    ran = run(["workers", "--n", "2", "--quiet", "--json"], SEND_HI)
    name = "the JSON of a run by workers"
    journal = parsed(name, lambda text: json.loads(text.splitlines()[-1])["journal"], ran.stdout)
    picks = " ".join(str(pick) for pick in journal or ())
    again = run(["replay", "--picks", picks, "--json"], SEND_HI)
    check(name, ran.returncode == 0 and ran.stdout == without_moves(again.stdout), (ran, again))
    ran = run(["workers", "--n", "1", "--quiet", "--summary"], SEND_HI)
    check("the summary of a run by workers", ran.returncode == 0 and b"send: messages 1, bytes 39\n" in ran.stdout, ran)
