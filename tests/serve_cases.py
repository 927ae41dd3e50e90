"""Cases of `serve`: requests from standard input, an answer a line."""
import json
import os
import resource
import shlex
import subprocess
import tempfile

from failure_cases import preloaded, refused_growth
from harness import EXAMPLES, PROGRAM, ROWS, SEND_HI, SEND_HI_PICKS, TEXT_BYTES, TOP, check, run
from run_cases import notes_of
from schemas import is_valid

# The most bytes of a line, without its line feed.
LINE_BYTES = 8_388_608

ONE_SPEC = ["spec", "--list", "[5]", "[{['$1'],[{'>','$1',3}],[{return_trace}]}]"]

FUN = "fun([X,Y]) when Y > 3 -> message({a,X}); (_) -> return_trace() end"

# Lines that are no request, and the reason that each is given.
FAULTS = (
    (b"", "the line is no JSON"),
    (b" ", "the line is no JSON"),
    (b"{", "the line is no JSON"),
    (b"{} {}", "the line is no JSON"),
    (b'{"command":["fun"],}', "the line is no JSON"),
    (b'{"command":["fun\xff"]}', "the line is no JSON"),
    (b'{"command":["\\ud800"]}', "the line is no JSON"),
    (b"[" * 200 + b"]" * 200, "the line is no JSON"),
    (b"null", "the line is no JSON object"),
    (b"true", "the line is no JSON object"),
    (b"1", "the line is no JSON object"),
    (b'"fun"', "the line is no JSON object"),
    (b'["fun"]', "the line is no JSON object"),
    (b"{}", "command is missing, or no array of strings"),
    (b'{"input":"a"}', "command is missing, or no array of strings"),
    (b'{"command":"fun"}', "command is missing, or no array of strings"),
    (b'{"command":{"fun":1}}', "command is missing, or no array of strings"),
    (b'{"command":["fun",1]}', "command is missing, or no array of strings"),
    (b'{"command":[["fun"]]}', "command is missing, or no array of strings"),
    (b'{"command":null,"input":1}', "command is missing, or no array of strings"),
    (b'{"command":["fun"],"input":1}', "input is no string"),
    (b'{"input":null,"command":["fun"]}', "input is no string"),
    (b'{"input":["a"],"command":1}', "input is no string"),
    (b'{"command":["fun"],"output":""}', "a member is neither command nor input"),
    (b'{"Command":["fun"]}', "a member is neither command nor input"),
    (b'{"command":["fun"],"":""}', "a member is neither command nor input"),
    (b'{"command":["fun"],"command":["fun"]}', "a member comes twice"),
    (b'{"input":"","command":["fun"],"\\u0069nput":""}', "a member comes twice"),
    (b'{"command":["serve"]}', "serve can't be asked for serve"),
    (b'{"command":["serve","--help"],"input":""}', "serve can't be asked for serve"),
)


def request(words, text=b""):
    """The line of a request, without its line feed."""
    asked = {"command": list(words)}
    if text:
        asked["input"] = text.decode()
    return json.dumps(asked).encode()


def served(lines, **how):
    """The process that is given these lines, and the values of the lines that it writes."""
    ran = run(["serve"], b"".join(line + b"\n" for line in lines), cwd=TOP, **how)
    written = ran.stdout.decode().split("\n")
    check("each answer ends with a line feed", written.pop() == "", ran.stdout[-200:])
    return ran, [json.loads(line) for line in written]


def started(words, text=b""):
    """What the program says when it is started for these words: the answer that is wanted."""
    ran = run(words, text, cwd=TOP)
    return {
        "status": ran.returncode,
        "output": ran.stdout.decode(errors="replace"),
        "errors": ran.stderr.decode(errors="replace"),
    }


def of_rows():
    """The worked runs."""
    for row in sorted(ROWS.iterdir()):
        yield (row / "args").read_text().removesuffix("\n").split("\n"), (row / "stdin").read_bytes()


def of_examples():
    """The commands in the comments of the examples, and other commands on each."""
    for script in sorted(EXAMPLES.glob("*.term")):
        text = script.read_bytes()
        for command, _ in notes_of(script):
            yield shlex.split(command.partition(" < ")[0])[1:], text
        for words in (
            ["run"],
            ["run", str(script.relative_to(TOP))],
            ["round", "--json"],
            ["round", "--summary", "-q"],
            ["explain", "--round", "--json"],
            ["state", "--round", "--at", "3"],
            ["state", "--round", "--at", "0", "--json"],
            ["draw", "--round"],
            ["draw", "--round", "--text"],
            ["workers", "--n", "1"],
            ["workers", "-n", "1", "--json"],
            ["run", "--strict"],
            ["run", "--max-output", "100"],
            ["run", "--expect-line", "hi"],
        ):
            yield words, text


def of_questions():
    """Commands that read no script, or read much of one."""
    race = (EXAMPLES / "race.term").read_bytes()
    for words in (
        ["explore"],
        ["explore", "--control", "first", "--order", "total"],
        ["explore", "--max-states", "3"],
        ["explore", "--always", "{trace,'_',send,'_','_'}"],
        ["compare", "--trace", "examples/race.trace"],
        ["compare", "--trace", "examples/race.trace", "--prefix"],
        ["compare", "--trace", "examples/no.trace"],
    ):
        yield words, race
    for words, text in (
        (ONE_SPEC, b""),
        ([*ONE_SPEC[:3], "--json", ONE_SPEC[3]], b""),
        (ONE_SPEC[:3], ONE_SPEC[3].encode()),
        (["spec", "--list", "[1]", "--fun", FUN], b""),
        (["spec", "--list", "[1", "[]"], b""),
        (["spec", "--list", "[1]", "[{a}]"], b""),
        (["fun", FUN], b""),
        (["fun"], FUN.encode()),
        (["fun", "--pretty", ONE_SPEC[3]], b""),
        (["fun"], "fun(é) -> 1 end".encode()),
        (["fun", "fun(é) -> 1 end"], b""),
    ):
        yield words, text


def of_mistakes():
    """Command lines and scripts that are refused, faults, and help."""
    for words in (
        [],
        [""],
        ["runs"],
        ["--help"],
        ["-h"],
        ["--version"],
        ["-V"],
        ["help"],
        ["help", "serve"],
        ["help", "runs"],
        ["run", "--help"],
        ["run", "--limit", "0"],
        ["run", "--limit", "\u202e1\n"],
        ["run", "--max-output", "x"],
        ["run", "no.term"],
        ["run", "examples"],
        ["run", "-", "-"],
        ["replay"],
        ["replay", "--picks", "0 x"],
        ["replay", "--picks", "0 1"],
        ["replay", "--moves", "go 0!"],
        ["replay", "--picks-file", "-"],
        ["replay", "--picks-file", "-", "examples/send_hi.term"],
        ["replay", "--picks", "0", "--expect", "-"],
        ["explain", "--picks", "0", "--session", "none"],
        ["explain", "--picks", "0", "--move", "9"],
        ["workers"],
        ["workers", "--n", "17"],
        ["--", "serve"],
    ):
        yield words, SEND_HI
    for text in (b"{a}.\n", b"{a", b"", b"\n", b"{function,m,go,exported,[],[]}.\n", "é.\n".encode(), b"{a}.\n" * (TEXT_BYTES // 5 + 1)):
        for words in (["run"], ["replay", "--picks", ""], ["explain", "--round"]):
            yield words, text


def answers():
    """Each answer has what the program writes when it is started by itself, whatever was asked before."""
    asked = [*of_rows(), *of_examples(), *of_questions(), *of_mistakes()]
    ran, found = served([request(words, text) for words, text in asked])
    check("the status of serve", (ran.returncode, ran.stderr) == (0, b""), (ran.returncode, ran.stderr))
    check("one answer for each request", len(found) == len(asked), (len(found), len(asked)))
    commands = {words[0] for words, _ in asked if words}
    check("all commands are asked", {"run", "replay", "round", "workers", "explain", "state", "draw", "spec", "fun", "explore", "compare"} <= commands, commands)
    statuses = {answer.get("status") for answer in found}
    check("all statuses are answered", statuses == {0, 1, 2, 3, 4}, statuses)
    for (words, text), answer in zip(asked, found):
        wanted = started(words, text)
        check(f"the answer to {words} on {text[:20]}", answer == wanted, (answer, wanted))
        check(f"the schema of the answer to {words}", is_valid(answer), answer)
    again = served([request(words, text) for words, text in reversed(asked)])[1]
    check("the answers in another order", again == found[::-1], None)


def faults():
    """Lines that are no request: each has one error, in order, between requests that are answered."""
    good = request(ONE_SPEC)
    asked = [line for fault, _ in FAULTS for line in (fault, good)]
    ran, found = served(asked)
    wanted = [answer for _, reason in FAULTS for answer in ({"error": reason}, started(ONE_SPEC))]
    for line, seen, answer in zip(asked, found, wanted):
        check(f"the answer to the line {line[:60]}", seen == answer, seen)
        check(f"the schema of the answer to the line {line[:60]}", is_valid(seen), seen)
    check("an answer for each line", (len(found), ran.returncode, ran.stderr) == (len(asked), 0, b""), ran)


def lines():
    """How lines end, and how long they are."""
    good, wanted = request(ONE_SPEC), started(ONE_SPEC)
    for text, count in ((b"", 0), (good, 1), (good + b"\r\n", 1), (good + b"\n" + good, 2), (b"\n", 1), (good + b"\n\n", 2)):
        ran = run(["serve"], text, cwd=TOP)
        found = [json.loads(line) for line in ran.stdout.decode().splitlines()]
        right = [answer in (wanted, {"error": "the line is no JSON"}) for answer in found]
        check(f"the lines {text[-30:]}", ran.returncode == 0 and len(found) == count and all(right), ran)
    long = {"error": f"the line has more than {LINE_BYTES} bytes"}
    blanks = good + b" " * (LINE_BYTES - len(good))
    large = request(["run"], b"a" * 9 * 2**20)
    _, found = served([blanks, blanks + b" ", large, good, b"[" * (LINE_BYTES + 1), b"\xff" * LINE_BYTES, good])
    no_json = {"error": "the line is no JSON"}
    check("lines of about 8 MiB", found == [wanted, long, long, wanted, long, no_json, wanted], found)
    check("a last line that is too long", run(["serve"], large).stdout == json.dumps(long, separators=(",", ":")).encode() + b"\n")


def turns():
    """An answer is written before the next request is read."""
    pipe = subprocess.PIPE
    with subprocess.Popen([PROGRAM, "serve"], stdin=pipe, stdout=pipe, stderr=pipe, cwd=TOP) as process:
        for words in (ONE_SPEC, ["--version"], ["run", "examples/send_hi.term"], ONE_SPEC):
            process.stdin.write(request(words) + b"\n")
            process.stdin.flush()
            found = json.loads(process.stdout.readline())
            check(f"the answer to {words} comes at once", found == started(words), found)
        left = process.communicate(timeout=60)
        check("nothing is left", left == (b"", b"") and process.returncode == 0, left)


def many():
    """Two thousand requests in one run, and the same one has the same answer."""
    ran, found = served([request(ONE_SPEC)] * 2000)
    check("two thousand answers", ran.returncode == 0 and found == [started(ONE_SPEC)] * 2000, len(found))


def broken_ends():
    """Standard output that is full or closed, and standard input that can't be read."""
    asked = request(ONE_SPEC) + b"\n"
    with open("/dev/full", "wb") as full:
        ran = subprocess.run([PROGRAM, "serve"], input=asked, stdout=full, stderr=subprocess.PIPE, check=False)
        fault = b"fault 19 write after 0 bytes: No space left on device (os error 28)\n"
        check("answers to a full standard output", (ran.returncode, ran.stderr) == (3, fault), ran)
    reader, writer = os.pipe()
    os.close(reader)
    ran = subprocess.run([PROGRAM, "serve"], input=asked, stdout=writer, stderr=subprocess.PIPE, check=False)
    os.close(writer)
    check("answers to a closed pipe", (ran.returncode, ran.stderr) == (3, b""), ran)
    ran = run(["serve"], command=("sh", "-c", 'exec "$0" "$@" <&-', str(PROGRAM)))
    fault = b"fault 18 read: Bad file descriptor (os error 9)\n"
    check("requests from a closed standard input", (ran.returncode, ran.stdout, ran.stderr) == (3, b"", fault), ran)
    with tempfile.TemporaryDirectory() as folder:
        library = preloaded("failing_ends", folder)
        first = run(["serve"], asked).stdout
        for count in (5, len(first), len(first) + 7) if library else ():
            places = dict(os.environ, LD_PRELOAD=str(library), FAILS="1", WRITE_BYTES=str(count))
            ran = run(["serve"], asked * 2, env=places)
            good = ran.returncode == 3 and ran.stderr.startswith(b"fault 19 write after %d bytes" % count)
            check(f"answers to an output of {count} bytes", good and ran.stdout == (first * 2)[:count], ran)


def refused_answers():
    """Each growth of memory refused in turn: the answer is whole, a fault of the command or an error, and the next is right."""
    asked = [(["run"], SEND_HI), (SEND_HI_PICKS, SEND_HI), (["fun", FUN], b"")]
    text = b"".join(request(*each) + b"\n" for each in asked)
    wanted = [started(*each) for each in asked]
    kinds = set()
    with tempfile.TemporaryDirectory() as folder:
        library = preloaded("refusing_growth", folder)
        for number in range(100_000 if library else 0):
            ran, is_refused = refused_growth(library, number, ["serve"], text)
            if not is_refused:
                break
            found = [json.loads(line) for line in ran.stdout.splitlines()]
            if not found and (ran.returncode, ran.stderr) == (3, b"fault memory\n"):
                kinds.add("of serve")
                continue
            wrong = [answer for answer, right in zip(found, wanted) if answer != right]
            fault = {"status": 3, "output": "", "errors": "fault memory\n"}
            kinds.update("of the command" if answer == fault else "of the answer" for answer in wrong)
            good = all(answer in (fault, {"error": "fault memory"}) for answer in wrong)
            if not (good and len(wrong) <= 1 and len(found) == len(wanted) and ran.returncode == 0):
                check(f"growth {number} of serve", False, ran)
        if library:
            good = kinds == {"of serve", "of the command", "of the answer"} and number > 50
            check(f"each growth of serve, {number} of them", good, kinds)


def little_room():
    """A limit on the address space that one request passes: it has an error, and the next an answer."""
    large = request(["replay", "--picks", ""], b"{a}.\n" * (TEXT_BYTES // 5))
    small = 24 * 2**20

    def limit():
        resource.setrlimit(resource.RLIMIT_AS, (small, small))

    ran, found = served([request(ONE_SPEC), large, request(ONE_SPEC)], preexec_fn=limit)
    faults_of_memory = ({"error": "fault memory"}, {"status": 3, "output": "", "errors": "fault memory\n"})
    good = len(found) == 3 and found[0] == found[2] == started(ONE_SPEC) and found[1] in faults_of_memory
    check("a request that takes too much memory", good and ran.returncode == 0, (found, ran.returncode, ran.stderr))
