"""Cases of the command `draw`, and of the manual's chapter on it."""
import json
import re
import shlex
import tempfile
import xml.etree.ElementTree as ElementTree

from explanation_cases import blocks, chapter
from harness import EXAMPLES, SEND_HI, TOP, check, parsed, run, wants
from run_cases import notes_of
from schemas import is_valid

SVG = "{http://www.w3.org/2000/svg}"

# The pictures in docs, each of the example of its name.
PICTURES = ("worker_pool", "exceptions")

# A process that starts another, links itself to it, and sends to a process that never was.
FAMILY = b"""{function,m,go,exported,[],[{spawn,'X',{m,child},[]},{link,'X'},{send,<0.7.0>,hi}]}.
{function,m,child,exported,[],[{'receive','X'}]}.
{process,m,go,[]}.
{control,[{session_create,s,t,[]},{process,s,all,true,[procs]}]}.
"""


def picks_of(script):
    """The picks by which an example's listing is made."""
    words = shlex.split(notes_of(script)[0][0].partition(" < ")[0])[1:]
    return words[words.index("--picks") + 1]


def listings(script, picks):
    """The lines of each session's listing, in the order of the sessions."""
    text = run(["replay", "--picks", picks, "--quiet"], script).stdout.decode().partition("== replies\n")[0]
    return [part.splitlines()[1:] for part in re.split(r"^(?=== session )", text, flags=re.M) if part]


def hue(session):
    """The colour of a session by its number."""
    return f"hsl({137 * session},90%,35%)"


def tooltips(picture):
    """Each mark that has a tooltip, by its colour, in order."""
    for group in picture.iter(f"{SVG}g"):
        titles = group.findall(f"{SVG}title")
        if titles:
            yield group.get("stroke"), [title.text for title in titles]


def is_shown(text, title):
    """Whether a text is short, or has 100 letters of its tooltip and two dots."""
    if title is None:
        return len(text) <= 100
    return len(title.text) > 100 and title.tail == f"{title.text[:100]}.."


def rows_of_json(name, script, picks, wanted):
    """The rows of a picture as JSON: each is valid, and the messages of a session are the lines of its listing."""
    ran = run(["draw", "--picks", picks, "--json"], script)
    rows = [parsed(f"a row of example {name}", json.loads, line) for line in ran.stdout.decode().splitlines()]
    check(f"the rows of example {name}", ran.returncode == 0 and all(map(is_valid, rows)), ran)
    sessions = [row for row in rows if "session" in row]
    check(f"the sessions of example {name}", [row["number"] for row in sessions] == list(range(1, len(wanted) + 1)), rows)
    events = [row for row in rows if "row" in row]
    check(f"the numbers of the rows of example {name}", [row["row"] for row in events] == list(range(len(events))), rows)
    reports = [report for row in events for report in row["reports"]]
    seen = [[report["text"] for report in reports if report["number"] == one["number"]] for one in sessions]
    check(f"the messages in the rows of example {name}", seen == wanted, (seen, wanted))


def pictures():
    """The picture of each example parses; each line of a listing is one tooltip, in order, in its session's colour."""
    for script in sorted(EXAMPLES.glob("*.term")):
        text, picks = script.read_bytes(), picks_of(script)
        ran = run(["draw", "--picks", picks], text)
        check(f"the picture of example {script.stem}", ran.returncode == 0 and not ran.stderr, ran)
        picture = parsed(f"the picture of example {script.stem}", ElementTree.fromstring, ran.stdout)
        if picture is None:
            continue
        marks = list(tooltips(picture))
        wanted = listings(text, picks)
        numbers = range(1, len(wanted) + 1)
        seen = [[title for colour, titles in marks if colour == hue(number) for title in titles] for number in numbers]
        check(f"the tooltips of example {script.stem}", seen == wanted, (seen, wanted))
        titles = sum(len(group.findall(f"{SVG}title")) for group in picture.iter(f"{SVG}g"))
        check(f"the number of tooltips of example {script.stem}", titles == sum(map(len, wanted)) == len(marks), titles)
        cut = [(part.text or "", part.find(f"{SVG}title")) for part in picture.iter(f"{SVG}text")]
        check(f"the texts of example {script.stem}", all(is_shown(*pair) for pair in cut), cut)
        rows_of_json(script.stem, text, picks, wanted)
        plain = run(["draw", "--picks", picks, "--text"], text).stdout.decode().splitlines()
        counts = [sum(line.split().count(f"=>{number}") for line in plain[len(wanted) :]) for number in numbers]
        check(f"the lines of example {script.stem}", counts == list(map(len, wanted)), counts)
        if script.stem in PICTURES:
            check(f"docs/{script.stem}.svg", (TOP / "docs" / f"{script.stem}.svg").read_bytes() == ran.stdout)


def drawings():
    """The manual's sample, refusals, a text with markup, and files."""
    for sample in blocks(chapter("Drawing a run"))[1:3]:
        words = shlex.split(sample[0])[1:]
        words[words.index("examples/send_hi.term")] = str(EXAMPLES / "send_hi.term")
        wants(f"the manual's picture by {words[-1]}", run(words), 0, ("\n".join(sample[1:]) + "\n").encode())
    both = run(["draw", "--picks", "0", "--text", "--json"], SEND_HI)
    check("a picture as lines and as JSON", both.returncode == 2 and not both.stdout and b"--json" in both.stderr, both)
    wants("a picture by bad picks", run(["draw", "--picks", "0 00"], SEND_HI), 2, b"")
    for words in ([], ["--text"], ["--json"]):
        wants(f"a picture of no script {' '.join(words)}", run(["draw", "--picks", "0", *words], b"{"), 2, b"")
    one = ["draw", "--picks", "0", "--text"]
    wants("a picture that is expected", run([*one, "--expect-line", "=>1 session s1"], SEND_HI), 0, run(one, SEND_HI).stdout)
    wants("an empty picture", run(["draw", "--picks", "", "--text"]), 0, b"        \n")
    marked = SEND_HI.replace(b"hi,", b"'<&\">',")
    ran = run(["draw", "--picks", "0 0 100 100"], marked)
    picture = parsed("a picture with markup", ElementTree.fromstring, ran.stdout)
    titles = [title for _, titles in tooltips(picture) for title in titles] if picture is not None else []
    check("a tooltip with markup", titles == ["{trace,<0.100.0>,send,{'<&\">',1},<0.101.0>}"], ran)
    with tempfile.NamedTemporaryFile(suffix=".term") as script:
        script.write(SEND_HI)
        script.flush()
        of_file = run(["draw", script.name, "--picks", "0 0 100 100"])
        wants("a picture from a file", run(["draw", "--picks", "0 0 100 100"], SEND_HI), 0, of_file.stdout)
    for name, words in {"a picture without picks": ["draw"], "a picture of a session": [*one, "--session", "s1"]}.items():
        ran = run(words, SEND_HI)
        check(name, ran.returncode == 2 and not ran.stdout and ran.stderr, ran)


# Two processes of which the first calls 51 functions, one inside the other, and returns from all.
DEEP = b"".join(
    [
        *(b"{function,m,f%d,exported,[],[{call,'_',f%d,[]},{return,a}]}. " % (depth, depth + 1) for depth in range(50)),
        b"{function,m,f50,exported,[],[{return,a}]}. {function,m,rest,exported,[],[{'receive','X'}]}. ",
        b"{process,m,f0,[]}. {process,m,rest,[]}. ",
        b"{control,[{session_create,s,t,[]},{process,s,all,true,[call]},{function,s,{m,'_','_'},true,[local]}]}.",
    ]
)


def columns():
    """Between the line of a process and that of the next one there is room for all of its frames, which are 8 apart."""
    ran = run(["draw", "--moves", "0! 100! 101!"], DEEP)
    picture = parsed("a picture of deep calls", ElementTree.fromstring, ran.stdout)
    if picture is None:
        return
    lines = [int(text.get("x")) for text in picture.iter(f"{SVG}text") if text.get("text-anchor") == "middle"]
    frames = [re.fullmatch(r"M(\d+) \d+(v-6l9 6l-9 6z|l9 -6v12z)", path.get("d")) for path in picture.iter(f"{SVG}path")]
    starts = [int(frame[1]) for frame in frames if frame and frame[2][0] == "v"]
    check("the lines of deep calls", len(lines) == 2, lines)
    check("the frames of deep calls", {start - lines[0] for start in starts} >= set(range(8, 8 * 52, 8)), starts)
    own = [start for start in starts if start < lines[1]]
    check("a frame between two lines", len(own) == len(starts) - 1 and max(own) + 9 < lines[1] - 6, (own, lines))
    shift = [re.fullmatch(r"translate\((\d+)\)", group.get("transform") or "") for group in picture.iter(f"{SVG}g")]
    shift = int(next(found for found in shift if found)[1])
    # the letters are 8 wide, and the line of a command is the leftmost mark
    ends = [int(text.get("x")) + 8 * len(text.text or "") for text in picture.iter(f"{SVG}text") if text.get("x") == "60"]
    check("no text is over a mark", max(ends) <= shift + 50, (ends, shift))
    # 52 calls, 51 returns and an exit
    texts = [(text.text, text.get("fill")) for text in picture.iter(f"{SVG}text") if (text.text or "").startswith("{trace,")]
    check("the texts of calls", len(texts) == 104 and all((",call," in text) == (fill is None) for text, fill in texts), texts)


def life_lines():
    """A process that is spawned has its column from its birth, and none after its exit; worked by hand."""
    ran = run(["draw", "--picks", "0 0 100 100 100 100 100", "--text"], FAMILY)
    lines = [line[8:32] for line in ran.stdout.decode().splitlines()[2:]]
    shaft, blank = "-" * 11, " " * 11
    wanted = [
        "=========== =========== ",  # the session is created
        "=========== =========== ",  # it sets its flags
        f"[1{blank[1:]}{' ' * 12}",  # the entry call, before the other is born
        f"*{shaft}>{blank}",  # the spawn
        f"|{blank}+{blank}",  # the birth
        f"*{shaft}>{blank}",  # the link
        f"|{blank}o{blank}",  # what the other has of it
        f"*{shaft}-{shaft}",  # the send to no process
    ]
    check("the life lines of a family", lines[: len(wanted)] == wanted, lines)
