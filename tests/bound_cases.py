"""Cases of outputs that are longer than they may be, and of runs that need more memory than they may have."""
import os
import subprocess
import tempfile
from pathlib import Path

from format_cases import SEND_HI_JSON, SEND_HI_MOVE, SEND_HI_SUMMARY
from harness import EMPTY, NO_FORMS, PROGRAM, SEND_HI, SEND_HI_OUTPUT, SEND_HI_PICKS, check, run, wants

QUIET = [*SEND_HI_PICKS, "--quiet"]
EXPLAIN = ["explain", "--picks", "0 0 100 100"]
STATE = ["state", "--picks", "0 0 100 100", "--at", "4"]
DRAW = ["draw", "--picks", "0 0 100 100"]

# Command lines whose outputs are worked out by hand.
KNOWN = (
    (QUIET, SEND_HI_OUTPUT),
    (["replay", "--moves", "0! 100*2", "--quiet"], SEND_HI_OUTPUT),
    ([*QUIET, "--strict"], SEND_HI_OUTPUT),
    ([*QUIET, "--summary"], SEND_HI_SUMMARY),
    ([*QUIET, "--json"], SEND_HI_JSON),
    ([*EXPLAIN, "--move", "4", "--json"], SEND_HI_MOVE),
)

# Command lines of which the length of the output is that of the output without a bound.
OTHERS = (
    ["round", "--quiet"],
    ["round", "--control", "first", "--quiet"],
    ["round", "--quiet", "--json"],
    ["workers", "--n", "1", "--quiet"],
    ["workers", "--n", "1", "--quiet", "--summary"],
    ["workers", "--n", "1", "--quiet", "--json"],
    EXPLAIN,
    [*EXPLAIN, "--json"],
    ["explain", "--moves", "0! 100*2"],
    ["explain", "--round"],
    STATE,
    [*STATE, "--json"],
    ["state", "--round", "--at", "0"],
    DRAW,
    [*DRAW, "--text"],
    ["draw", "--moves", "0! 100*2"],
    ["draw", "--moves", "0! 100*2", "--text"],
)

# Those whose run ends as soon as its listings alone are too long: in 1 byte, the listings of this run are.
ENDED = (
    QUIET,
    ["replay", "--moves", "0! 100*2", "--quiet"],
    [*QUIET, "--strict"],
    ["round", "--quiet"],
    ["round", "--control", "first", "--quiet"],
)

COMMANDS = (SEND_HI_PICKS, ["round"], ["workers", "--n", "1"], EXPLAIN, STATE, DRAW)


def fault_of(length, most):
    """The line of an output of this length that may have so many bytes."""
    return b"fault output: the output has %d bytes, and --max-output is %d\n" % (length, most)


def fault_of_run(most):
    """The line of a run that ended since its listings alone have more bytes."""
    return b"fault output: the output has more than %d bytes, and --max-output is %d\n" % (most, most)


def bounds():
    """An output that is as long as it may be is written, and one that is a byte longer is a fault."""
    known = [(words, run(words, SEND_HI).stdout) for words in OTHERS]
    for words, output in (*KNOWN, *known):
        name, length = " ".join(words), len(output)
        check(f"the output of {name}", length > 100, output)
        for most in (length, length + 1, 4294967295):
            wants(f"{name} in {most} bytes", run([*words, "--max-output", str(most)], SEND_HI), 0, output, b"")
        for most in (length - 1, 1):
            ran = run([*words, "--max-output", str(most)], SEND_HI)
            line = fault_of_run(most) if most == 1 and words in ENDED else fault_of(length, most)
            wants(f"{name} in {most} bytes", ran, 3, b"", line)
    wants("an empty output as a fault", run(["replay", "--picks", "", "--max-output", "22"]), 3, b"", fault_of(len(EMPTY), 22))
    wants("an empty output", run(["replay", "--picks", "", "--max-output", "23"]), 0, EMPTY, NO_FORMS)
    held = [*QUIET, "--max-output", "112", "--expect-line", "hi"]
    wants("a fault, whatever is expected", run(held, SEND_HI), 3, b"", fault_of(113, 112))


def refusals_in_bounds():
    """The line of a refusal is written whatever the bound; what has no output has none that is too long."""
    for words in COMMANDS:
        plain, ran = run(words, b"["), run([*words, "--max-output", "1"], b"[")
        seen = (ran.returncode, ran.stdout, ran.stderr)
        line = b"" if words[0] == "draw" else b"refused 2 token at 1\n"
        check(f"{words[0]} refused in one byte", seen == (2, line, plain.stderr), ran)
    ran = run(["replay", "--picks", "x", "--max-output", "1"], SEND_HI)
    wants("bad picks in one byte", ran, 2, b"refused 20 bad picks\n")
    ran = run([*EXPLAIN, "--move", "9", "--max-output", "1"], SEND_HI)
    wants("no such move in one byte", ran, 2, b"", b"error: the run has no move 9: its moves are 1 to 4\n")


def bad_bounds():
    """Bounds that are no numbers from 1 to 4294967295 are refused as other bad numbers are."""
    for words in COMMANDS:
        for text in ("0", "-1", "4294967296", "ten", "1G", "1 0", "+5", ""):
            ran = run([*words, "--max-output", text], SEND_HI)
            check(f"{words[0]} in {text!r} bytes", ran.returncode == 2 and not ran.stdout and ran.stderr, ran)
        for more in (["--max-output"], ["--max-output", "9", "--max-output", "9"]):
            ran = run([*words, *more], SEND_HI)
            check(f"{words[0]} with {more}", ran.returncode == 2 and not ran.stdout and ran.stderr, ran)
    ran = run(["spec", "--list", "[]", "--max-output", "9", "[]"])
    check("a test of a match specification with a bound", ran.returncode == 2 and not ran.stdout and ran.stderr, ran)


# A list of 4,096 atoms, 60 sends of a tuple of eight such lists, and 16 sessions that report them.
SESSIONS, SENDS = range(1, 17), 60
LETTERS = f"[{','.join(['a'] * 4096)}]"
MESSAGE = f"{{{','.join([LETTERS] * 8)}}}"
STEP = "{send,'To',{%s}}" % ",".join(["'X'"] * 8)
SET = ",".join(f"{{session_create,s{n},t{n},[]}},{{process,s{n},<0.100.0>,true,[send]}}" for n in SESSIONS)
LARGE = f"""{{function,m,go,exported,['To','X'],[{','.join([STEP] * SENDS)}]}}.
{{function,m,rest,exported,[],[{{'receive','_'}}]}}.
{{process,m,go,[<0.101.0>,{LETTERS}]}}.
{{process,m,rest,[]}}.
{{control,[{SET}]}}.
""".encode()
# The first move of a process is its entry call.
LARGE_MOVES = f"0*{2 * len(SESSIONS)} 100*{SENDS + 1}"


def large_output():
    """The output of that run."""
    line = f"{{trace,<0.100.0>,send,{MESSAGE},<0.101.0>}}\n"
    listings = "".join(f"== session s{n} tracer t{n}\n" + line * SENDS for n in SESSIONS)
    replies = "".join(f"{{session,s{n}}}\n1\n" for n in SESSIONS)
    picks = " ".join(["0"] * (2 * len(SESSIONS)) + ["100"] * (SENDS + 1))
    return f"{listings}== replies\n{replies}== journal\n{picks}\n".encode()


# 128 sessions report sends of such tuples, 60 in one call of f, 60 calls of f in one of g.
MANY_SESSIONS = range(1, 129)
MANY_SET = ",".join(f"{{session_create,s{n},t{n},[]}},{{process,s{n},<0.100.0>,true,[send]}}" for n in MANY_SESSIONS)
ENDLESS = f"""{{function,m,f,exported,['To','X'],[{','.join([STEP] * SENDS)}]}}.
{{function,m,g,exported,['To','X'],[{','.join(["{call,'_',{m,f},['To','X']}"] * SENDS)}]}}.
{{function,m,go,exported,['To','X'],[{','.join(["{call,'_',{m,g},['To','X']}"] * SENDS)}]}}.
{{function,m,rest,exported,[],[{{'receive','_'}}]}}.
{{process,m,go,[<0.101.0>,{LETTERS}]}}.
{{process,m,rest,[]}}.
{{control,[{MANY_SET}]}}.
""".encode()
ENDLESS_PICKS = " ".join(["0"] * (2 * len(MANY_SESSIONS)) + ["100"] * 30_000)


def endless_outputs():
    """Runs whose listings would have some hundred GB end once these have more bytes than the output may have."""
    limited = ("sh", "-c", 'ulimit -v 400000 && exec "$0" "$@"', str(PROGRAM))
    bound = ["--max-output", "1000000"]
    for words in (["replay", "--picks", ENDLESS_PICKS], ["round", "--limit", "65536"]):
        for more in ([], ["--quiet"]):
            name = " ".join([words[0], *more])
            ran = run([*words, *more, *bound], ENDLESS, command=limited)
            wants(f"an output of some hundred GB of {name}", ran, 3, b"", fault_of_run(1_000_000))


def little_memory():
    """A run that needs more memory than the shell lets it have is a fault, and nothing is written."""
    limited = ("sh", "-c", 'ulimit -v 40000 && exec "$0" "$@"', str(PROGRAM))
    output = large_output()
    check("a large output", len(output) > 60_000_000, len(output))
    moves = ["--moves", LARGE_MOVES]
    words = ["replay", *moves, "--quiet"]
    ran = run(words, LARGE)
    check("the large output", (ran.returncode, ran.stdout, ran.stderr) == (0, output, b""), (ran.returncode, ran.stderr))
    ran = run([*words, "--max-output", "1000"], LARGE)
    wants("the large output in 1000 bytes", ran, 3, b"", fault_of_run(1000))
    wants("a small output in little memory", run(QUIET, SEND_HI, command=limited), 0, SEND_HI_OUTPUT, b"")
    for words in (words, ["round"], ["explain", *moves], ["draw", *moves]):
        wants(f"{words[0]} in little memory", run(words, LARGE, command=limited), 3, b"", b"fault memory\n")


def memory_bounds():
    """A run that needs more memory than it may have is a fault, and nothing is written; in more memory it is as without."""
    output = large_output()
    moves = ["--moves", LARGE_MOVES]
    replayed = ["replay", *moves, "--quiet"]
    little, ample = ["--max-memory", "40000000"], ["--max-memory", "900000000"]
    wants("a large output in 900 MB", run([*replayed, *ample], LARGE), 0, output, b"")
    explored = ["explore", "--after", LARGE_MOVES, "--session", "s1"]
    for words in (replayed, ["round"], ["explain", *moves], ["draw", *moves], [*replayed, "--strict"], explored):
        wants(f"{words[0]} in 40 MB", run([*words, *little], LARGE), 3, b"", b"fault memory\n")
    held = ["state", *moves, "--at", str(2 * len(SESSIONS) + SENDS + 1)]
    wants("state in 2 MB", run([*held, "--max-memory", "2000000"], LARGE), 3, b"", b"fault memory\n")
    for count in ("1", "4"):
        ran = run(["workers", "--n", count, "--quiet", *little], LARGE)
        told = ran.stderr in (b"fault memory\n", b"fault workers\n")
        check(f"{count} workers in 40 MB", ran.returncode == 3 and not ran.stdout and told, ran)
    known = [(words, run(words, SEND_HI).stdout) for words in OTHERS]
    for words, output in (*KNOWN, *known):
        name = " ".join(words)
        for most in ("2000000", "18446744073709551615"):
            wants(f"{name} in {most} bytes of memory", run([*words, "--max-memory", most], SEND_HI), 0, output, b"")
        wants(f"{name} in a byte of memory", run([*words, "--max-memory", "1"], SEND_HI), 3, b"", b"fault memory\n")
    for words in (["explore"], ["explore", "--json"], ["round", "--expect-line", "hi"]):
        wants(f"{words} in a byte of memory", run([*words, "--max-memory", "1"], SEND_HI), 3, b"", b"fault memory\n")


def bad_memory_bounds():
    """Bounds of memory that are no numbers of 64 bits from 1 are refused as other bad numbers are."""
    for words in (*COMMANDS, ["explore"]):
        for text in ("0", "-1", "18446744073709551616", "ten", "1G", "1 0", "+5", ""):
            ran = run([*words, "--max-memory", text], SEND_HI)
            check(f"{words[0]} in {text!r} bytes of memory", ran.returncode == 2 and not ran.stdout and ran.stderr, ran)
        for more in (["--max-memory"], ["--max-memory", "9", "--max-memory", "9"]):
            ran = run([*words, *more], SEND_HI)
            check(f"{words[0]} with {more}", ran.returncode == 2 and not ran.stdout and ran.stderr, ran)
    ran = run(["spec", "--list", "[]", "--max-memory", "9", "[]"])
    check("a test of a match specification with a bound of memory", ran.returncode == 2 and not ran.stdout and ran.stderr, ran)


def folder_holds(name, folder, files):
    """A folder has just these files with these bytes."""
    seen = {path.name: path.read_bytes() for path in folder.iterdir()}
    check(name, seen == files, seen)


def output_files():
    """The output goes to the file of --output, whole or not at all."""
    with tempfile.TemporaryDirectory() as made:
        folder = Path(made)
        path = folder / "output.txt"
        for words, output in KNOWN:
            name = " ".join(words)
            wants(f"{name} to a file", run([*words, "-o", str(path)], SEND_HI), 0, b"", b"")
            folder_holds(f"the file of {name}", folder, {"output.txt": output})
        unmet = run([*QUIET, f"--output={path}", "--expect-line", "none"], SEND_HI)
        wants("an output to a file that isn't as expected", unmet, 1, b"", b"error: the output has no line none\n")
        folder_holds("its file", folder, {"output.txt": SEND_HI_OUTPUT})
        refused = run([*QUIET, "-o", str(path)], b"[")
        check("a refusal in place of a file", refused.returncode == 2 and refused.stdout.startswith(b"refused 2"), refused)
        wants("a long output in place of a file", run([*QUIET, "-o", str(path), "--max-output", "112"], SEND_HI), 3, b"", fault_of(113, 112))
        folder_holds("the file after both", folder, {"output.txt": SEND_HI_OUTPUT})
        nowhere = folder / "none" / "output.txt"
        line = f"error: {nowhere}: No such file or directory (os error 2)\n".encode()
        wants("a file in no folder", run([*QUIET, "-o", str(nowhere)], SEND_HI), 3, b"", line)
        (folder / "full").mkdir()
        line = f"error: {folder / 'full'}: Is a directory (os error 21)\n".encode()
        wants("a folder as the file", run([*QUIET, "-o", str(folder / "full")], SEND_HI), 3, b"", line)
        (folder / "link").symlink_to(path)
        wants("an output by a link", run([*QUIET, "-o", str(folder / "link")], SEND_HI), 0, b"", b"")
        check("the link stays", (folder / "link").is_symlink() and path.read_bytes() == SEND_HI_OUTPUT, folder)
        (folder / "link").unlink()
        os.mkfifo(folder / "pipe")
        with subprocess.Popen(["cat", str(folder / "pipe")], stdout=subprocess.PIPE) as reader:
            wants("an output to a pipe", run([*QUIET, "-o", str(folder / "pipe")], SEND_HI), 0, b"", b"")
            check("what the pipe has", reader.communicate(timeout=60)[0] == SEND_HI_OUTPUT, folder)
        (folder / "pipe").unlink()
        check("no part of it is left", sorted(each.name for each in folder.iterdir()) == ["full", "output.txt"], list(folder.iterdir()))
