"""Cases of the command line and of the start script: files, wrong words, help, builds, links and installations."""
import datetime
import difflib
import hashlib
import os
import pathlib
import re
import shlex
import subprocess
import tarfile
import tempfile

from harness import EMPTY, EXAMPLES, NO_FORMS, PROGRAM, ROWS, SEND_HI, SEND_HI_OUTPUT, SEND_HI_PICKS, START
from harness import TEXT_BYTES, TOP, check, note_of_nobody, run, wants
from inventories import said_version

HELPS = ("run", "replay", "round", "workers", "explain", "state", "draw", "spec", "fun", "explore", "compare", "serve")
OF_A_RETURN = b"expected line %d ends in a carriage return, which no line of an output has\n"


def tries():
    """The start script where nothing is built: which program answers, its status and what it says."""
    kit = """#!/bin/sh
echo "checked: none" >&2
echo "interpreter: none" >&2
echo "races: none" >&2
echo "fault of the program" >&2
echo "run=none" >&2
while [ "$1" != -- ]; do shift; done
shift
echo "${PWD##*/} $*"
exit 7
"""
    limits = {limit: ["round", "--limit", limit] for limit in ("1", "65536", "65537", "01", "ten")}
    explain = ["explain", "--picks", "0", "--session", "s1", "--move", "2"]
    words = {
        "tn_plain": (["run"], ["replay", "--picks", "0 0"], ["replay", "--picks", ""], ["round"], limits["1"], limits["65536"]),
        "tn_cli": (
            ["--help"],
            ["replay"],
            limits["65537"],
            limits["01"],
            limits["ten"],
            ["workers", "--n", "2"],
            explain,
            ["replay", "--picks", "0", "--quiet"],
            ["run", "--quiet"],
            ["run", "--limit", "5"],
            ["draw", "--round", "--limit", "5"],
            ["round", "--quiet"],
            ["round", "--expect-line", "x"],
            ["round", "--max-output", "9"],
            ["round", "--max-memory", "9"],
            ["round", "--control", "first"],
            ["replay", "--moves", "0! *"],
            ["explain", "--round", "--limit", "5"],
        ),
    }
    with tempfile.TemporaryDirectory() as folder:
        top = pathlib.Path(folder)
        for name in words:
            (top / "crates" / name / "src").mkdir(parents=True)
            (top / "crates" / name / "src" / "main.rt").touch()
        (top / "crates.txt").touch()
        for name, text in (("tracenode", START.read_text()), ("rt", kit)):
            (top / name).write_text(text)
            (top / name).chmod(0o755)
        path = dict(os.environ, PATH=f"{folder}:{os.environ['PATH']}")
        for name, lines in words.items():
            for line in lines:
                ran = run(line, command=(str(top / "tracenode"),), env=path)
                told = ran.stderr.decode().splitlines()[1:]
                wanted = f"{name} {' '.join(line)}\n".encode()
                good = (ran.returncode, ran.stdout, told) == (7, wanted, ["fault of the program"])
                check(f"{line} where nothing is built", good, ran)
        there = os.path.realpath(folder)
        line = ["replay", "a.term", "--picks-file", "b c"]
        ran = run(line, command=(str(top / "tracenode"),), env=path, cwd=folder)
        wanted = f"tn_cli replay {there}/a.term --picks-file {there}/b c\n"
        check("files where nothing is built", ran.stdout.decode() == wanted, ran)
        line = ["explain", "--session", "s1", "a.term", "--picks-file=b", "--move", "2"]
        ran = run(line, command=(str(top / "tracenode"),), env=path, cwd=folder)
        wanted = f"tn_cli explain --session s1 {there}/a.term --picks-file={there}/b --move 2\n"
        check("files of an explanation where nothing is built", ran.stdout.decode() == wanted, ran)
        line = ["explain", "--node", "a.term", "--picks-file=b"]
        ran = run(line, command=(str(top / "tracenode"),), env=path, cwd=folder)
        wanted = f"tn_cli explain --node {there}/a.term --picks-file={there}/b\n"
        check("files after a flag where nothing is built", ran.stdout.decode() == wanted, ran)
        line = ["round", "--expect", "b", "a.term", "--expect=c=d", "--expect-line", "x", "--reject-line", "-y"]
        ran = run([*line, "--max-output", "9"], command=(str(top / "tracenode"),), env=path, cwd=folder)
        wanted = f"tn_cli round --expect {there}/b {there}/a.term --expect={there}/c=d --expect-line x"
        wanted += " --reject-line -y --max-output 9\n"
        check("files of an expectation where nothing is built", ran.stdout.decode() == wanted, ran)
        ran = run(["workers", "--n", "1", "a.term", "--expect-session", "s", "b"], command=(str(top / "tracenode"),), env=path, cwd=folder)
        wanted = f"tn_cli workers --n 1 {there}/a.term --expect-session s {there}/b\n"
        check("the file of a listing where nothing is built", ran.stdout.decode() == wanted, ran)
        ran = run(["spec", "--list", "[]", "--file", "b", "--file=c"], command=(str(top / "tracenode"),), env=path, cwd=folder)
        check("the file of a specification where nothing is built", ran.stdout.decode() == f"tn_cli spec --list [] --file {there}/b --file={there}/c\n", ran)
        line = ["round", "--limit", "5", "/x/a.term"]
        ran = run(line, command=(str(top / "tracenode"),), env=path, cwd=folder)
        check("a whole path where nothing is built", ran.stdout == b"tn_cli round --limit 5 /x/a.term\n", ran)


def files():
    """Scripts and picks from files, and files that can't be read."""
    with tempfile.TemporaryDirectory() as folder:
        place = pathlib.Path(folder)
        script, picks, ill = place / "script.term", place / "picks", place / "ill"
        script.write_bytes(SEND_HI)
        picks.write_text("0 0 100 100")
        ill.write_bytes(b"0 \xff")
        replay = ["replay", str(script), "--picks"]
        wants("a script from a file", run([*replay, "0 0 100 100"]), 0, SEND_HI_OUTPUT)
        wants("a script by -", run(["replay", "-", "--picks", "0 0 100 100"], SEND_HI), 0, SEND_HI_OUTPUT)
        from_file = ["replay", str(script), "--picks-file"]
        wants("picks from a file", run([*from_file, str(picks)]), 0, SEND_HI_OUTPUT)
        picks.write_text("0 0 100 100\n")
        wants("picks with a line feed", run([*from_file, str(picks)]), 0, SEND_HI_OUTPUT)
        picks.write_text("0 0 100 100\n\n")
        check("picks with two line feeds", run([*from_file, str(picks)]).stdout == b"refused 20 bad picks\n")
        picks.write_text("0 0 100 100")
        wants("picks from standard input", run([*from_file, "-"], b"0 0 100 100"), 0, SEND_HI_OUTPUT)
        ran = run(["replay", "--picks-file", str(picks)], SEND_HI)
        wants("picks from a file, a script from standard input", ran, 0, SEND_HI_OUTPUT)
        bad = b"refused 20 bad picks\n"
        check("ill-formed picks from a file", run([*from_file, str(ill)]).stdout == bad)
        picks.write_text("0" * (TEXT_BYTES + 1))
        check("too long picks from a file", run([*from_file, str(picks)]).stdout == bad)
        picks.write_text(" ".join(["999"] * 262_144))
        ran = run([*from_file, str(picks)])
        check("picks of 1,048,575 bytes", ran.returncode == 0 and ran.stdout.endswith(b"== journal\n\n"), ran)
        for name in (place / "absent", place, script / "below"):
            for words in (["replay", str(name), "--picks", "0"], ["round", str(name)], [*from_file, str(name)]):
                ran = run(words)
                good = ran.returncode == 2 and not ran.stdout and ran.stderr.count(b"\n") == 1
                check(f"{name.name} as a file of {words[0]}", good and str(name).encode() in ran.stderr, ran)
        for words in (["replay", "--picks-file", "-"], ["replay", "-", "--picks-file", "-"]):
            ran = run(words, SEND_HI)
            check(f"both from standard input by {words}", ran.returncode == 2 and not ran.stdout and ran.stderr, ran)
        ran = run([*replay, "0", "--picks-file", str(picks)])
        check("picks of both kinds", ran.returncode == 2 and not ran.stdout and ran.stderr, ran)
        ran = run([*replay, "0", "--picks", "0"])
        check("picks twice", ran.returncode == 2 and not ran.stdout and ran.stderr, ran)
        ran = run(["workers", str(script), "--n", "2"])
        check("a script from a file by workers", ran.returncode == 0 and ran.stdout.startswith(b"== session s1"), ran)


def command_lines():
    """Help, wrong usage and wrong arguments."""
    kit = subprocess.run(["rt", "version"], stdout=subprocess.PIPE, check=False).stdout
    logic = b"".join(kit.partition(b"logic")[1:])
    for word in ("--version", "-V"):
        wants(f"version by {word}", run([word]), 0, f"tracenode {said_version()}\n".encode() + logic)
    for word in ("--help", "-h"):
        ran = run([word])
        names = (b"run", b"replay", b"round", b"workers", b"explain", b"state", b"draw", b"spec", b"Examples:", b"Exit status:", b"A pick says")
        good = ran.returncode == 0 and all(name in ran.stdout for name in names)
        check(f"help by {word}", good and not ran.stderr, ran)
    wrong = {
        "no subcommand": [],
        "an unknown subcommand": ["trace"],
        "an unknown option": ["replay", "--pick", "0"],
        "no picks": ["replay"],
        "picks without a text": ["replay", "--picks"],
        "a limit of 0": ["round", "--limit", "0"],
        "a run with a limit of 0": ["run", "--limit", "0"],
        "a run with an order of commands": ["run", "--control", "first"],
        "a picture of a round with picks": ["draw", "--round", "--picks", "0"],
        "a picture of a round with a limit of 0": ["draw", "--round", "--limit", "0"],
        "a limit of 65537": ["round", "--limit", "65537"],
        "a limit of letters": ["round", "--limit", "ten"],
        "a limit below 0": ["round", "--limit", "-1"],
        "workers without a number": ["workers"],
        "no workers": ["workers", "--n", "0"],
        "17 workers": ["workers", "--n", "17"],
        "workers by letters": ["workers", "--n", "two"],
        "no turns": ["workers", "--n", "2", "--turns", "0"],
        "65537 turns": ["workers", "--n", "2", "--turns", "65537"],
        "turns by letters": ["workers", "--n", "2", "--turns", "many"],
        "a seed by letters": ["workers", "--n", "2", "--spread", "seed"],
        "a seed that is past 32 bits": ["workers", "--n", "2", "--spread", "4294967296"],
        "a replay with a seed": ["replay", "--picks", "0", "--spread", "1"],
        "a quiet explanation": ["explain", "--picks", "0", "--quiet"],
        "a flag with a value": ["replay", "--picks", "0", "--quiet=true"],
        "a flag twice": ["replay", "--picks", "0", "--quiet", "--quiet"],
        "a replay with the flag of explanations": ["replay", "--picks", "0", "--node"],
        "a round with the flag of explanations": ["round", "--node"],
        "a replay with the message of explanations": ["replay", "--picks", "0", "--message", "'_'"],
        "a message that is sent and isn't": ["explain", "--picks", "0", "--message", "'_'", "--why-not", "'_'"],
        "a message and a move": ["explain", "--picks", "0", "--message", "'_'", "--move", "1"],
        "a message and a node": ["explain", "--picks", "0", "--message", "'_'", "--node"],
        "a missing message and a move": ["explain", "--picks", "0", "--move", "1", "--why-not", "'_'"],
        "a missing message and a node": ["explain", "--picks", "0", "--node", "--why-not", "'_'"],
        "a message without a pattern": ["explain", "--picks", "0", "--message"],
    }
    for name, words in wrong.items():
        ran = run(words, SEND_HI)
        check(name, ran.returncode == 2 and not ran.stdout and ran.stderr, ran)
    ran = run([b"replay", b"--picks", b"0 \xff"], SEND_HI)
    check("ill-formed picks", ran.returncode == 2 and ran.stdout == b"refused 20 bad picks\n", ran)
    ran = run([b"round", b"--lim\xff"], SEND_HI)
    check("an ill-formed option", ran.returncode == 2 and not ran.stdout and ran.stderr, ran)
    control_characters()
    bad_picks = b"refused 20 bad picks\n"
    for text in ("-1", "--help", "0 00", "0  0", " 0", "4294967296", "x"):
        wants(f"picks {text!r}", run(["replay", "--picks", text], SEND_HI), 2, bad_picks)
    wants("the greatest pick", run(["replay", "--picks", "4294967295"]), 0, EMPTY, NO_FORMS + note_of_nobody(1, 4294967295))
    texts = b"<--picks <TEXT>|--picks-file <FILE>|--moves <TEXT>|--moves-file <FILE>"
    for command, either in (("replay", texts + b">"), ("explain", texts + b"|--round>"), ("draw", texts + b"|--round>")):
        ran = run([command])
        plain = b" [SCRIPT] [N]\n" if command == "explain" else b" [SCRIPT]\n"
        usage = f"Usage: tracenode {command} ".encode() + either + plain
        check(f"{command} without picks names all sources of picks", usage in ran.stderr, ran)
        check(f"the help of {command} names all sources of picks", either in run([command, "--help"]).stdout)
    usage_errors()
    nameless_files()
    widths_of_help()
    examples_of_help()
    numbers_of_moves()
    spellings_of_processes()
    spellings_of_sessions()
    quiet_runs()
    expectations()
    picks_of_nobody()


def control_characters():
    """Words with control characters: what is said of them has an escape in place of each."""
    more = "\n\nFor more information, try '--help'.\n"
    rows = (
        (["round", "--lim\x1b[2J"], "error: unexpected argument '--lim\\x1b[2J' found"),
        (["re\nplay"], "error: unrecognized subcommand 're\\x0aplay'"),
        (["round", "--limit", "1\r0"], "error: invalid value '1\\x0d0' for '--limit <N>': a decimal number is expected"),
        (["spec", "--list", "[]", "--me", "\x7f", "[]"], "error: invalid value '\\x7f' for '--me <N>': a number or a pid <0.N.0> is expected"),
    )
    for words, told in rows:
        ran = run(words, SEND_HI)
        text = ran.stderr.decode()
        good = ran.returncode == 2 and not ran.stdout and text.startswith(told) and text.endswith(more)
        check(f"the words {words}", good and all(letter == "\n" or letter.isprintable() for letter in text), ran)
    ran = run([*SEND_HI_PICKS, "--quiet", "--expect-line", "h\x1bi"], SEND_HI)
    wants("a line with a control character", ran, 1, SEND_HI_OUTPUT, b"error: the output has no line h\\x1bi\n")


def nameless_files():
    """Files without a name: that the name is empty."""
    line = b"error: the name of a file is empty\n"
    for words in (["replay", "", "--picks", "0"], ["replay", "--picks-file", ""], ["run", "--expect", ""], ["spec", "--list", "[]", "--file", ""]):
        wants(f"a file without a name of {words}", run(words, SEND_HI), 2, b"", line)


def widths_of_help():
    """Each help is at most 80 columns wide, but for its usage and for the lines of an option with all its values."""
    for words in (["--help"], *([command, "--help"] for command in HELPS)):
        ran = run(words)
        known = ("[possible values: ", "Usage: ")
        lines = [line for line in ran.stdout.decode().splitlines() if not any(part in line for part in known)]
        wide = [line for line in lines if len(line) > 80]
        check(f"the width of the help {words}", ran.returncode == 0 and len(lines) > 5 and not wide, wide)


def examples_of_help():
    """The help of each command has an example, which is answered; that of `serve` is asked of it."""
    for command in HELPS:
        told = run([command, "--help"]).stdout.decode()
        lines = [line for line in told.partition("\nExample:\n")[2].splitlines() if line.startswith("  ")]
        check(f"the help of {command} has an example", len(lines) == 1 and f"tracenode {command}" in lines[0], told)
        if command != "serve":
            words = shlex.split(lines[0])[1:]
            ran = run([word.replace("examples/", f"{EXAMPLES}/") for word in words])
            check(f"the example of {command}", ran.returncode == 0 and ran.stdout and b"error" not in ran.stderr, ran)


def numbers_of_moves():
    """A word of digits is the number of a move, before the script or after it, and alone; a file of that name has a path."""
    script, later = str(EXAMPLES / "numbers.term"), "\n\nFor more information, try '--help'.\n"
    text = (EXAMPLES / "numbers.term").read_bytes()
    moves = ["--moves", "0! go!"]
    for number in ("1", "9", "009"):
        wanted = run(["explain", script, *moves, "--move", number])
        check(f"move {number} of a script", wanted.returncode == 0 and wanted.stdout, wanted)
        for words in ([number, script, *moves], [script, number, *moves], [*moves, number, script], [number, *moves, script], ["-", number, *moves]):
            ran = run(["explain", *words], text)
            wants(f"the move of explain {words}", ran, 0, wanted.stdout)
        wants(f"the move {number} of standard input", run(["explain", number, *moves], text), 0, wanted.stdout)
    wants("no such move", run(["explain", "99", script, "--moves", "0! go!"]), 2, b"", b"error: the run has no move 99: its moves are 1 to 11\n")
    beside = "N isn't given beside --move, --message or --why-not"
    two = "N is given already; a file of this name is given with ./ before it, and picks are one word"
    rows = (
        (["3", script, *moves, "--move", "3"], "3", "[N]", beside),
        ([script, "3", *moves, "--message", "'_'"], "3", "[N]", beside),
        (["3", *moves, "--why-not", "'_'"], "3", "[N]", beside),
        (["4294967296", script, *moves], "4294967296", "[N]", "a number below 4294967296 is expected"),
        ([script, "x", *moves], "x", "[N]", "a number below 4294967296 is expected"),
        (["3", "4", *moves], "4", "[SCRIPT]", two),
        (["--picks", "0", "0", "100"], "100", "[SCRIPT]", two),
    )
    for words, word, name, why in rows:
        told = f"error: invalid value '{word}' for '{name}': {why}{later}"
        wants(f"the words explain {words}", run(["explain", *words], text), 2, b"", told.encode())
    with tempfile.TemporaryDirectory() as folder:
        (pathlib.Path(folder) / "3").write_bytes(text)
        ran = subprocess.run([str(PROGRAM), "explain", "./3", "9", *moves], cwd=folder, capture_output=True, check=False)
        wants("a file of digits", ran, 0, run(["explain", script, "9", *moves]).stdout)


def usage_errors():
    """Words that are refused: of a number what is expected, and no advice to pass an option as a value."""
    digits = "a decimal number is expected"
    rows = (
        (["round", "--limit", "x"], f"error: invalid value 'x' for '--limit <N>': {digits}\n"),
        (["round", "--limit", ""], f"error: invalid value '' for '--limit <N>': {digits}\n"),
        (["round", "--max-output", "10k"], f"error: invalid value '10k' for '--max-output <BYTES>': {digits}\n"),
        (["round", "--max-memory", "1G"], f"error: invalid value '1G' for '--max-memory <BYTES>': {digits}\n"),
        (["round", "--max-memory", "0"], "error: invalid value '0' for '--max-memory <BYTES>': 0 is not in 1..18446744073709551615\n"),
        (
            ["round", "--max-memory", "18446744073709551616"],
            "error: invalid value '18446744073709551616' for '--max-memory <BYTES>': the greatest number is 18446744073709551615\n",
        ),
        (["explain", "--round", "--move", "2-4"], f"error: invalid value '2-4' for '--move <N>': {digits}\n"),
        (["explain", "--round", "--quiet"], "error: unexpected argument '--quiet' found\n\nUsage: "),
        (["rply"], "error: unrecognized subcommand 'rply'\n\n  tip: a similar subcommand exists: 'replay'\n"),
        (["help", "rply"], "error: unrecognized subcommand 'rply'\n\n  tip: a similar subcommand exists: 'replay'\n"),
        (["help", "zzz"], "error: unrecognized subcommand 'zzz'\n\nUsage: "),
        (
            ["replay", "--picks", "0", "0", "100"],
            "error: unexpected argument '100' found\n\n  tip: picks are one word, as in --picks '0 100 100'\n\nUsage: ",
        ),
    )
    for words, text in rows:
        ran = run(words, SEND_HI)
        printed = ran.stderr.decode()
        good = ran.returncode == 2 and not ran.stdout and printed.startswith(text) and "-- --" not in printed
        check(f"what is said of the words {words}", good, ran)


def spellings_of_processes():
    """The process of a trial, by its number and by its pid; what is neither is refused, with what is expected."""
    trial = ["spec", "--list", "[]", "[{'_',[],[{message,{self}}]}]"]
    for number in ("0", "101", "0101", "4294967295"):
        by_number, by_pid = (run([*trial, "--me", text]) for text in (number, f"<0.{number}.0>"))
        told = f"clause 1 fires: message <0.{int(number)}.0>\n=> a message that ends in <0.{int(number)}.0>\n"
        wants(f"the process {number}", by_number, 0, told.encode())
        wants(f"the process <0.{number}.0>", by_pid, 0, told.encode())
    outer = ("<0.1.1>", "<1.1.0>", "<0.1.0", "0.1.0>", "<0.0>", "<1>", "<0.<0.1.0>.0>", " <0.1.0>", "<0.1.0>\n")
    for text in ("x", "4294967296", "<0.4294967296.0>", "<0..0>", "<0.+1.0>", "<0.-1.0>", *outer):
        shown = text.replace("\n", "\\x0a")
        told = f"error: invalid value '{shown}' for '--me <N>': a number or a pid <0.N.0> is expected\n\n"
        wanted = told.encode() + b"For more information, try '--help'.\n"
        wants(f"the process {text!r}", run([*trial, "--me", text]), 2, b"", wanted)


def spellings_of_sessions():
    """The session of an explanation, by its name bare and in quotes; else the quotes are of its name."""
    two = (EXAMPLES / "two_sessions.term").read_bytes()
    explain = ["explain", "--picks", "0 0 0 0 100 0 100", "--session"]
    for name in ("s1", "s2"):
        bare = run([*explain, name], two)
        wants(f"the session '{name}'", run([*explain, f"'{name}'"], two), 0, bare.stdout)
    blank = two.replace(b"s1", b"'a b'")
    bare = run([*explain, "a b"], blank)
    check("a session with a blank", bare.returncode == 0 and b"  'a b': " in bare.stdout, bare)
    wants("a session with a blank in quotes", run([*explain, "'a b'"], blank), 0, bare.stdout)
    for text in ("'s1", "s1'", "'", "''s1''", "'s\\1'", "'s'1'", '"s1"'):
        told = f"error: the script creates no session {text}: it creates s1, s2\n".encode()
        wants(f"the session {text}", run([*explain, text], two), 2, b"", told)


def quiet_runs():
    """What a quiet run prints on standard output, and how it ends, are those of the run with notes."""
    for words in (SEND_HI_PICKS, ["replay", "--picks", "0 x"], ["round"], ["round", "--limit", "2"]):
        ran, quiet = run(words, SEND_HI), run([*words, "--quiet"], SEND_HI)
        seen = (quiet.returncode, quiet.stdout) == (ran.returncode, ran.stdout)
        check(f"a quiet {' '.join(words)}", seen and (quiet.returncode or not quiet.stderr), (ran, quiet))
        short = run([*words, "-q"], SEND_HI)
        seen = (short.returncode, short.stdout, short.stderr) == (quiet.returncode, quiet.stdout, quiet.stderr)
        check(f"{' '.join(words)} -q", seen, (short, quiet))
    ran = run(["workers", "-n", "1", "-q"], SEND_HI)
    check("-n and -q", ran.returncode == 0 and ran.stdout.startswith(b"== session s1") and not ran.stderr, ran)
    ran = run(["workers", "--n", "1", "--quiet"], SEND_HI)
    check("a quiet run by workers", ran.returncode == 0 and ran.stdout.startswith(b"== session s1") and not ran.stderr, ran)


# Picks, and the place and the value of the first of them that names nobody.
NOBODY = (("0 99 100", 2, 99), ("1", 1, 1), ("0 100 164 7", 3, 164), ("4294967295", 1, 4294967295))


def picks_of_nobody():
    """The first pick that no process can have is noted; the output is that without it, and a pick of a later process has no note."""
    for picks, place, value in NOBODY:
        ran = run(["replay", "--picks", picks], SEND_HI)
        good = (ran.returncode, ran.stderr) == (0, note_of_nobody(place, value))
        check(f"the note on {picks}", good, ran)
        quiet = run(["replay", "--picks", picks, "--quiet"], SEND_HI)
        check(f"no note on {picks} where quiet", (quiet.stdout, quiet.stderr) == (ran.stdout, b""), quiet)
        moving = " ".join(pick for pick in picks.split() if pick in ("0", "100"))
        check(f"the output of {picks}", run(["replay", "--picks", moving], SEND_HI).stdout == ran.stdout, ran)
    for picks in ("", "0 100 163 0 101", "163 100"):
        ran = run(["replay", "--picks", picks], SEND_HI)
        check(f"no note on {picks}", ran.returncode == 0 and not ran.stderr, ran)


def expectations():
    """Outputs that are what is expected and outputs that aren't, by each option and each command, with the reasons."""
    one_worker = ["workers", "--n", "1", "--quiet"]
    lines = [[*SEND_HI_PICKS, "--quiet"], ["round", "--quiet"], one_worker, ["explain", "--picks", "0 0 100 100"]]
    with tempfile.TemporaryDirectory() as folder:
        place = pathlib.Path(folder)
        whole, other = place / "whole", place / "other"
        for words in lines:
            plain = run(words, SEND_HI)
            output = plain.stdout
            name = words[0]
            check(f"{name} as it is", plain.returncode == 0 and output.count(b"\n") > 4, plain)
            first, third = (output.splitlines()[at].decode() for at in (0, 2))
            whole.write_bytes(output)
            held = [*words, "--expect", str(whole), "--expect-line", first, "--reject-line", "no such line"]
            wants(f"{name} with all that is expected", run(held, SEND_HI), 0, output, b"")
            for line in (first, third):
                wants(f"{name} with {line}", run([*words, "--expect-line", line], SEND_HI), 0, output, b"")
                told = f"error: the output has the line {line}\n".encode()
                ran = run([*words, "--reject-line", line], SEND_HI)
                wants(f"{name} that must not have {line}", ran, 1, output, told)
            for line in (first[:-1], f"{first} ", "-x"):
                told = f"error: the output has no line {line}\n".encode()
                wants(f"{name} without {line}", run([*words, "--expect-line", line], SEND_HI), 1, output, told)
                wants(f"{name} rejects {line}", run([*words, "--reject-line", line], SEND_HI), 0, output, b"")
            number = output.count(b"\n")
            changed = output.replace(third.encode(), b"another", 1)
            output_lines = output.splitlines(keepends=True)
            less = b"".join(output_lines[:-1])
            unprintable = aligned(changed, output).replace(b"-another\n", b"-(a line that isn't printable)\n")
            texts = {
                "a line that differs": (changed, aligned(changed, output)),
                "bytes that differ": (output.replace(third.encode(), b"\xff", 1), unprintable),
                "a control character": (output.replace(third.encode(), b"a\x01", 1), unprintable),
                "one line more": (output + b"more\n", aligned(output + b"more\n", output)),
                "one line less": (less, aligned(less, output)),
                "no last line feed": (output[:-1], b"line %d differs in the line feed at its end\n" % number),
                "no text": (b"", aligned(b"", output)),
                "carriage returns": (output.replace(b"\n", b"\r\n"), OF_A_RETURN % 1),
                "one carriage return": (b"".join([*output_lines[:2], output_lines[2][:-1] + b"\r\n", *output_lines[3:]]), OF_A_RETURN % 3),
            }
            for kind, (text, told) in texts.items():
                other.write_bytes(text)
                wants(f"{name} with {kind}", run([*words, "--expect", str(other)], SEND_HI), 1, output, told)
            for path in (place / "absent", place):
                ran = run([*words, "--expect", str(path)], SEND_HI)
                good = ran.returncode == 2 and not ran.stdout and ran.stderr.count(b"\n") == 1
                check(f"{name} with {path.name} as the output", good and str(path).encode() in ran.stderr, ran)
            for path, bound in (("/dev/zero", 4096), (str(whole), len(output) - 1)):
                long = f"fault expect: the file has more than {bound} bytes, and --max-output is {bound}\n".encode()
                wants(f"{name} with {path} too long", run([*words, "--expect", path, "--max-output", str(bound)], SEND_HI), 3, b"", long)
            ran = run([*words, "--expect", str(whole), "--expect", str(whole)], SEND_HI)
            check(f"{name} with two outputs", ran.returncode == 2 and not ran.stdout and ran.stderr, ran)
            both = ["--expect-line", first, "--expect-line", third, "--reject-line", "a", "--reject-line", "b"]
            wants(f"{name} with two lines", run([*words, *both], SEND_HI), 0, output, b"")
            both = ["--expect-line", first, "--expect-line", "a", "--expect-line", "b"]
            wants(f"{name} without two lines", run([*words, *both], SEND_HI), 1, output, b"error: the output has no line a\n")
            both = ["--reject-line", "a", "--reject-line", third, "--reject-line", first]
            told = f"error: the output has the line {third}\n".encode()
            wants(f"{name} rejects two lines", run([*words, *both], SEND_HI), 1, output, told)
            told = b"error: the script and the expected output can't both be standard input\n"
            wants(f"{name} with - twice", run([*words, "--expect", "-"], SEND_HI), 2, b"", told)
            ran = run([*words, "--expect-line", "no such line"], b"[")
            plain = run(words, b"[")
            seen = (ran.returncode, ran.stdout, ran.stderr)
            check(f"{name} refused whatever is expected", seen == (2, plain.stdout, plain.stderr), (ran, plain))
        all_three = ["--expect", str(other), "--expect-line", "absent", "--reject-line", "== replies"]
        other.write_bytes(SEND_HI_OUTPUT + b"more\n")
        ran = run([*SEND_HI_PICKS, "--quiet", *all_three], SEND_HI)
        told = b"error: the output has no line absent\nerror: the output has the line == replies\n"
        check("all reasons", ran.returncode == 1 and ran.stderr.endswith(told) and b"more\n" in ran.stderr, ran)
    written_differences()
    session_listings()
    ran = run(["spec", "--list", "[]", "--expect-line", "x", "[]"])
    check("a trial with an expectation", ran.returncode == 2 and not ran.stdout, ran)


def aligned(expected, found):
    """The alignment of two texts that differ in one place, by Python's own `difflib`."""
    lines = [text.splitlines() for text in (expected, found)]
    rows = difflib.diff_bytes(difflib.unified_diff, *lines, b"expected", b"found", n=2, lineterm=b"")
    return b"".join(row + b"\n" for row in rows)


# The text of a file that is expected, and the whole standard error of a run whose output differs from it, after the two
# lines that say which sign is of which text; worked out by hand from the seven lines of the run `send-hi`.
DIFFERENCES = (
    (
        "two lines that differ",
        """== session s1 tracer t1
{trace,<0.100.0>,send,{hi,2},<0.101.0>}
== replies
{session,s2}
2
== journal
0 0 100 100
""",
        """@@ -1,6 +1,6 @@
 == session s1 tracer t1
-{trace,<0.100.0>,send,{hi,2},<0.101.0>}
+{trace,<0.100.0>,send,{hi,1},<0.101.0>}
 == replies
-{session,s2}
+{session,s1}
 2
 == journal
""",
    ),
    (
        "a line less in the middle",
        """== session s1 tracer t1
{trace,<0.100.0>,send,{hi,1},<0.101.0>}
== replies
2
== journal
0 0 100 100
""",
        """@@ -2,4 +2,5 @@
 {trace,<0.100.0>,send,{hi,1},<0.101.0>}
 == replies
+{session,s1}
 2
 == journal
""",
    ),
    (
        "a line more in the middle",
        """== session s1 tracer t1
{trace,<0.100.0>,send,{hi,1},<0.101.0>}
{trace,<0.100.0>,exit,normal}
== replies
{session,s1}
2
== journal
0 0 100 100
""",
        """@@ -1,5 +1,4 @@
 == session s1 tracer t1
 {trace,<0.100.0>,send,{hi,1},<0.101.0>}
-{trace,<0.100.0>,exit,normal}
 == replies
 {session,s1}
""",
    ),
    (
        "two lines for one",
        """== session s1 tracer t1
{trace,<0.100.0>,send,{hi,1},<0.101.0>}
== replies
{session,s1}
1
0
== journal
0 0 100 100
""",
        """@@ -3,6 +3,5 @@
 == replies
 {session,s1}
-1
-0
+2
 == journal
 0 0 100 100
""",
    ),
    (
        "the first lines alone",
        """== session s1 tracer t1
{trace,<0.100.0>,send,{hi,1},<0.101.0>}
""",
        """@@ -1,2 +1,7 @@
 == session s1 tracer t1
 {trace,<0.100.0>,send,{hi,1},<0.101.0>}
+== replies
+{session,s1}
+2
+== journal
+0 0 100 100
""",
    ),
    (
        "a first and a last line more",
        """first
== session s1 tracer t1
{trace,<0.100.0>,send,{hi,1},<0.101.0>}
== replies
{session,s1}
2
== journal
0 0 100 100
last
""",
        """@@ -1,3 +1,2 @@
-first
 == session s1 tracer t1
 {trace,<0.100.0>,send,{hi,1},<0.101.0>}
@@ -7,3 +6,2 @@
 == journal
 0 0 100 100
-last
""",
    ),
    (
        "a pick more in the last line",
        """== session s1 tracer t1
{trace,<0.100.0>,send,{hi,1},<0.101.0>}
== replies
{session,s1}
2
== journal
0 0 100 100 101
""",
        """@@ -5,3 +5,3 @@
 2
 == journal
-0 0 100 100 101
+0 0 100 100
""",
    ),
    (
        "a blank at the end of a line",
        """== session s1 tracer t1
{trace,<0.100.0>,send,{hi,1},<0.101.0>} 
== replies
{session,s1}
2
== journal
0 0 100 100
""",
        """@@ -1,4 +1,4 @@
 == session s1 tracer t1
-{trace,<0.100.0>,send,{hi,1},<0.101.0>} 
+{trace,<0.100.0>,send,{hi,1},<0.101.0>}
 == replies
 {session,s1}
""",
    ),
)

# Which sign is of which text.
SIGNS = "--- expected\n+++ found\n"


# The listings of the run `send-hi` that are expected, each with its status and what is said on standard error; worked out
# by hand.
LISTING = """== session s1 tracer t1
{trace,<0.100.0>,send,{hi,1},<0.101.0>}
"""
LISTINGS = (
    ("s1", LISTING, 0, ""),
    ("'s1'", LISTING, 0, ""),
    ("s1", LISTING[:-1], 0, ""),
    ("s2", LISTING, 1, "error: the output has no listing of a session s2\n"),
    ("s", LISTING, 1, "error: the output has no listing of a session s\n"),
    ("S 1", "", 1, "error: the output has no listing of a session S 1\n"),
    (
        "s1",
        "== session s1 tracer t1\n",
        1,
        "--- expected\n+++ found\n@@ -1,1 +1,2 @@\n == session s1 tracer t1\n+{trace,<0.100.0>,send,{hi,1},<0.101.0>}\n",
    ),
    (
        "s1",
        LISTING + "== replies\n",
        1,
        """--- expected
+++ found
@@ -1,3 +1,2 @@
 == session s1 tracer t1
 {trace,<0.100.0>,send,{hi,1},<0.101.0>}
-== replies
""",
    ),
    ("s1", "", 1, "--- expected\n+++ found\n@@ -0,0 +1,2 @@\n" + "".join(f"+{line}\n" for line in LISTING.splitlines())),
)


def session_listings():
    """Runs whose output has, or hasn't, the listing of a session that is expected."""
    script = str(ROWS / "send-hi" / "stdin")
    commands = [[*SEND_HI_PICKS, "--quiet", script], ["workers", "--n", "1", "--quiet", script]]
    with tempfile.NamedTemporaryFile() as file:
        for name, listing, status, told in LISTINGS:
            pathlib.Path(file.name).write_text(listing)
            ran = run([*commands[0], "--expect-session", name, file.name])
            wants(f"the listing of {name}", ran, status, SEND_HI_OUTPUT, told.encode())
            ran = run([*commands[0], "--expect-session", name, "-"], listing.encode())
            wants(f"the listing of {name} in standard input", ran, status, SEND_HI_OUTPUT, told.encode())
            ran = run([*commands[1], "--expect-session", name, file.name])
            check(f"the listing of {name} by a worker", (ran.returncode, ran.stderr) == (status, told.encode()), ran)
        for words in (["--json"], ["--expect-session", "s1", file.name]):
            ran = run([*commands[0], "--expect-session", "s1", file.name, *words])
            check(f"a listing with {words[0]}", ran.returncode == 2 and not ran.stdout and ran.stderr, ran)
    for others, told in (
        (["--expect", "-"], b"error: the expected output and the expected listing can't both be standard input\n"),
        ([], b"error: the script and the expected listing can't both be standard input\n"),
    ):
        words = [*SEND_HI_PICKS, "--expect-session", "s1", "-", *others, *([script] if others else [])]
        wants(f"two texts in standard input, {others}", run(words, SEND_HI), 2, b"", told)


def written_differences():
    """The whole standard error of a run whose output differs from a file: their alignment, with two lines around."""
    with tempfile.NamedTemporaryFile() as file:
        for kind, expected, told in DIFFERENCES:
            pathlib.Path(file.name).write_text(expected)
            ran = run([*SEND_HI_PICKS, "--quiet", "--expect", file.name], SEND_HI)
            wants(f"a file with {kind}", ran, 1, SEND_HI_OUTPUT, (SIGNS + told).encode())
            ran = run([*SEND_HI_PICKS, "--quiet", "--expect", "-", str(ROWS / "send-hi" / "stdin")], expected.encode())
            wants(f"standard input with {kind}", ran, 1, SEND_HI_OUTPUT, (SIGNS + told).encode())


def starts():
    """The start script, from other folders and through symbolic links."""
    if not START.exists():
        return
    with tempfile.TemporaryDirectory() as folder:
        link = pathlib.Path(folder) / "tn"
        link.symlink_to(START)
        again = pathlib.Path(folder) / "again"
        again.symlink_to("tn")
        places = dict(os.environ, CDPATH=str(TOP.parent) + ":" + folder)
        wants("the start script", run(SEND_HI_PICKS, SEND_HI, command=(str(START),)), 0, SEND_HI_OUTPUT)
        ran = run(SEND_HI_PICKS, SEND_HI, command=(str(link),), cwd=folder, env=places)
        wants("through a link, from another folder", ran, 0, SEND_HI_OUTPUT)
        ran = run(SEND_HI_PICKS, SEND_HI, command=("./again",), cwd=folder, env=places)
        wants("through a link to a link", ran, 0, SEND_HI_OUTPUT)
        ran = run(["replay", "--picks", ""], b"{", command=(str(link),), cwd=folder)
        wants("a refusal's status", ran, 2, b"refused 2 token at 1\n")
        copy = pathlib.Path(folder) / "copy"
        copy.write_bytes(START.read_bytes())
        copy.chmod(0o755)
        ran = run(SEND_HI_PICKS, SEND_HI, command=(str(copy),), cwd=folder)
        good = ran.returncode == 3 and sorted(os.listdir(folder)) == ["again", "copy", "tn"]
        check("outside its checkout it makes nothing", good, ran)


INSTALLED = {
    "bin/tracenode": PROGRAM,
    "share/man/man1/tracenode.1": TOP / "docs" / "tracenode.1",
    "share/bash-completion/completions/tracenode": TOP / "completions" / "tracenode.bash",
    "share/zsh/site-functions/_tracenode": TOP / "completions" / "_tracenode",
    "share/fish/vendor_completions.d/tracenode.fish": TOP / "completions" / "tracenode.fish",
}


def installs():
    """The start script's `--install`: what it copies to a folder, where it runs, and what it refuses."""
    if not START.exists():
        return
    with tempfile.TemporaryDirectory() as folder:
        root = pathlib.Path(folder) / "a b"
        written = "".join(f"{os.path.realpath(folder)}/a b/{path}\n" for path in INSTALLED).encode()
        for time in ("first", "again"):
            ran = run(["--install", "a b"], command=(str(START),), cwd=folder)
            wants(f"an installation, {time}", ran, 0, written)
        found = {str(path.relative_to(root)) for path in root.rglob("*") if path.is_file()}
        check("what is installed", found == set(INSTALLED), found)
        for path, source in INSTALLED.items():
            mode = 0o755 if path.startswith("bin/") else 0o644
            good = (root / path).read_bytes() == source.read_bytes() and (root / path).stat().st_mode & 0o777 == mode
            check(f"the installed {path}", good)
        ran = run(SEND_HI_PICKS, SEND_HI, command=(str(root / "bin" / "tracenode"),), cwd="/")
        wants("the installed program", ran, 0, SEND_HI_OUTPUT)
        without_program("--install", pathlib.Path(folder))


def without_program(option, folder):
    """What the start script says of this option's words, and where nothing is built: it makes nothing then."""
    for words in ([option], [option, ""], [option, "a", "b"]):
        ran = run(words, command=(str(START),), cwd=folder)
        check(f"the words {words}", ran.returncode == 2 and not ran.stdout and ran.stderr.count(b"\n") == 1, ran)
    bare = folder / "bare"
    (bare / "crates" / "tn_cli" / "src").mkdir(parents=True)
    (bare / "crates" / "tn_cli" / "src" / "main.rt").touch()
    (bare / "crates.txt").touch()
    (bare / "tracenode").write_bytes(START.read_bytes())
    (bare / "tracenode").chmod(0o755)
    ran = run([option, "nowhere"], command=(str(bare / "tracenode"),), cwd=folder)
    is_refused = ran.returncode == 3 and not ran.stdout and b"--prove" in ran.stderr and ran.stderr.count(b"\n") == 1
    check(f"{option} where nothing is built", is_refused and not (folder / "nowhere").exists(), ran)


# The documents of an archive, beside the pictures and the examples.
DOCUMENTS = (
    "README.md",
    "CHANGELOG.md",
    "LICENSE",
    "docs/MANUAL.md",
    "docs/GLOSSARY.md",
    "docs/DIFFERENCES.md",
    "docs/tracenode.schema.json",
)


def archive_files():
    """The files of an archive, each with the one that it is a copy of."""
    paths = [*(TOP / name for name in DOCUMENTS), *(TOP / "docs").glob("*.svg"), *(path for kind in ("term", "trace", "erl") for path in EXAMPLES.glob(f"*.{kind}"))]
    return {**INSTALLED, **{f"share/doc/tracenode/{path.relative_to(TOP)}": path for path in paths}}


def releases():
    """The start script's `--release`: what is in the archive, that it is the same each time, and the README's example."""
    version, system = said_version(), os.uname()
    name = f"tracenode-{version}-{system.sysname.lower()}-{system.machine}.tar.gz"
    with tempfile.TemporaryDirectory() as place:
        folder, found = pathlib.Path(os.path.realpath(place)), []
        for mask, zone, inner in (("022", "UTC", "a b"), ("077", "Asia/Tokyo", "c/d")):
            command = ("sh", "-c", f'umask {mask}; exec "$0" "$@"', str(START))
            ran = run(["--release", inner], command=command, cwd=folder, env=dict(os.environ, TZ=zone))
            written = f"{folder}/{inner}/{name}\n{folder}/{inner}/{name}.sha256\n"
            wants(f"a release in {inner}", ran, 0, written.encode())
            there = sorted(path.name for path in (folder / inner).iterdir())
            check(f"the files of a release in {inner}", there == [name, f"{name}.sha256"], there)
            found.append((folder / inner / name).read_bytes())
        check("two releases are the same", found[0] == found[1], [len(text) for text in found])
        said = (folder / "a b" / f"{name}.sha256").read_text()
        check("the checksum of a release", said == f"{hashlib.sha256(found[0]).hexdigest()}  {name}\n", said)
        archive_members(folder / "a b" / name, version)
        with tarfile.open(folder / "a b" / name) as archive:
            archive.extractall(folder)
        example_of_readme(folder / f"tracenode-{version}")
        without_program("--release", folder)


def archive_members(path, version):
    """The members of an archive: their order, owners, times, modes and bytes."""
    date = re.search(rf"^## {re.escape(version)}, ([\d-]+)$", (TOP / "CHANGELOG.md").read_text(), re.M)[1]
    time = datetime.datetime.fromisoformat(f"{date}T00:00:00+00:00").timestamp()
    with tarfile.open(path) as archive:
        members = archive.getmembers()
        names = [member.name for member in members]
        check("the names of an archive are in order", names == sorted(names, key=lambda name: name.split("/")), names)
        for member in members:
            owner = (member.uid, member.gid, member.uname, member.gname, member.mtime)
            mode = 0o755 if member.isdir() or "/bin/" in member.name else 0o644
            check(f"the owner of {member.name}", owner == (0, 0, "", "", time) and member.mode == mode, (owner, member.mode))
        there = {name.partition("/")[2]: archive.extractfile(name).read() for name in names if archive.getmember(name).isfile()}
    wanted = {name: source.read_bytes() for name, source in archive_files().items()}
    check("the files of an archive", set(there) == set(wanted), set(there) ^ set(wanted))
    for name, text in wanted.items():
        check(f"{name} of an archive", there.get(name) == text)


def example_of_readme(root):
    """The README's first example, as it stands in an archive that was unpacked; there is no kit on the path."""
    lines = (root / "share" / "doc" / "tracenode" / "README.md").read_text().splitlines()
    at = next(place for place, line in enumerate(lines) if line.startswith("    $ ./tracenode replay "))
    shown = lines[at + 1 : lines.index("", at)]
    words = lines[at].strip().removeprefix("$ ./")
    env = {"PATH": f"{root}/bin:/usr/bin:/bin"}
    ran = run([words], command=("sh", "-c"), cwd=root / "share" / "doc" / "tracenode", env=env)
    wants("the example of the README in an archive", ran, 0, "".join(f"{line[4:]}\n" for line in shown).encode())
