"""Cases of rounds after the control list, of explained rounds, and of texts of moves."""
import pathlib
import tempfile

from harness import EXAMPLES, check, run, wants

NUMBERS = (EXAMPLES / "numbers.term").read_bytes()
LISTED = """== session s tracer t
{trace,<0.100.0>,send,{n,3},<0.101.0>}
{trace,<0.100.0>,call,{m,tell,[<0.101.0>,8]},{big,8}}
{trace,<0.100.0>,send,{n,8},<0.101.0>}
{trace,<0.100.0>,return_from,{m,tell,2},8}
== replies
{session,s}
1
1
"""

# After the three commands 100 calls go, calls tell, sends, returns, calls tell, sends, returns and ends; 101 calls rest,
# receives twice and ends. A pass moves both where both can move.
CONTROL_FIRST = "0 0 0 100 101 100 100 101 100 100 100 101 100 101 100"
SO_OFTEN = "* a number up to 65535 without a leading zero is expected, found"
A_NUMBER = "a number below 4294967296 without a leading zero is expected, found"
A_MOVER = "a number, a name or `*` alone is expected, found"

# Two processes in one function, one in a function whose name needs quotes, and one in a function with a quote in its name.
NAMES = rb"""{function,m,f,exported,[],[]}.
{function,m,'my fun',exported,[],[]}.
{function,m,'a\'*!b',exported,[],[]}.
{process,m,f,[]}.
{process,m,'my fun',[]}.
{process,m,f,[]}.
{process,m,'a\'*!b',[]}.
{control,[{session_create,s1,t1,[]}]}.
"""


def journal(ran):
    """The journal of an output, which is its last line."""
    return ran.stdout.decode().removesuffix("\n").rpartition("\n")[2]


def rounds():
    """Rounds after the control list, and rounds that are explained."""
    whole = f"{LISTED}== journal\n{CONTROL_FIRST}\n".encode()
    wants("the control list, and then rounds", run(["round", "--control", "first"], NUMBERS), 0, whole)
    wants("a run", run(["run"], NUMBERS), 0, whole)
    for limit, moved in (("2", "0 0"), ("3", "0 0 0"), ("4", "0 0 0 100"), ("15", CONTROL_FIRST), ("16", CONTROL_FIRST)):
        ran = run(["round", "--control", "first", "--limit", limit], NUMBERS)
        check(f"the control list within {limit} moves", (ran.returncode, journal(ran)) == (0, moved), ran)
        ran = run(["run", "--limit", limit], NUMBERS)
        check(f"a run within {limit} moves", (ran.returncode, journal(ran)) == (0, moved), ran)
    for words, moved in (
        (["--control", "first"], CONTROL_FIRST),
        (["--control", "first", "--limit", "5"], "0 0 0 100 101"),
        (["--limit", "4"], "0 100 101 0"),
    ):
        for more in ([], ["--session", "s"], ["--move", "4"], ["--node"]):
            by_round, by_picks = run(["explain", "--round", *words, *more], NUMBERS), run(["explain", "--picks", moved, *more], NUMBERS)
            seen = [(ran.returncode, ran.stdout, ran.stderr) for ran in (by_round, by_picks)]
            check(f"the round {words} explained with {more}", seen[0] == seen[1], seen)
        for more in ([], ["--text"]):
            by_round, by_picks = run(["draw", "--round", *words, *more], NUMBERS), run(["draw", "--picks", moved, *more], NUMBERS)
            seen = [(ran.returncode, ran.stdout, ran.stderr) for ran in (by_round, by_picks)]
            check(f"the round {words} drawn with {more}", seen[0] == seen[1] and seen[0][0] == 0, seen)
    for words in (["run"], ["draw", "--round"], ["round", "--control", "first"], ["explain", "--round"], ["explain", "--round", "--control", "first"]):
        wants(f"{words} of a refused script", run(words, b"7."), 2, b"" if words[0] == "draw" else b"refused 5 form 1\n")


def moves():
    """Texts of moves, and the picks that they stand for."""
    whole = f"{LISTED}== journal\n{CONTROL_FIRST}\n".encode()
    for text in ("0! *", "0!\n% all\n\t*\r\n", " 0*3 *% to the end", "0 0*2 *", "0*65535 *", "0! go rest * 4294967295!"):
        wants(f"the moves {text!r}", run(["replay", "--moves", text], NUMBERS), 0, whole)
    rows = {
        "": "",
        "% nothing": "",
        "0!": "0 0 0",
        "0*2": "0 0",
        "0*0 0": "0",
        "go": "100",
        "go!": "100 100 100 100 100 100 100 100",
        "rest!": "101",
        "go*3 rest!": "100 100 100 101 101",
        "rest go*2 rest*5 go rest": "101 100 100 100 101",
        "102! 100*1 7 0": "100 0",
        "0*3 go!": "0 0 0 100 100 100 100 100 100 100 100",
        "go! rest! 0!": "100 100 100 100 100 100 100 100 101 101 101 101 0 0 0",
        "go! *": "100 100 100 100 100 100 100 100 0 101 0 101 0 101 101",
    }
    for text, moved in rows.items():
        ran = run(["replay", "--moves", text], NUMBERS)
        check(f"the journal of {text!r}", (ran.returncode, journal(ran)) == (0, moved), ran)
        again = run(["replay", "--picks", moved], NUMBERS)
        check(f"the picks of {text!r}", (ran.stdout, ran.stderr) == (again.stdout, again.stderr), (ran, again))
        explained = [run(["explain", option, said], NUMBERS) for option, said in (("--moves", text), ("--picks", moved))]
        seen = [(ran.returncode, ran.stdout, ran.stderr) for ran in explained]
        check(f"the explanation of {text!r}", seen[0] == seen[1], seen)
        for how in ([], ["--text"]):
            drawn = [run(["draw", option, said, *how], NUMBERS) for option, said in (("--moves", text), ("--picks", moved))]
            seen = [(ran.returncode, ran.stdout, ran.stderr) for ran in drawn]
            check(f"the picture of {text!r} by {how}", seen[0] == seen[1] and seen[0][0] == 0 and seen[0][1], seen)
    for text, moved in (("'my fun'", "101"), ("'my fun'! 100", "101 101 100"), (r"'a\'*!b'*2", "103 103"), ("102", "102")):
        ran = run(["replay", "--moves", text], NAMES)
        check(f"the journal of {text!r}", (ran.returncode, journal(ran)) == (0, moved), ran)
    with tempfile.TemporaryDirectory() as folder:
        script, file = pathlib.Path(folder) / "a.term", pathlib.Path(folder) / "a.moves"
        script.write_bytes(NUMBERS)
        file.write_text("0! % the control list\n*\n")
        wants("moves from a file", run(["replay", "--moves-file", str(file)], NUMBERS), 0, whole)
        drawn = run(["draw", str(script), "--moves-file", str(file), "--text"])
        wants("a picture by moves from a file", drawn, 0, run(["draw", "--picks", CONTROL_FIRST, "--text"], NUMBERS).stdout)
        ran = run(["replay", str(script), "--moves-file", "-"], file.read_bytes())
        wants("moves from standard input", ran, 0, whole)
        both = b"error: the script and the moves can't both be standard input\n"
        wants("both from standard input", run(["replay", "--moves-file", "-"]), 2, b"", both)
        file.write_text(" " * 1_048_576 + "0")
        wants("moves that are too long", run(["replay", "--moves-file", str(file)], NUMBERS), 2, b"", b"moves: longer than 1048576 bytes\n")


def bad_moves():
    """Texts that are no moves: where, and why."""
    here = "; go is <0.100.0>, rest is <0.101.0>\n"
    none = "no initial process starts in a function {}"
    quotes = ": a name has quotes only where its atom needs them"
    commas = ": moves have blanks between them, and no commas"
    alone = ": a function is written by its name alone"
    number = ": a process is written by the number in its pid, as 100 for <0.100.0>"
    rows = {
        "gox": f"1:1: {none.format('gox')}{here}",
        "0! tell": f"1:4: {none.format('tell')}{here}",
        "0!\n % go\n  Go!": f"3:3: {none.format('Go')}{here}",
        "go,rest": f"1:1: {none.format('go,rest')}{commas}{here}",
        "'go'!": f"1:1: {none.format(chr(39) + 'go' + chr(39))}{quotes}{here}",
        "'go": f"1:1: {none.format(chr(39) + 'go')}{quotes}{here}",
        "<0.100.0>!": f"1:1: {none.format('<0.100.0>')}{number}{here}",
        "0! m:go!": f"1:4: {none.format('m:go')}{alone}{here}",
        "go/0": f"1:1: {none.format('go/0')}{alone}{here}",
        "go*65536": f"1:1: after go{SO_OFTEN} '65536'\n",
        "go go*": f"1:4: after go{SO_OFTEN} nothing\n",
        "go!!": "1:1: after go! a blank is expected, found '!'\n",
        "go*01": f"1:1: after go{SO_OFTEN} '01'\n",
        "go*-1": f"1:1: after go{SO_OFTEN} '-1'\n",
        "0*x": f"1:1: after 0{SO_OFTEN} 'x'\n",
        "0*70000": f"1:1: after 0{SO_OFTEN} '70000'\n",
        "0!,go!": "1:1: after 0! a blank is expected, found ',go!'\n",
        "007": f"1:1: {A_NUMBER} '007'\n",
        "4294967296": f"1:1: {A_NUMBER} '4294967296'\n",
        "0,go!": f"1:1: {A_NUMBER} '0,go'\n",
        "0!x": "1:1: after 0! a blank is expected, found 'x'\n",
        "0 !": f"1:3: {A_MOVER} '!'\n",
        "**": f"1:1: {A_MOVER} '**'\n",
        "*3": f"1:1: {A_MOVER} '*3'\n",
        "0\n\u00e9": f"2:1: {none.format('??')}{here}",
    }
    for text, told in rows.items():
        for command in ("replay", "explain", "draw"):
            wants(f"{command} by {text!r}", run([command, "--moves", text], NUMBERS), 2, b"", f"moves:{told}".encode())
    told = b"moves:1:3: several initial processes start in a function f: <0.100.0>, <0.102.0>\n"
    wants("a name of two processes", run(["replay", "--moves", "0 f!"], NAMES), 2, b"", told)
    for command, line in (("replay", b"refused 5 form 1\n"), ("draw", b"")):
        ran = run([command, "--moves", "x"], b"7.")
        wants(f"moves of a script that {command} refuses", ran, 2, line)
    for words in (
        ["replay", "--moves", "0", "--picks", "0"],
        ["replay", "--moves"],
        ["explain", "--round", "--moves", "0"],
        ["draw", "--moves", "0", "--picks", "0"],
        ["explain", "--picks", "0", "--limit", "5"],
        ["explain", "--picks", "0", "--control", "first"],
        ["explain", "--round", "--limit", "0"],
        ["explain", "--round", "--control", "last"],
        ["round", "--control", "last"],
        ["round", "--moves", "0"],
        ["replay", "--round"],
    ):
        ran = run(words, NUMBERS)
        check(f"the words {words}", ran.returncode == 2 and not ran.stdout and ran.stderr, ran)
