"""Cases of texts: refused scripts, long texts, prefixes of scripts, and numbers."""
import json
import pathlib
import re
import tempfile

import scripts
from explanation_cases import EXPLAIN_ALL
from harness import EMPTY, NO_FORMS, PLAIN, ROWS, SEND_HI, SEND_HI_PICKS, TEXT_BYTES, check, parsed, run, wants
from refusals import REFUSALS

# Refused picks, and which pick is none.
PICKS = (
    ("0 100 07 1", b": pick 3, '07', has a leading zero\n"),
    ("0  1", b": pick 2, '', is empty: one blank stands between each two picks, and none at an end\n"),
    ("0 100 ", b": pick 3, '', is empty: one blank stands between each two picks, and none at an end\n"),
    ("0! go!", b": pick 1, '0!', is no decimal number: a text of moves is given by --moves\n"),
    ("0*3", b": pick 1, '0*3', is no decimal number: a text of moves is given by --moves\n"),
    ("0 x", b": pick 2, 'x', is no decimal number\n"),
    ("4294967296", b": pick 1, '4294967296', is greater than 4294967295\n"),
)

# The same of picks in a file.
PICK_LINES = (
    (b"0 100\r\n", b": pick 2, '100?', has a carriage return: all picks are in one line\n"),
    (b"0\n100\n", b": pick 1, '0?100', has a line feed: all picks are in one line\n"),
)


def refusal_object(line, plain):
    """The object of JSON of a refusal, by the line that says how the script can be mended and by its plain line.

    Of a script that is too long it has the rule alone.
    """
    place, why = re.fullmatch(r"script\.term(?::(\d+(?::\d+)?))?: (.*)", line).groups()
    plain = plain.decode().removesuffix("\n")
    number = int(plain.split()[1])
    if number == 1:
        why = why.partition(": there are ")[0]
    return {"refused": number, "line": plain, "place": place, "why": why}


def refusals():
    """Each refused script's line, from a file and from standard input, its object, and the line of refused picks."""
    with tempfile.TemporaryDirectory() as folder:
        script = pathlib.Path(folder) / "script.term"
        for text, line in REFUSALS:
            script.write_text(text)
            for words in (["round"], ["workers", "--n", "1"]):
                ran = run([*words, "script.term"], cwd=folder)
                check(f"{words[0]}: {line}", ran.returncode == 2 and ran.stderr.decode() == line + "\n", ran)
            ran = run(["replay", "--picks", "0"], text.encode())
            wanted = line.replace("script.term:", "script:") + "\n"
            check(f"replay: {line}", ran.returncode == 2 and ran.stderr.decode() == wanted, ran)
            told = run(["replay", "--picks", "0", "--json"], text.encode())
            seen = (told.returncode, parsed(line, json.loads, told.stdout), told.stderr.decode())
            check(f"as JSON: {line}", seen == (2, refusal_object(line, ran.stdout), wanted), told)
            drawn = run(["draw", "--picks", "0"], text.encode())
            check(f"no picture: {line}", (drawn.returncode, drawn.stdout, drawn.stderr.decode()) == (2, b"", wanted), drawn)
        (pathlib.Path(folder) / "gr\u00fc\u00df.term").write_text("{")
        ran = run(["round", "gr\u00fc\u00df.term"], cwd=folder)
        check("a name that isn't ASCII", ran.stderr.decode().startswith("gr\u00fc\u00df.term:1:2: "), ran)
    rule = b"picks: picks are numbers up to 4294967295 with one space between each two"
    for picks, why in PICKS:
        ran = run(["replay", "--picks", picks], SEND_HI)
        wants(f"the picks {picks}", ran, 2, b"refused 20 bad picks\n", rule + why)
    with tempfile.TemporaryDirectory() as folder:
        (pathlib.Path(folder) / "picks").write_bytes(b"0" * (TEXT_BYTES + 1))
        ran = run(["replay", "--picks-file", "picks"], SEND_HI, cwd=folder)
        long = b": there are 1048577 bytes, of at most 1048576\n"
        wants("1,048,577 bytes of picks", ran, 2, b"refused 20 bad picks\n", rule + long)
        for text, why in PICK_LINES:
            (pathlib.Path(folder) / "picks").write_bytes(text)
            ran = run(["replay", "--picks-file", "picks"], SEND_HI, cwd=folder)
            wants(f"the picks {text}", ran, 2, b"refused 20 bad picks\n", rule + why)


# The refusal of a text that is too long, as JSON.
TOO_LONG_JSON = b"""{"refused":1,"line":"refused 1 too long","place":null,"why":"a script has at most 1048576 bytes"}
"""


def long_texts():
    """A script of 1 MiB, and one of a byte more."""
    replay = ["replay", "--picks", ""]
    wants("1,048,576 blanks", run(replay, b" " * TEXT_BYTES), 0, EMPTY, NO_FORMS)
    long = b" " * (TEXT_BYTES + 1)
    wants("1,048,577 blanks", run(replay, long), 2, b"refused 1 too long\n")
    wants("1,048,577 blanks as JSON", run([*replay, "--json"], long), 2, TOO_LONG_JSON)


# One term with a full stop, and why it is refused; a term that is read is no form.
NO_FORM = "refused 5 form 1"
TERMS = (
    ("[" + "0," * 4095 + "0]", NO_FORM),
    ("[" + "0," * 4096 + "0]", "refused 4 too large at 8192"),
    ("{" + "0," * 254 + "0}", NO_FORM),
    ("{" + "0," * 255 + "0}", "refused 4 too large at 510"),
    ('"' + "a" * 4096 + '"', NO_FORM),
    ('"' + "a" * 4097 + '"', "refused 4 too large at 0"),
    ("a" * 255, NO_FORM),
    ("a" * 256, "refused 4 too large at 0"),
    ("[" * 32 + "]" * 32, NO_FORM),
    ("[" * 33 + "]" * 32, "refused 3 too deep at 32"),
    ("[" * 33 + "]" * 33, "refused 3 too deep at 32"),
    ("-9223372036854775808", NO_FORM),
    ("-9223372036854775809", "refused 4 too large at 0"),
    ("<0.4294967295.0>", NO_FORM),
    ("<0.4294967296.0>", "refused 4 too large at 0"),
    ("<0.007.0>", "refused 2 token at 0"),
)


def terms():
    """Terms at each limit and past it; the independent reading of scripts answers the same."""
    for text, line in TERMS:
        script = f"{text}.".encode()
        wants(f"the term {text[:40]}", run(["replay", "--picks", ""], script), 2, f"{line}\n".encode())
        check(f"the reading of the term {text[:40]}", scripts.output_of(script) == f"{line}\n", scripts.output_of(script))


def fronts():
    """Each front of three scripts: the line of its refusal, or its output where it is whole forms."""
    for text in (SEND_HI, *scripts.TEXTS):
        for end in range(len(text) + 1):
            front = text[:end]
            output = scripts.output_of(front)
            status = 2 if output.startswith("refused") else 0
            note = None if status == 2 or b"{" in re.sub(rb"%.*", b"", front) else NO_FORMS
            wants(f"the first {end} bytes of {text[:40]}", run(["replay", "--picks", ""], front), status, output.encode(), note)


def readings_of_scripts():
    """The independent reading of scripts answers as the worked runs do."""
    for row in sorted(ROWS.iterdir()):
        output, answer = (row / "stdout").read_text(), scripts.output_of((row / "stdin").read_bytes())
        if not output.startswith("refused 20"):
            is_refused = output.startswith("refused")
            check(f"the reading of row {row.name}", answer == output if is_refused else answer.startswith("== "), answer)


# Options that take a number; numbers that other languages spell, and where each goes on as no number does.
NUMBERS = (
    ["round", "--limit"],
    ["workers", "--n"],
    ["workers", "--n", "1", "--turns"],
    [*EXPLAIN_ALL, "--move"],
    ["spec", "--list", "[]", "--me"],
)
SPELLINGS = {"1_000": 1, "1e3": 1, "+1": 0, "0x1": 1, "16#ff": 2, "1.0": 1}


def spec_words(name, text):
    """The words of a trial one of whose texts is this one."""
    texts = {"list": "[]", "caller": "{m,f,1}", "specification": "[{'_',[],[]}]", name: text}
    return ["spec", "--list", texts["list"], "--caller", texts["caller"], texts["specification"]]


def numbers():
    """Numbers as other languages spell them, in each place of a number: no option's value has a sign."""
    for text in (*SPELLINGS, " 1", "-0"):
        for words in NUMBERS:
            ran = run([*words[:-1], f"{words[-1]}={text}"], SEND_HI if words[0] != "spec" else b"[{'_',[],[]}]")
            check(f"{words[-1]} {text}", ran.returncode == 2 and not ran.stdout and ran.stderr, ran)
    for text in SPELLINGS:
        for words in NUMBERS[:1]:
            ran = run([*words, text], SEND_HI, command=(str(PLAIN),))
            check(f"{words[-1]} {text} without clap", ran.returncode == 2 and not ran.stdout and ran.stderr, ran)
    for text in (*SPELLINGS, " 1"):
        for picks in (text, f"0 {text}", f"{text} 0"):
            wants(f"picks {picks}", run(["replay", "--picks", picks], SEND_HI), 2, b"refused 20 bad picks\n")
        for pid in (f"<0.{text}.0>", f"<{text}.1.0>", f"<0.1.{text}>"):
            wants(f"the pid {pid}", run(SEND_HI_PICKS, f"{{{pid}".encode()), 2, b"refused 2 token at 1\n")


def numbers_in_terms():
    """Such numbers as parts of terms: in forms, in lists, in callers and in specifications."""
    forms = ("{function,m,f,exported,[],[{return,", "{process,m,f,[", "{control,[{session_create,")
    texts = (("list", "["), ("caller", "{m,f,"), ("specification", "[{'_',[{'>',"))
    for text, at in SPELLINGS.items():
        for opening in forms:
            line = f"refused 2 token at {len(opening) + at}\n".encode()
            wants(f"{opening}{text}", run(SEND_HI_PICKS, f"{opening}{text}".encode()), 2, line)
        for name, opening in texts:
            front = f"{name}:1:{len(opening) + at + 1}: syntax error: ".encode()
            ran = run(spec_words(name, f"{opening}{text}"))
            good = ran.returncode == 2 and not ran.stdout and ran.stderr.startswith(front) and ran.stderr.count(b"\n") == 1
            check(f"{name} {opening}{text}", good, ran)
