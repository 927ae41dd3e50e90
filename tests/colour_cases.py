"""Cases of outputs in colours: with the option, and on a terminal."""
import os
import re
import tempfile

from harness import EXAMPLES, PROGRAM, SEND_HI, SEND_HI_OUTPUT, SEND_HI_PICKS, check, run, wants

BOLD, GREEN, YELLOW, MAGENTA, CYAN = (f"\x1b[{code}m".encode() for code in (1, 32, 33, 35, 36))
NONE = b"\x1b[0m"

SEND_HI_COLOURS = b"".join(
    (
        BOLD + b"== session s1 tracer t1" + NONE + b"\n",
        CYAN + b"{trace,<0.100.0>,send,{hi,1},<0.101.0>}" + NONE + b"\n",
        BOLD + b"== replies" + NONE + b"\n{session,s1}\n2\n",
        BOLD + b"== journal" + NONE + b"\n0 0 100 100\n",
    )
)

# The colours of the kinds of trace messages, from the manual's chapter.
KINDS = {
    b"send": CYAN,
    b"send_to_non_existing_process": CYAN,
    b"'receive'": CYAN,
    b"call": GREEN,
    b"return_from": GREEN,
    b"exception_from": GREEN,
    b"spawn": YELLOW,
    b"spawned": YELLOW,
    b"exit": YELLOW,
    b"link": MAGENTA,
    b"unlink": MAGENTA,
    b"getting_linked": MAGENTA,
    b"getting_unlinked": MAGENTA,
}


def on_terminal(args, script, **environment):
    """What a run prints whose standard output is a terminal."""
    ours, theirs = os.openpty()
    settings = {name: value for name, value in os.environ.items() if name not in ("NO_COLOR", "TERM")} | environment
    with tempfile.NamedTemporaryFile(suffix=".term") as file:
        file.write(script)
        file.flush()
        child = os.posix_spawn(
            str(PROGRAM),
            [str(PROGRAM), args[0], file.name, *args[1:]],
            settings,
            file_actions=[(os.POSIX_SPAWN_DUP2, theirs, 1)],
        )
        os.waitpid(child, 0)
    os.close(theirs)
    try:
        output = os.read(ours, 1 << 16)
    except OSError:
        # nothing was written, and the other end is closed
        output = b""
    os.close(ours)
    return output.replace(b"\r\n", b"\n")


def coloured(output):
    """An output with the colours of the manual."""
    lines = []
    for line in output.splitlines():
        kind = re.match(rb"\{trace,<0\.\d+\.0>,([^,]*),", line)
        style = BOLD if line.startswith(b"== ") else KINDS[kind[1]] if kind else b""
        lines.append((style + line + NONE if style else line) + b"\n")
    return b"".join(lines)


def colours():
    """With `--color`, on a terminal and elsewhere; and the colours of each example."""
    always = [*SEND_HI_PICKS, "--color", "always"]
    wants("an output in colours", run(always, SEND_HI), 0, SEND_HI_COLOURS)
    for when in ("auto", "never"):
        wants(f"an output with --color {when}", run([*SEND_HI_PICKS, "--color", when], SEND_HI), 0, SEND_HI_OUTPUT)
    ran = run([*SEND_HI_PICKS, "--color", "red"], SEND_HI)
    check("a time for colours that there isn't", ran.returncode == 2 and b"always" in ran.stderr, ran)
    for name, more in {"JSON": ["--json"], "a summary": ["--summary"]}.items():
        plain = run([*SEND_HI_PICKS, *more], SEND_HI)
        wants(f"{name} without colours", run([*always, *more], SEND_HI), 0, plain.stdout)
    held = run([*always, "--expect-line", "2"], SEND_HI)
    wants("an output in colours that is expected", held, 0, SEND_HI_COLOURS)
    for path in sorted(EXAMPLES.glob("*.term")):
        script = path.read_bytes()
        plain = run(["run", "--quiet"], script)
        ran = run(["run", "--quiet", "--color=always"], script)
        wants(f"the colours of {path.name}", ran, plain.returncode, coloured(plain.stdout))
    terminals()


def terminals():
    """What is printed on a terminal."""
    check("on a terminal", on_terminal(SEND_HI_PICKS, SEND_HI) == SEND_HI_COLOURS)
    check("on a terminal, TERM=xterm", on_terminal(SEND_HI_PICKS, SEND_HI, TERM="xterm") == SEND_HI_COLOURS)
    check("on a terminal, NO_COLOR empty", on_terminal(SEND_HI_PICKS, SEND_HI, NO_COLOR="") == SEND_HI_COLOURS)
    for name, how in {"NO_COLOR": {"NO_COLOR": "1"}, "TERM=dumb": {"TERM": "dumb"}}.items():
        check(f"on a terminal, {name}", on_terminal(SEND_HI_PICKS, SEND_HI, **how) == SEND_HI_OUTPUT)
        always = on_terminal([*SEND_HI_PICKS, "--color", "always"], SEND_HI, **how)
        check(f"on a terminal, {name}, --color always", always == SEND_HI_COLOURS, always)
    for name, more in {"--color never": ["--color", "never"], "--expect-line": ["--expect-line", "2"]}.items():
        check(f"on a terminal, {name}", on_terminal([*SEND_HI_PICKS, *more], SEND_HI) == SEND_HI_OUTPUT)
    with tempfile.TemporaryDirectory() as folder:
        file = os.path.join(folder, "out")
        printed = on_terminal([*SEND_HI_PICKS, "--output", file], SEND_HI)
        with open(file, "rb") as output:
            check("a file by a terminal", printed == b"" and output.read() == SEND_HI_OUTPUT, printed)
