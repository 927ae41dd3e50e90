"""Cases of readers, writers and memory that fail."""
import functools
import os
import pathlib
import resource
import shutil
import socket
import subprocess
import tempfile
from concurrent.futures import ProcessPoolExecutor

import layers
from explanation_cases import EVERY_LINE
from harness import (
    EMPTY,
    EXAMPLES,
    PROBE,
    PROGRAM,
    ROWS,
    SEND_HI,
    SEND_HI_OUTPUT,
    SEND_HI_PICKS,
    TEXT_BYTES,
    TOP,
    check,
    run,
    wants,
)

# How many runs, each with another growth refused, are started before the first of them is looked at.
TOGETHER = 16


def ends():
    """Standard streams that are closed, full or no files."""
    with open("/dev/full", "wb") as full:
        ran = subprocess.run(
            [PROGRAM, *SEND_HI_PICKS], input=SEND_HI, stdout=full, stderr=subprocess.PIPE, check=False
        )
        fault = b"fault 19 write after 0 bytes: No space left on device (os error 28)\n"
        good = ran.returncode == 3 and ran.stderr == fault
        check("a full standard output", good, ran)
        ran = subprocess.run([PROGRAM, "--help"], stdout=full, stderr=subprocess.PIPE, check=False)
        check("help to a full standard output", ran.returncode == 3 and ran.stderr == fault, ran)
    ran = run(SEND_HI_PICKS, SEND_HI, command=("sh", "-c", 'exec "$0" "$@" >&-', str(PROGRAM)))
    check("a closed standard output", ran.returncode == 3 and b"fault 19" in ran.stderr, ran)
    ran = run(SEND_HI_PICKS, command=("sh", "-c", 'exec "$0" "$@" <&-', str(PROGRAM)))
    wants("a closed standard input", ran, 3, b"", b"fault 18 read: Bad file descriptor (os error 9)\n")
    with tempfile.TemporaryDirectory() as folder:
        there = os.open(folder, os.O_RDONLY)
        ran = subprocess.run(
            [PROGRAM, *SEND_HI_PICKS], stdin=there, stdout=subprocess.PIPE, stderr=subprocess.PIPE, check=False
        )
        os.close(there)
        wants("a folder as standard input", ran, 3, b"", b"fault 18 read: Is a directory (os error 21)\n")
    reader, writer = socket.socketpair()
    reader.close()
    ran = subprocess.run(
        [PROGRAM, *SEND_HI_PICKS], input=SEND_HI, stdout=writer, stderr=subprocess.PIPE, check=False
    )
    writer.close()
    check("an output that nobody reads", ran.returncode in (3, -13), ran)


def closed_pipes():
    """Standard output is a pipe that nobody reads any more: status 3, and no line."""
    every = (EXAMPLES / "every_line.term").read_bytes()
    for words, script in ((SEND_HI_PICKS, SEND_HI), (["explain", *EVERY_LINE], every), (["spec", "--list", "[]", "[{'_',[],[]}]"], b"")):
        reader, writer = os.pipe()
        os.close(reader)
        command = [str(PROGRAM), *words]
        ran = subprocess.run(command, input=script, stdout=writer, stderr=subprocess.PIPE, check=False)
        os.close(writer)
        check(f"{words[0]} to a closed pipe", ran.returncode == 3 and ran.stderr == b"", ran)


def memory():
    """Want of memory: a limit on the address space that a large script passes."""
    text = b"{a}.\n" * (TEXT_BYTES // 5)
    small = 24 * 2**20

    def limit():
        resource.setrlimit(resource.RLIMIT_AS, (small, small))

    ran = run(["replay", "--picks", ""], text, preexec_fn=limit)
    wants("want of memory", ran, 3, b"", b"fault memory\n")


def refused_growth(library, number, words, script, program=PROGRAM):
    """A run in which the growth with this number is refused, and whether there was one."""
    reader, writer = os.pipe()
    places = dict(os.environ, LD_PRELOAD=str(library), REFUSED_GROWTH=str(number))
    how = {"env": places, "preexec_fn": lambda: os.dup2(writer, 9), "close_fds": False}
    ran = run(words, script, command=(str(program),), **how)
    os.close(writer)
    is_refused = os.read(reader, 100) != b""
    os.close(reader)
    return ran, is_refused


def preloaded(name, folder):
    """The library that tests/NAME.c is compiled to. Without a C compiler the case fails, and there is none."""
    compiler = shutil.which("cc") or shutil.which("gcc") or shutil.which("clang")
    if not compiler:
        check(f"{name}: a C compiler", False, "install Debian's package gcc")
        return None
    library = pathlib.Path(folder) / f"{name}.so"
    source = TOP / "tests" / f"{name}.c"
    subprocess.run([compiler, "-shared", "-fPIC", "-o", library, source, "-ldl"], check=True)
    return library


def growing():
    """Command lines and scripts that take memory in every way."""
    numbers = (EXAMPLES / "numbers.term").read_bytes()
    every = (EXAMPLES / "every_line.term").read_bytes()
    explain = ["explain", "--picks", "0 0 0 100 100 100"]
    for words in (["workers", "--n", "1", "--turns", "2"], ["workers", "--n", "1"], ["round"], SEND_HI_PICKS, explain):
        yield words, numbers
    for words in (["workers", "--n", "1"], ["replay", *EVERY_LINE]):
        yield words, every
    race = (EXAMPLES / "race.term").read_bytes()
    shows = ["--shows", "{'$1','$2','$3',{'$4','$5','$6'}}", "--always", "{trace,'_',call,'_'}"]
    for words in (["explore", "--control", "first"], ["explore", "--after", "0*4 100*4"], ["explore", "--after", "0*4 100*4", *shows]):
        yield words, race
    spec = "[{['$1','$2'],[{'>','$2',3}],[{message,{{a,'$1'}}},\"text\"]},{'_',[],[{return_trace}]}]"
    for words in (["fun", "fun([X,Y]) when Y > 3 -> message({a,X}), \"text\"; (_) -> return_trace() end"], ["fun", "--pretty", spec]):
        yield words, b""
    for name in layers.NAMES:
        yield (ROWS / name / "args").read_text().removesuffix("\n").split("\n"), (ROWS / name / "stdin").read_bytes()


def in_turn(pool, library, words, script, program=PROGRAM):
    """The runs in which the growths 0, 1, .. are refused, up to the one in which there is none; several at a time."""
    call = functools.partial(refused_growth, library, words=words, script=script, program=program)
    for first in range(0, 100_000, TOGETHER):
        for ran, is_refused in pool.map(call, range(first, first + TOGETHER)):
            yield ran, is_refused
            if not is_refused:
                return


def growths():
    """Each growth of memory refused in turn: a fault and nothing written, or the whole output."""
    with tempfile.TemporaryDirectory() as folder, ProcessPoolExecutor() as pool:
        library = preloaded("refusing_growth", folder)
        for words, script in growing() if library else ():
            whole = run(words, script).stdout
            for number, (ran, is_refused) in enumerate(in_turn(pool, library, words, script)):
                if not is_refused:
                    break
                is_fault = ran.returncode == 3 and ran.stderr in (b"fault memory\n", b"fault workers\n")
                if not (is_fault and not ran.stdout or ran.returncode == 0 and ran.stdout == whole):
                    check(f"growth {number} of {words}", False, ran)
            good = ran.returncode == 0 and ran.stdout == whole and number > (50 if script else 10)
            check(f"each growth of {words}, {number} of them", good, ran)


def refusals_of(pool, library, words, script, allowed):
    """What is refused in each run, with each growth of memory refused in turn; what isn't allowed fails the case."""
    found = []
    for number, (ran, is_refused) in enumerate(in_turn(pool, library, words, script, PROBE)):
        if (ran.returncode, ran.stdout, ran.stderr) == (3, b"", b"fault memory\n"):
            found.append("before the call")
            continue
        name = allowed.get(ran.stdout.decode())
        if name is None or ran.returncode or ran.stderr:
            check(f"growth {number} of {words}", False, ran)
        if not is_refused:
            check(f"{words} where nothing is refused", name == layers.WHOLE, ran)
            return found
        found.append(name)
    check(f"{words} ends", False, len(found))
    return found


def calls():
    """Each growth of memory refused in turn, over the calls of the layers: each answers as it may."""
    check("the program that calls the layers", PROBE.exists(), PROBE)
    found = {call: set() for call in layers.REFUSED}
    with tempfile.TemporaryDirectory() as folder, ProcessPoolExecutor() as pool:
        library = preloaded("refusing_growth", folder) if PROBE.exists() else None
        for words, script, allowed in layers.cases() if library else ():
            refused = refusals_of(pool, library, words, script, allowed)
            check(f"each growth of {words}, {len(refused)} of them", len(refused) > 10, refused)
            found[words[0]].update(refused)
    for call, names in layers.REFUSED.items():
        check(f"what is refused in {call}", names <= found[call], found[call])


def failing_ends():
    """Standard input and output that fail after each byte, for good or once, or take nothing more."""
    failed_read = b"fault 18 read: Input/output error (os error 5)\n"
    with tempfile.TemporaryDirectory() as folder:
        library = preloaded("failing_ends", folder)
        for way in ("FAILS", "FAILS_ONCE", "TAKES_NONE") if library else ():
            places = dict(os.environ, LD_PRELOAD=str(library), **{way: "1"})
            for count in range(len(SEND_HI) + 1 if way != "TAKES_NONE" else 0):
                ran = run(SEND_HI_PICKS, SEND_HI, env=dict(places, READ_BYTES=str(count)))
                wants(f"a read that {way} after {count} bytes", ran, 3, b"", failed_read)
            for count in range(len(SEND_HI_OUTPUT)):
                ran = run(SEND_HI_PICKS, SEND_HI, env=dict(places, WRITE_BYTES=str(count)))
                told = b"fault 19 write after %d bytes" % count
                good = ran.returncode == 3 and ran.stderr.startswith(told) and ran.stderr.count(b"\n") == 1
                check(f"a write that {way} after {count} bytes", good and ran.stdout == SEND_HI_OUTPUT[:count], ran)
        if library:
            ran = run(["replay", "--picks", ""], env=dict(os.environ, LD_PRELOAD=str(library), WRITE_BYTES="5"))
            good = ran.returncode == 3 and ran.stdout == b"== re" and ran.stderr.startswith(b"fault 19 write after 5 bytes")
            check("an empty script's output after 5 bytes", good, ran)
    for count in range(len(EMPTY) + 2):
        written = min(count, len(EMPTY))
        told = b"run Write { written: %d }\n" % written + EMPTY[:written]
        wants(f"a writer that takes {count} bytes, and a flush that fails", run(["full", "", str(count)], command=(str(PROBE),)), 0, told)
