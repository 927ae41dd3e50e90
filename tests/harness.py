"""What the cases share: the programs that are tested, how one is run, and how cases are counted."""
import os
import signal
import subprocess

from sources import TOP

PROGRAM = TOP / "crates" / "tn_cli" / "out" / "tn_cli"
PLAIN = TOP / "crates" / "tn_plain" / "out" / "tn_plain"
PROBE = TOP / "crates" / "probe_memory" / "out" / "probe_memory"
START = TOP / "tracenode"
ROWS = TOP / "tests" / "rows"
EXAMPLES = TOP / "examples"
SECONDS = 60

# The longest script and the longest text of picks, in bytes.
TEXT_BYTES = 1_048_576

EMPTY = b"== replies\n== journal\n\n"
NO_FORMS = b"note: the script has no forms\n"
SEND_HI = (ROWS / "send-hi" / "stdin").read_bytes()
SEND_HI_OUTPUT = (ROWS / "send-hi" / "stdout").read_bytes()
SEND_HI_PICKS = ["replay", "--picks", "0 0 100 100"]

passed = 0
failed = 0


def check(name, holds, seen=None):
    """Counts a case, and says what was seen where it fails."""
    global passed, failed
    if holds:
        passed += 1
    else:
        failed += 1
        print(f"FAILED {name}: {str(seen)[:600]}")


def run(args, script=b"", command=(str(PROGRAM),), **how):
    """The finished process of one run. One that takes too long is killed, with all that it started."""
    pipe = subprocess.PIPE
    words = [*command, *args]
    with subprocess.Popen(words, stdin=pipe, stdout=pipe, stderr=pipe, start_new_session=True, **how) as process:
        try:
            output, errors = process.communicate(script, timeout=SECONDS)
        except subprocess.TimeoutExpired:
            os.killpg(process.pid, signal.SIGKILL)
            raise
    return subprocess.CompletedProcess(process.args, process.returncode, output, errors)


def parsed(name, parse, text):
    """What a text is parsed as; None, and a case that fails, where it can't be parsed."""
    try:
        return parse(text)
    except (ValueError, SyntaxError, LookupError, TypeError) as error:
        check(f"{name} can be parsed", False, f"{type(error).__name__}: {error}: {text[:300]}")
        return None


def note_of_nobody(place, pick):
    """The line of a pick that no process can have."""
    told = f"note: pick {place} is {pick}, and no process has that pid: pids are 100 to 163, and 0 takes the next command\n"
    return told.encode()


def wants(name, ran, status, output, errors=None):
    """Compares a run with its status, its output and its whole standard error.

    Where that isn't given it is one line for a refusal, and else nothing.
    """
    seen = (ran.returncode, ran.stdout, ran.stderr)
    if errors is None:
        is_told = ran.stderr.count(b"\n") == (1 if status == 2 else 0) and not ran.stderr.partition(b"\n")[2]
    else:
        is_told = ran.stderr == errors
    check(name, seen[:2] == (status, output) and is_told, seen)
