"""The two that are held against each other: the built program and a real node of OTP 27."""
import pathlib
import re
import shutil
import subprocess
import sys
import tempfile
import threading

from witness.accounts import Account
from witness.terms import Atom, Reader, node_text

HERE = pathlib.Path(__file__).resolve().parent
SECONDS = 120

# The modules of Erlang that run in the node; the last one answers where no other is named.
GATES = ["free_gate", "node_gate"]

# What is answered in place of a node that ended.
ENDED = Atom("ended")

# A process that ends by an error is no news here.
QUIET = ["-kernel", "logger_level", "none"]


class Run:
    """What the program answers to a script and picks: its replies, its journal, and its account of each move."""

    def __init__(self, replies, journal, account):
        self.replies = replies
        self.journal = journal
        self.account = account


class Program:
    """The built program."""

    def __init__(self, path):
        self.path = path

    def output(self, command, script, picks, *more):
        """The output of a command on a script and picks."""
        ran = subprocess.run(
            [self.path, command, "--picks", " ".join(map(str, picks)), *more],
            input=script.encode(),
            stdout=subprocess.PIPE,
            stderr=subprocess.PIPE,
            timeout=SECONDS,
            check=False,
        )
        output = ran.stdout.decode()
        if ran.returncode != 0:
            sys.exit(f"bench: the program answered {output!r} {ran.stderr!r} for\n{script}")
        return output

    def moves(self, script, picks, session):
        """The moves of a run, with the messages of one session."""
        return Account(self.output("explain", script, picks, "--session", session)).moves

    def run(self, script, picks):
        """A run of the program."""
        listings, _, rest = self.output("replay", script, picks).partition("== replies\n")
        replies, _, journal = rest.partition("== journal\n")
        account = Account(self.output("explain", script, picks))
        account.add_lines_of_node(Account(self.output("explain", script, picks, "--node")))
        if account.listings() != listed(listings.splitlines()):
            sys.exit(f"bench: the account and the listings of the program aren't the same for\n{script}")
        return Run(replies.splitlines(), [int(pick) for pick in journal.split()], account)


def listed(lines):
    """The lines of each session that has some."""
    found, own = {}, None
    for line in lines:
        if session := re.match(r"== session ('(?:[^'\\]|\\.)*'|\S+) tracer ", line):
            own = found[session[1]] = []
        else:
            own.append(line)
    return {session: own for session, own in found.items() if own}


class Node:
    """A node in a root with so many schedulers, which answers questions, each a term, within so many seconds."""

    def __init__(self, root, gate=GATES[-1], schedulers=1, seconds=SECONDS):
        self.root = pathlib.Path(root).absolute()
        self.gate = gate
        self.schedulers = schedulers
        self.seconds = seconds
        self.folder = pathlib.Path(tempfile.mkdtemp(prefix="node_gate.", dir=self.root / "tmp"))
        self.within = f"/tmp/{self.folder.name}"
        for name in GATES:
            shutil.copy(HERE / f"{name}.erl", self.folder)
        sources = [f"{self.within}/{name}.erl" for name in GATES]
        subprocess.run([*self.entered(), "erlc", "-o", self.within, *sources], check=True)
        self.process = self.started()

    def entered(self):
        """The words that run a program in the root."""
        return ["chroot", str(self.root)]

    def started(self):
        """A new node."""
        # A scheduler that has nothing to do sleeps at once.
        schedulers = ["+S", f"{self.schedulers}:{self.schedulers}", "+sbwt", "none"]
        return subprocess.Popen(
            [*self.entered(), "erl", "-noshell", *QUIET, *schedulers, "-pa", self.within, "-s", self.gate, "serve"],
            stdin=subprocess.PIPE,
            stdout=subprocess.PIPE,
            stderr=subprocess.DEVNULL,
            text=True,
            env={"PATH": "/usr/sbin:/usr/bin:/bin", "HOME": "/", "LANG": "C.UTF-8", "ERL_CRASH_DUMP_SECONDS": "0"},
        )

    def ask(self, question):
        """The answer to a question. Where the node ends, the next question is asked of a new one."""
        watch = threading.Timer(self.seconds, self.process.kill)
        watch.start()
        try:
            self.process.stdin.write(node_text(question) + ".\n")
            self.process.stdin.flush()
            line = self.process.stdout.readline()
        except BrokenPipeError:
            line = ""
        watch.cancel()
        if not line.endswith("\n"):
            self.process.kill()
            self.process.wait()
            self.process = self.started()
            return ENDED
        return Reader(line.rstrip("\n")).term()

    def close(self):
        """Ends the node, and takes the gate out of the root."""
        self.process.stdin.close()
        self.process.wait()
        shutil.rmtree(self.folder)


def missing_in(root):
    """Why no node can be asked in the root; nothing where one can."""
    if not (pathlib.Path(root) / "usr/bin/erl").exists():
        return f"no node of OTP 27 in {root}; bench/otp27 {root} makes one"
    if not shutil.which("chroot"):
        return "no chroot on the path"
    ran = subprocess.run(
        ["chroot", str(root), "erl", "-noshell", "-eval", "io:put_chars(erlang:system_info(otp_release)), halt()."],
        stdout=subprocess.PIPE,
        stderr=subprocess.PIPE,
        check=False,
    )
    if ran.returncode != 0:
        return f"the node in {root} doesn't start: {ran.stderr.decode().strip()}"
    return "" if ran.stdout == b"27" else f"the node in {root} is of OTP {ran.stdout.decode()}, not of OTP 27"
