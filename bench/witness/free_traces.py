"""Traces of processes that ran freely, what `compare` says of them, and damaged versions."""
import re
import subprocess
import tempfile
from pathlib import Path

from witness.terms import Atom, Pid, Reader, text, to_node

POSSIBLE, IMPOSSIBLE, UNKNOWN = "possible", "impossible", "unknown"

# Processes that a trace alone names, in its order of names.
NAMED = 500


def is_stack(term):
    """A list of calls that an error came through."""
    entries = [isinstance(each, tuple) and len(each) == 4 and isinstance(each[0], Atom) for each in term]
    return bool(entries) and all(entries)


def renamed(term, name):
    """The term with other pids, and with `[]` in place of each list of calls."""
    if isinstance(term, Pid):
        return name(term)
    if isinstance(term, tuple):
        return tuple(renamed(part, name) for part in term)
    if isinstance(term, list):
        return [] if is_stack(term) else [renamed(part, name) for part in term]
    return term


class Trace:
    """The trace messages of a session in the order of their arrival, with the pids of the first processes."""

    def __init__(self, messages, pids):
        self.messages = messages
        self.pids = pids

    def with_messages(self, messages):
        """Other messages of the same processes."""
        return Trace(messages, self.pids)

    def groups(self):
        """The messages of each process in their order."""
        found = {}
        for message in self.messages:
            found.setdefault(message[1], []).append(message)
        return found

    def key(self):
        """What two traces have in common that differ by the names of processes, or by how these are mixed, alone."""
        groups = self.groups()
        names = {pid: Pid(100 + place) for place, pid in enumerate(self.pids)}
        waiting, lines = list(self.pids), []

        def name(pid):
            if pid not in names:
                names[pid] = Pid(NAMED + len(names))
                waiting.append(pid)
            return names[pid]

        while waiting or groups:
            pid = waiting.pop(0) if waiting else next(iter(groups))
            lines.append((name(pid).number, [text(renamed(message, name)) for message in groups.pop(pid, [])]))
        return repr(sorted(lines))

    def file(self):
        """The text of a file of the trace."""
        return "".join(f"{text(message)}.\n" for message in self.messages)


class Answer:
    """What `compare` says of one session."""

    def __init__(self, output):
        self.output = output
        line = next(line for line in output.splitlines() if re.match(r"possible|impossible|unknown", line))
        self.word = re.match(r"\w+", line)[0]
        self.journal = line.partition("journal")[2].strip()
        self.pairs = {Pid(int(a)): Pid(int(b)) for a, b in re.findall(r"(?m)^<0\.(\d+)\.0> is <0\.(\d+)\.0>$", output)}


class FreeProgram:
    """The built program."""

    def __init__(self, path, most_states):
        self.path = path
        self.most_states = most_states

    def ran(self, words, script):
        """The output of a run of the program, whatever its status."""
        return subprocess.run([self.path, *words], input=script.encode(), capture_output=True, check=False)

    def compare(self, script, session, trace):
        """What it says of a trace."""
        with tempfile.TemporaryDirectory() as folder:
            path = Path(folder) / "session.trace"
            path.write_text(trace.file())
            words = ["compare", "--trace", str(path), "--session", session, "--control", "first"]
            words += ["--max-states", str(self.most_states)]
            ran = self.ran(words, script)
        if ran.returncode not in (0, 1, 4):
            raise ValueError(f"compare answered {ran.returncode} {ran.stderr.decode()!r}\n{script}\n{trace.file()}")
        return Answer(ran.stdout.decode())

    def explain(self, script, journal):
        """The account of the run that begins with a journal and goes on to rest."""
        return self.ran(["explain", "--moves", f"{journal} *".strip()], script).stdout.decode()

    def listing(self, script, journal, session):
        """The messages of a session in the run of a journal."""
        words = ["replay", "--picks", journal, "--quiet"]
        listings = self.ran(words, script).stdout.decode().partition("== replies\n")[0]
        parts = re.split(r"(?m)^== session (\S+) tracer .*\n", listings)[1:]
        lines = dict(zip(parts[::2], parts[1::2])).get(text(session), "").splitlines()
        return [Reader(to_node(line)).term() for line in lines]


def is_shown(trace, pairs, listing):
    """The messages of each process of the trace, with their partners, are those of the listing, in their order."""
    theirs = Trace([renamed(message, lambda pid: pairs.get(pid, pid)) for message in trace.messages], []).groups()
    return theirs == Trace(listing, []).groups()


# ---- damaged versions


def leaves(term, place=()):
    """The places of integers and atoms in a term."""
    if isinstance(term, (tuple, list)):
        return [found for at, part in enumerate(term) for found in leaves(part, (*place, at))]
    return [place] if isinstance(term, (int, Atom)) else []


def put(term, place, value):
    """The term with this value at a place."""
    if not place:
        return value
    parts = list(term)
    parts[place[0]] = put(parts[place[0]], place[1:], value)
    return type(term)(parts)


def part_of(term, place):
    """The part at a place."""
    return part_of(term[place[0]], place[1:]) if place else term


def changed(trace, chance):
    """One value, or the kind, of a message is another."""
    at = chance.randrange(len(trace.messages))
    message = renamed(trace.messages[at], lambda pid: pid)
    place = chance.choice([place for place in leaves(message) if place != (0,)])
    old = part_of(message, place)
    if place == (2,):
        new = Atom("unlink" if old != "unlink" else "link")
    else:
        new = old + 1 if isinstance(old, int) else Atom("changed")
    return trace.with_messages([*trace.messages[:at], put(message, place, new), *trace.messages[at + 1 :]])


def dropped(trace, chance):
    """One message less."""
    at = chance.randrange(len(trace.messages))
    return trace.with_messages([*trace.messages[:at], *trace.messages[at + 1 :]])


def swapped(trace, chance):
    """Two neighbours of one process change places; None where no two differ."""
    groups = trace.groups()
    pairs = [(pid, n) for pid, own in groups.items() for n in range(len(own) - 1) if own[n] != own[n + 1]]
    if not pairs:
        return None
    pid, n = chance.choice(pairs)
    places = [at for at, message in enumerate(trace.messages) if message[1] == pid]
    messages = list(trace.messages)
    one, other = places[n], places[n + 1]
    messages[one], messages[other] = messages[other], messages[one]
    return trace.with_messages(messages)


DAMAGES = {"changed": changed, "dropped": dropped, "swapped": swapped}
