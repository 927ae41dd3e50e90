"""The known differences that processes meet which run freely: lines of docs/DIFFERENCES.md.

Each says how a script and a trace must be changed so that `compare` answers as if a node did what the program does. A
trace is explained by those differences without which it is impossible, and with which it is possible.
"""
import itertools

from witness.expressions import changed_specification
from witness.free_traces import POSSIBLE, UNKNOWN
from witness.scripts import changed_specifications
from witness.terms import Atom, TRUE

NORMAL = Atom("normal")

# How many versions of a trace one difference may ask for.
VERSIONS = 8


def kind_of(message):
    """The kind of a trace message."""
    return str(message[2])


class FreeDifference:
    """A known difference: its first words are those of the line of docs/DIFFERENCES.md."""

    # The kinds of trace messages that are left out of both.
    kinds = ()

    def concerns(self, case):
        """The script has what this difference is about."""
        return True

    def command(self, command):
        """A command of the script as the program must be asked."""
        return command

    def case(self, case, traces):
        """The script as the program must be asked about traces."""
        return case.with_commands(map(self.command, case.session))

    def versions(self, trace):
        """The traces as the program may have them."""
        yield trace.with_messages([message for message in trace.messages if not self.is_left_out(message)])

    def is_left_out(self, message):
        """The message is left out."""
        return kind_of(message) in self.kinds


def without_flags(command, gone):
    """A process command without these flags, and a match specification that sets none of them."""
    if command[0] == "process":
        return (*command[:4], [flag for flag in command[4] if flag not in gone])

    def other(call):
        is_one = call[0] in ("enable_trace", "disable_trace") and call[-1] in gone
        return (*call[:-1], Atom("nothing")) if is_one else call

    return changed_specifications(command, lambda specification: changed_specification(specification, other))


class ReceivesLater(FreeDifference):
    """A receive is reported when the message enters the mailbox: on a node when the process next runs, or never."""

    kinds = ("receive",)

    def command(self, command):
        return without_flags(command, self.kinds)


class LinksLater(FreeDifference):
    """A link, an unlink or an end is reported by the other process in the same step: on a node when it next runs, or never.

    Both are asked without the trace messages of `procs`.
    """

    kinds = ("spawn", "spawned", "exit", "link", "unlink", "getting_linked", "getting_unlinked")

    def command(self, command):
        return without_flags(command, ("procs",))


class LinkToItself(FreeDifference):
    """A link with itself has no trace message: on a node it has."""

    def is_left_out(self, message):
        return kind_of(message) in ("link", "unlink") and message[1] == message[3]


class Silent(FreeDifference):
    """A difference of processes that are silent."""

    def concerns(self, case):
        return Atom("silent") in case.flags() or any(call[0] == "silent" for call in case.calls())


class SilentSends(Silent):
    """`silent` suppresses calls, returns and exceptions alone: on a node sends and receives too."""

    kinds = ("send", "send_to_non_existing_process", "receive")

    def command(self, command):
        return without_flags(command, ("send", "receive"))


class SilentAtTheReturn(Silent):
    """`silent` and `call` are read as the call ends: a node looks at `silent` at the call."""

    kinds = ("return_from", "exception_from")

    def command(self, command):
        def other(call):
            return TRUE if call[0] in ("return_trace", "exception_trace") else call

        return changed_specifications(command, lambda specification: changed_specification(specification, other))


class NoProcess(FreeDifference):
    """A link to a process that doesn't live ends the process with `noproc`: a node raises it, with a list of calls."""

    def is_left_out(self, message):
        return kind_of(message) == "exception_from" and message[4] == (Atom("error"), Atom("noproc"))

    def versions(self, trace):
        for other in super().versions(trace):
            yield other.with_messages([self.ended(message) for message in other.messages])

    def ended(self, message):
        """The message, with `noproc` alone as the reason."""
        reason = message[3]
        is_noproc = kind_of(message) == "exit" and isinstance(reason, tuple) and reason[:1] == (Atom("noproc"),)
        return (*message[:3], Atom("noproc")) if is_noproc else message


class NoProcessInACatch(FreeDifference):
    """A link to a process that doesn't live ends the process with `noproc`: a node raises it, and a catch goes on with it.

    The functions that a session saw end by it are asked as if the step raised it, after as many links as the trace has.
    """

    def concerns(self, case):
        return any(step[0] == "link" for function in case.functions for step in function.steps)

    def places(self, trace):
        """The functions that raised it, each with how many links the process had a message of just before."""
        found = {}
        for own in trace.groups().values():
            for at, message in enumerate(own):
                if kind_of(message) == "exception_from" and message[4] == (Atom("error"), Atom("noproc")):
                    links = itertools.takewhile(lambda other: kind_of(other) == "link", reversed(own[:at]))
                    found.setdefault(message[3], len(list(links)))
        return {mfa: count for mfa, count in found.items() if count}

    def case(self, case, traces):
        return case.with_raises(self.places(traces[0]), (Atom("error"), Atom("noproc")))

    def versions(self, trace):
        gone = {id(own[at - 1]) for own in trace.groups().values() for at in self.raises(own)}
        yield trace.with_messages([message for message in trace.messages if id(message) not in gone])

    def raises(self, own):
        """Where a message of a link comes just before that of the exception."""
        for at in range(1, len(own)):
            is_raise = kind_of(own[at]) == "exception_from" and own[at][4] == (Atom("error"), Atom("noproc"))
            if is_raise and kind_of(own[at - 1]) == "link":
                yield at


class UnlinkedBeforeTheEnd(FreeDifference):
    """An exit signal is taken at the process's next step: on a node when it comes, which can be later.

    The lost link is reported first, of which a node says nothing. Before a late signal a process can send messages to the
    one that has ended.
    """

    def versions(self, trace):
        reasons = {message[1]: message[3] for message in trace.messages if kind_of(message) == "exit"}
        pids = [message[1] for message in trace.messages if self.may_be_ended(message)]
        for lost in itertools.product(*(self.lost(trace, pid, reasons) for pid in pids)):
            pairs = {pid: partner for pid, partner in zip(pids, lost) if partner}
            unlinked = trace.with_messages([each for message in trace.messages for each in self.unlinked(message, pairs)])
            yield unlinked
            yield unlinked.with_messages([self.sent(message, pairs) for message in unlinked.messages])

    def unlinked(self, message, pairs):
        """The message, after that of the lost link where it is of an end by a signal."""
        if kind_of(message) == "exit" and message[1] in pairs:
            yield (Atom("trace"), message[1], Atom("getting_unlinked"), pairs[message[1]])
        yield message

    def sent(self, message, pairs):
        """The message, as one to a living process where a process was to end already."""
        is_late = kind_of(message) == "send_to_non_existing_process" and pairs.get(message[1]) == message[4]
        return (*message[:2], Atom("send"), *message[3:]) if is_late else message

    def may_be_ended(self, message):
        """A process ends, perhaps by an exit signal."""
        return kind_of(message) == "exit" and message[3] != NORMAL

    def lost(self, trace, pid, reasons):
        """The processes whose end may have ended it: those with which it was linked, or none. One that ended by the same
        reason comes first."""
        links = ("link", "getting_linked")
        told = [m for m in trace.messages if kind_of(m) in links and pid in (m[1], m[3]) and m[1] != m[3]]
        partners = [*dict.fromkeys(m[3] if m[1] == pid else m[1] for m in told), None]
        return sorted(partners, key=lambda partner: reasons.get(partner) != reasons[pid])


class EndedBeforeTheSignal(FreeDifference):
    """An exit signal is taken at the process's next step: on a node when it comes, which can be after the process has ended
    by itself.

    Processes are asked as if they neither linked nor unlinked, so that no signal ends one.
    """

    kinds = ("link", "unlink", "getting_linked", "getting_unlinked")

    def concerns(self, case):
        return any(step[0] == "link" for function in case.functions for step in function.steps)

    def case(self, case, traces):
        return case.without_steps(("link", "unlink"))


# Those that are tried first stand first. The last one leaves out the most.
DIFFERENCES = [
    LinkToItself(),
    ReceivesLater(),
    NoProcess(),
    NoProcessInACatch(),
    UnlinkedBeforeTheEnd(),
    EndedBeforeTheSignal(),
    SilentAtTheReturn(),
    SilentSends(),
    LinksLater(),
]


def first_words(difference):
    """What a difference says first."""
    return type(difference).__doc__.partition(":")[0]


class Question:
    """A script and versions of a trace of one of its sessions, of which one must be possible."""

    def __init__(self, case, traces):
        self.case = case
        self.traces = traces

    def changed_by(self, difference):
        """The question as it is asked for a difference."""
        versions = [version for trace in self.traces for version in difference.versions(trace)]
        return Question(difference.case(self.case, self.traces), versions[:VERSIONS])

    def is_the_same(self, other):
        """Both ask the same."""
        texts = [[trace.file() for trace in question.traces] for question in (self, other)]
        return texts[0] == texts[1] and self.case.script() == other.case.script()

    def words(self, program, session):
        """What the program says of each version, up to one that is possible."""
        script = self.case.script()
        for trace in self.traces:
            word = program.compare(script, session, trace).word
            yield word
            if word == POSSIBLE:
                return


def sets_of(differences):
    """The sets of differences, small ones first; those with the last difference come after all others."""
    counts = range(1, len(differences) + 1)
    found = [chosen for count in counts for chosen in itertools.combinations(differences, count)]
    return sorted(found, key=lambda chosen: DIFFERENCES[-1] in chosen)


def explaining(case, session, trace, program):
    """The fewest known differences that explain together that a trace is impossible, or none, and whether a search that
    may have found some ended before it had tried all states."""
    first = Question(case, [trace])
    known = [difference for difference in DIFFERENCES if difference.concerns(case)]
    open_ended = False
    for chosen in sets_of([difference for difference in known if not first.is_the_same(first.changed_by(difference))]):
        question = first
        for difference in chosen:
            question = question.changed_by(difference)
        words = list(question.words(program, session))
        if POSSIBLE in words:
            return chosen, False
        open_ended = open_ended or UNKNOWN in words
    return (), open_ended
