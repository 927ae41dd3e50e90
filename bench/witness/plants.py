"""Wrong rules, planted in what the program says, so that the comparison must find cases that nothing explains."""
import re

from witness.accounts import Account
from witness.sides import Program, Run
from witness.terms import line_is, pid_of


class Planted(Program):
    """The program with a wrong rule: its account of each run is changed."""

    def __init__(self, program):
        super().__init__(program.path)

    def run(self, script, picks):
        """A run by the wrong rule."""
        run = super().run(script, picks)
        return Run(run.replies, run.journal, self.changed(run.account, script, picks))

    def changed(self, account, script, picks):
        """The account by the wrong rule."""
        raise NotImplementedError

    def with_script(self, account, script, picks, changed):
        """The account of the same picks by another script, whose control list is as long."""
        if script == changed:
            return account
        return Account(self.output("explain", changed, picks))


class EverySession(Planted):
    """What one session has acts in all that live: the lines of each move are changed, one move after the other."""

    def changed(self, account, script, picks):
        self.begin(script)
        sessions = set()
        for move in account.moves:
            for session, lines in move.lines.items():
                if any(line.startswith("replies {session,") for line in lines):
                    sessions.add(session)
            self.share(move, sessions)
        return account

    def begin(self, script):
        """Begins with a script."""
        raise NotImplementedError

    def share(self, move, sessions):
        """Changes one move, where these sessions live."""
        raise NotImplementedError


class SharedMarks(EverySession):
    """A call that is marked in one session is marked in all: how it ends is told in each that told of a call."""

    def begin(self, script):
        self.called = set()

    def share(self, move, sessions):
        ends = set()
        for session in move.lines:
            for line in move.sent(session):
                kind = line.split(",")[2]
                if kind == "call":
                    self.called.add((session, pid_of(line)))
                if kind in ("return_from", "exception_from"):
                    ends.add(line)
        for session in sessions:
            for line in ends:
                if (session, pid_of(line)) in self.called and line not in move.sent(session):
                    move.add(session, f"=> {line}")


class SharedSilence(EverySession):
    """A process that one session silences is silent in all: its calls, returns and exceptions aren't told."""

    def begin(self, script):
        self.silent = set()
        self.pids = [f"<0.{100 + number}.0>" for number in range(len(re.findall("^{process,", script, re.M)))]

    def share(self, move, sessions):
        for shown, _ in move.shown:
            self.note_shown(shown)
        for lines in move.lines.values():
            for line in lines:
                self.note_line(move, line)
        ends = line_is("call", "return_from", "exception_from")
        for session in move.lines:
            gone = {f"=> {line}" for line in move.sent(session) if ends(line) and pid_of(line) in self.silent}
            move.remove(session, gone)

    def change(self, pids, is_silent):
        """These processes are silent from now on, or aren't."""
        self.silent = self.silent | set(pids) if is_silent else self.silent - set(pids)

    def note_shown(self, shown):
        """Notes a process that was started, or a command that silences."""
        if born := re.match(r"(<0\.[0-9]+\.0>) spawned ", shown):
            self.pids.append(born[1])
        if command := re.match(r"{process,[^,]+,([^,]+),(true|false),(\[.*\])}", shown):
            if re.search(r"\bsilent\b", command[3]) and command[1] != "new":
                self.change(self.pids if command[1] in ("all", "existing") else [command[1]], command[2] == "true")

    def note_line(self, move, line):
        """Notes whom a line silences, and whom it doesn't."""
        for pid, changes in re.findall(r"(<0\.[0-9]+\.0>)((?: (?:gets|loses) '?[a-z_]+'?)+)", line):
            if "silent" in changes:
                self.change([pid], "gets silent" in changes)
        if "fires:" in line and (one := re.search(r"silent (true|false)", line)):
            self.change([f"<0.{move.pick}.0>"], one[1] == "true")


class SharedFlags(Planted):
    """A process command acts in all sessions that live."""

    def changed(self, account, script, picks):
        commands = self.commands(script)
        names = []
        shared = []
        for command in commands:
            name = re.match(r"{\w+,('(?:[^'\\]|\\.)*'|\w+)", command)[1]
            if command.startswith("{session_create"):
                names.append(name)
            if command.startswith("{session_destroy") and name in names:
                names.remove(name)
            own = [command]
            if command.startswith("{process,") and name in names:
                rest = command[len(f"{{process,{name}") :]
                own += [f"{{process,{other}{rest}" for other in names if other != name]
            shared.append(own)
        flat = ",".join(command for own in shared for command in own)
        changed = script[: script.index("{control,")] + f"{{control,[{flat}]}}.\n"
        more = iter(shared)
        longer = [each for pick in picks for each in ([0] * len(next(more, [0])) if pick == 0 else [pick])]
        return Account(self.output("explain", changed, longer))

    def commands(self, script):
        """The texts of the commands."""
        control = script[script.index("{control,[") + len("{control,[") :].rstrip().removesuffix("]}.")
        found, depth, quoted, start = [], 0, False, 0
        for place, character in enumerate(control):
            if character == "'":
                quoted = not quoted
            elif not quoted and character in "{[":
                start = place if depth == 0 else start
                depth += 1
            elif not quoted and character in "}]":
                depth -= 1
                if depth == 0:
                    found.append(control[start : place + 1])
        return found


class GoesOn(Planted):
    """A session that is destroyed goes on."""

    def changed(self, account, script, picks):
        lasting = re.sub(r"{session_destroy,(\w+)}", r"{process,\1,new,true,[]}", script)
        return self.with_script(account, script, picks, lasting)


class NoFlagsByLinks(Planted):
    """A link hands on nothing: no process command sets a flag by which it does."""

    def changed(self, account, script, picks):
        def without(command):
            return command[1] + ",".join(flag for flag in command[2].split(",") if "_link" not in flag) + "]}"

        plain = re.sub(r"({process,[^,{}]+,[^,{}]+,(?:true|false),\[)([^\[\]]*)\]}", without, script)
        return self.with_script(account, script, picks, plain)


RULES = {
    "flags-shared": SharedFlags,
    "marks-shared": SharedMarks,
    "silence-shared": SharedSilence,
    "destroyed-goes-on": GoesOn,
    "links-hand-on-nothing": NoFlagsByLinks,
}
