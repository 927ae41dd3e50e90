"""What `explain` says of a run: the messages of each session move by move, and where a node does otherwise."""
import re

HEADER = re.compile(r"([0-9]+) ([0-9]+)(?: (.*))?")
LINE = re.compile(r"  ('(?:[^'\\]|\\.)*'|[a-z][A-Za-z0-9_@]*): (.*)")
OTHERWISE = "on a node: "
OPEN = OTHERWISE + "the messages aren't determined from here on"


def messages(lines):
    """The messages among the lines of a session."""
    return [line[3:] for line in lines if line.startswith("=> {trace")]


def is_of(message, shown):
    """A message that a node sends is of this event: of the same kind and process, or of the error at an exit or a link."""
    process, kind = re.match(r"{trace,(<0\.[0-9]+\.0>),'?([a-z_]+)'?", message).groups()
    if shown == "nothing":
        return kind in ("link", "unlink")
    of, what = re.match(r"(<0\.[0-9]+\.0>) '?([a-z_]+)'?", shown).groups()
    return process == of and (kind == what or (kind in ("exception_from", "exit") and what in ("exit", "link")))


class Move:
    """A move: its number, its pick, what it shows, each with the lines of each session, and all lines of each session."""

    def __init__(self, number, pick):
        self.number = number
        self.pick = pick
        self.shown = []
        self.lines = {}

    def show(self, text):
        """Begins an event or a command that the move shows."""
        self.shown.append((text, {}))

    def add(self, session, line):
        """Adds a line of a session to what was shown last."""
        self.shown[-1][1].setdefault(session, []).append(line)
        self.lines.setdefault(session, []).append(line)

    def remove(self, session, gone):
        """Takes lines of a session away."""
        for lines in [self.lines, *[own for _, own in self.shown]]:
            if session in lines:
                lines[session] = [line for line in lines[session] if line not in gone]

    def sent(self, session):
        """The messages of a session."""
        return messages(self.lines.get(session, []))

    def said(self, session):
        """What it says of a node."""
        return [line.removeprefix(OTHERWISE) for line in self.lines.get(session, []) if line.startswith(OTHERWISE)]

    def sent_by_node(self, session):
        """The messages that a node sends: without those of the `-` lines, and with those of the `+` lines, each with the
        event that it is of. The lines are in the order of the events."""
        sent = [messages(lines.get(session, [])) for _, lines in self.shown]
        place = 0
        for line in self.lines.get(session, []):
            message = line[2:]
            if line.startswith("- {trace"):
                place = next(at for at in range(place, len(sent)) if message in sent[at])
                sent[place].remove(message)
            elif line.startswith("+ {trace"):
                place = next(at for at in range(place, len(sent)) if is_of(message, self.shown[at][0]))
                sent[place].append(message)
        return [message for own in sent for message in own]

    def reply_of_node(self):
        """The reply of a node to the command of the move, where it is another one."""
        come = [line.removeprefix("+ replies ") for own in self.lines.values() for line in own if line.startswith("+ replies ")]
        return come[0] if come else None


class Account:
    """The moves of a run."""

    def __init__(self, output):
        self.moves = []
        number = None
        for line in output.splitlines():
            if own := LINE.fullmatch(line):
                self.moves[-1].add(own[1], own[2])
            elif header := HEADER.fullmatch(line):
                if header[1] != number:
                    number = header[1]
                    self.moves.append(Move(int(number), int(header[2])))
                self.moves[-1].show(header[3] or "")
            else:
                raise ValueError(f"no line of an account: {line!r}")

    def add_lines_of_node(self, other):
        """Adds the lines of a node, which the account of some of these moves has."""
        moves = {move.number: move for move in self.moves}
        for move in other.moves:
            for session, lines in move.lines.items():
                own = [line for line in lines if line.startswith(("- ", "+ ")) or line == OPEN]
                moves[move.number].lines.setdefault(session, []).extend(own)

    def said(self):
        """All that it says of a node."""
        return {line for move in self.moves for session in move.lines for line in move.said(session)}

    def says(self, words):
        """It says somewhere that a node does otherwise, in words that begin so."""
        return any(line.startswith(words) for line in self.said())

    def ends_untraced(self, reason):
        """A process without flags ends by this error of its own step, of which no session says anything."""
        for move in self.moves:
            lines = [line for own in move.lines.values() for line in own]
            for shown, _ in move.shown:
                ended = re.fullmatch(rf"(<0\.[0-9]+\.0>) exit {reason}", shown)
                if ended and not any(line.startswith(f"{ended[1]} loses ") for line in lines):
                    return True
        return False

    def replies_of_node(self, replies):
        """The replies of a node, where these are the program's."""
        commands = [move.reply_of_node() for move in self.moves if move.pick == 0]
        return [other or own for own, other in zip(replies, commands)]

    def has_lines_of_node(self):
        """It has messages that a node doesn't send, or sends, or another reply."""
        return any(
            line.startswith(("- ", "+ "))
            for move in self.moves
            for lines in move.lines.values()
            for line in lines
        )

    def listings(self):
        """The messages of each session that has some."""
        return self.collected(Move.sent)

    def listings_of_node(self, without=()):
        """The messages that a node sends, but for moves in which it does otherwise in words that begin so."""

        def sent(move, session):
            left = any(line.startswith(tuple(without)) for line in move.said(session)) if without else False
            return move.sent(session) if left else move.sent_by_node(session)

        return self.collected(sent)

    def collected(self, sent):
        """The messages that each move sends, by sessions."""
        found = {}
        for move in self.moves:
            for session in move.lines:
                if lines := sent(move, session):
                    found.setdefault(session, []).extend(lines)
        return found
