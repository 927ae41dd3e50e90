"""Random funs for `tracenode fun`, and what the compiler of a real node says of them."""
import random
import re

from witness.sides import ENDED
from witness.terms import Atom, Quoted

# Functions and actions with their numbers of arguments, of conditions and bodies, and of bodies alone.
FUNCTIONS = [
    ("abs", 1), ("element", 2), ("hd", 1), ("tl", 1), ("length", 1), ("size", 1), ("node", 0), ("node", 1), ("self", 0),
    ("is_atom", 1), ("is_float", 1), ("is_integer", 1), ("is_list", 1), ("is_number", 1), ("is_pid", 1), ("is_port", 1),
    ("is_reference", 1), ("is_tuple", 1), ("is_map", 1), ("is_binary", 1), ("is_function", 1), ("object", 0),
    ("bindings", 0),
]
ACTIONS = [
    ("message", 1), ("return_trace", 0), ("exception_trace", 0), ("silent", 1), ("enable_trace", 1),
    ("enable_trace", 2), ("disable_trace", 1), ("disable_trace", 2), ("trace", 2), ("trace", 3), ("caller", 0),
]
OPERATORS = (
    "== /= =< < >= > =:= =/= + - bor bxor or xor * div rem band and orelse andalso".split()
)
ATOMS = ["a", "b", "ok", "true", "false", "'$a'", "'hello world'", "'it\\'s'", "maybe_so", "x@1", "'fun'"]
STRINGS = ['""', '"a"', '"ab c"', '"\\"q\\\\"', '"tab\\t"']
NAMES = ["X", "Y", "Z", "Rest", "_Any", "A1", "Value@2"]
BLANKS = [" ", "  ", "\n", "\t", " % a comment\n "]

# Of each class of funs outside of the profile: an expression of a body, and the refusals that it may have here. `!` is
# in none of them: the compiler would send the message.
OUTSIDE = {
    "an operator that is left out": (["X / 2", "X ++ Y", "X -- Y", "X bsl 1", "X bsr 1", "+X"], (2, 21)),
    "a float": (["1.5", "X > 2.0e3"], (21,)),
    "a number with a base": (["16#ff", "1_000"], (21,)),
    "a binary": (["<<1>>", "<<X>>"], (21,)),
    "a record": (["#r{}", "X#r.a"], (21,)),
    "a map": (["#{a => 1}", "X#{a := 1}"], (21,)),
    "a construct": (["case X of _ -> a end", "if true -> a end", "begin X end", "catch X"], (21,)),
    "a fun within": (["fun() -> a end"], (21,)),
    "a match": (["W = X", "{a} = X"], (21,)),
    "a comprehension": (["[W || W <- X]"], (21,)),
    "a call with a module": (["erlang:self()", "lists:last(X)"], (21,)),
    "no function": (["foo(X)", "message(X, Y)", "tuple_size(X)", "is_boolean(X)", "element(X)"], (23,)),
    "a function that is left out": (["max(X, 1)", "round(X)", "is_record(X, r)", "display(X)", "get_tcw()"], (24,)),
    "an unbound variable": (["Nowhere", "{X, Elsewhere}"], (22,)),
    "a list with a tail": (["[a | X]", "[X | Y]"], (26,)),
    "a minus": (["-X", "- self()", "-a"], (27,)),
    "comparisons in a row": (["1 < X < 5", "X == Y == 1"], (2,)),
    "a bracket too few": (["{X", "(X", "[X, Y"], (2,)),
    "a non-ASCII character": (["'\u00e4'", '"\u00e4"'], (2,)),
    "an escape that is left out": (['"\\x41"', "'\\101'"], (2,)),
    "an atom with a control character": (["'\\n'", "'a\\tb'"], (2,)),
    "a large integer": (["9223372036854775808", "9223372036854775807 + X * 9999999999999999999"], (4,)),
    "a computed integer that is large": (["9223372036854775807 + 1"], (4,)),
}
HEADS = {
    "an atom of a variable in a head": (["['$1']", "[{'$01'}]", "['$+1']"], (25,)),
    "the whole head twice": (["X = X", "_ = _"], (28,)),
    "a head that is no list": (["{X}", "a", '"ab"', "X, Y"], (2,)),
    "a head with a tail": (["[X | Y]", "[a | X]"], (26,)),
}


class FunChooser:
    """Chooses funs at random within the profile. A text has each token apart from its neighbours where it must be."""

    def __init__(self, chooser):
        self.chooser = chooser

    def one(self, items):
        """One of them."""
        return self.chooser.choice(items)

    def blank(self):
        """Blanks or a comment, mostly one blank."""
        return " " if self.chooser.random() < 0.9 else self.one(BLANKS)

    def joined(self, items, between):
        """The items with these characters and blanks between any two."""
        return (between + self.blank()).join(items)

    def integer(self):
        """An integer or a character."""
        return self.one([str(self.chooser.randrange(100)), "007", "$a", "$\\n", "$ ", "65535"])

    def leaf(self, names):
        """A variable, an integer, an atom or strings."""
        kind = self.chooser.random()
        if kind < 0.45 and names:
            return self.one(names)
        if kind < 0.5:
            return "_"
        if kind < 0.7:
            return self.integer()
        if kind < 0.75:
            return "- " + str(self.chooser.randrange(100))
        if kind < 0.92:
            return self.one(ATOMS)
        return self.one(STRINGS)

    def pattern(self, depth, names):
        """A pattern; new variables are added to the names."""
        kind = self.chooser.random()
        if depth == 0 or kind < 0.6:
            if kind < 0.4:
                name = self.one(NAMES)
                names.append(name)
                return name
            return self.leaf(names)
        parts = [self.pattern(depth - 1, names) for _ in range(self.chooser.randrange(4))]
        if kind < 0.8:
            return "{" + self.joined(parts, ",") + "}"
        if parts and kind < 0.85:
            return "[" + self.joined(parts, ",") + " | " + self.one(["[]", '"ab"', "[a]"]) + "]"
        return "[" + self.joined(parts, ",") + "]"

    def head(self, names):
        """A head; its variables are added to the names."""
        if self.chooser.random() < 0.15:
            names.append("All")
            return "All"
        parts = [self.pattern(2, names) for _ in range(self.chooser.randrange(4))]
        listed = "[" + self.joined(parts, ",") + "]"
        if self.chooser.random() < 0.8:
            return listed
        names.append("All")
        return self.one([f"All = {listed}", f"{listed} = All"])

    def expression(self, depth, names, calls):
        """An expression."""
        kind = self.chooser.random()
        if depth == 0 or kind < 0.3:
            return self.leaf(names)
        below = depth - 1
        if kind < 0.6:
            left, right = self.operand(below, names, calls), self.operand(below, names, calls)
            return f"{left}{self.blank()}{self.one(OPERATORS)}{self.blank()}{right}"
        if kind < 0.66:
            return f"{self.one(['not', 'bnot'])}{self.blank()}{self.operand(below, names, calls)}"
        if kind < 0.8:
            name, count = self.one(calls)
            parts = [self.expression(below, names, calls) for _ in range(count)]
            return f"{name}({self.joined(parts, ',')})"
        parts = [self.expression(below, names, calls) for _ in range(self.chooser.randrange(4))]
        if kind < 0.9:
            return "{" + self.joined(parts, ",") + "}"
        if parts and kind < 0.93:
            return "[" + self.joined(parts, ",") + "|" + self.one(["[]", '"ab"', "[1, 2]", '""']) + "]"
        return "[" + self.joined(parts, ",") + "]"

    def operand(self, depth, names, calls):
        """An operand, mostly in parentheses where it is more than one token."""
        found = self.expression(depth, names, calls)
        return f"({found})" if " " in found and self.chooser.random() < 0.7 else found

    def clause(self, depth, more_body=None, head=None):
        """A clause whose expressions nest so deep, with this one at the end of its body, or with this head."""
        names = []
        head = head or self.head(names)
        if more_body:
            names = ["X", "Y"]
            head = "[X, Y]"
        guards = [
            self.joined([self.expression(depth, names, FUNCTIONS) for _ in range(self.chooser.randrange(1, 3))], ",")
            for _ in range(self.chooser.choice([0, 0, 1, 1, 2, 3]))
        ]
        when = f" when {self.joined(guards, ';')}" if guards else ""
        bodies = [self.expression(depth, names, FUNCTIONS + ACTIONS) for _ in range(self.chooser.randrange(1, 3))]
        if more_body:
            bodies.append(more_body)
        return f"({head}){when} ->{self.blank()}{self.joined(bodies, ',')}"

    def fun(self):
        """A fun within the profile."""
        clauses = [self.clause(2) for _ in range(self.chooser.choice([1, 1, 1, 2, 3]))]
        return f"fun{self.blank()}{self.joined(clauses, ';')} end" + self.one(["", "", "."])

    def outside(self):
        """A class of funs outside of the profile, and one of it. No other part of it is refused."""
        if self.chooser.random() < 0.15:
            name = self.one(sorted(HEADS))
            clause = self.clause(1, head=self.one(HEADS[name][0]))
        else:
            name = self.one(sorted(OUTSIDE))
            clause = self.clause(1, more_body=self.one(OUTSIDE[name][0]))
        return name, f"fun{clause} end"


class FunCase:
    """A text, and what both say of it: a specification, or a refusal with its place."""

    def __init__(self, text, program, node):
        self.text = text
        self.here = program.fun(text)
        self.there = answer_of(node.ask((Atom("translation"), Quoted(text))))

    def refused(self):
        """The number of the refusal here; none where there is a specification."""
        found = re.match(r"refused (\d+) ", self.here)
        return int(found[1]) if found else None

    def place(self):
        """The line and the column of the refusal here, as the compiler counts."""
        found = re.search(r" at (\d+)$", self.here)
        before = self.text.encode()[: int(found[1])].decode(errors="replace") if found else ""
        return before.count("\n") + 1, len(before) - (before.rfind("\n") + 1) + 1

    def outcome(self):
        """How both ended: a class of differences, or that there is none."""
        number, (kind, *what) = self.refused(), self.there
        if number is None:
            same = kind == "specification" and what[0] == self.here
            return "the same specification" if same else f"OTHER: taken here, {kind} there"
        if kind == "specification":
            return f"refused {number} here, taken there"
        if kind in ("scanned", "parsed", "translated") and what[0] == self.place():
            return f"refused {number} here, refused at the same place there"
        return f"refused {number} here, {kind} there"


def answer_of(answer):
    """What the node says: its kind, and the specification's text or a place."""
    if answer == ENDED:
        return ("ended",)
    kind, *what = answer
    if kind == "specification":
        return "specification", "".join(map(chr, what[0]))
    if kind == "crashed":
        return ("crashed",)
    return str(kind), tuple(what[:2])


def is_difference(outcome, allowed):
    """It is none of what may be: the same specification, or one of the allowed refusals."""
    if outcome.startswith("OTHER"):
        return True
    found = re.match(r"refused (\d+) ", outcome)
    if not allowed:
        return bool(found) and "at the same place" not in outcome and not outcome.startswith("refused 4 ")
    return not found or int(found[1]) not in allowed


def allowed_of(name):
    """The refusals that a class may have."""
    return {**OUTSIDE, **HEADS}[name][1]


def chosen(seed, kind, number):
    """A chooser of its own for each case."""
    return FunChooser(random.Random(f"{seed} {kind} {number}"))
