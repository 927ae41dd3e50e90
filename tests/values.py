"""What each function of match specifications answers on each kind of argument, worked out from the OTP manual.

A fault has the value 'EXIT' in a body.
"""

LEAST, MOST = -(2**63), 2**63 - 1

# What a fault is in a body.
FAULT = "'EXIT'"

# One of each kind, in the order of terms.
KINDS = (
    *(str(number) for number in (LEAST, -1, 0, MOST)),
    "a",
    "false",
    "true",
    "<0.0.0>",
    "<0.4294967295.0>",
    "{}",
    "{a}",
    "{0,0}",
    "[]",
    "[0]",
    "[0,a]",
    "[a]",
)

# Functions of one argument that answer true from the first place up to the second, and else false.
TESTS = {
    "is_integer": (0, 4),
    "is_number": (0, 4),
    "is_atom": (4, 7),
    "is_boolean": (5, 7),
    "not": (5, 6),
    "and": (6, 7),
    "or": (6, 7),
    "is_pid": (7, 9),
    "is_tuple": (9, 12),
    "is_list": (12, 16),
    "is_float": (0, 0),
    "is_port": (0, 0),
    "is_reference": (0, 0),
    "is_map": (0, 0),
    "is_binary": (0, 0),
    "is_bitstring": (0, 0),
    "is_function": (0, 0),
}

# Functions of one argument that answer these values at these places, and are faults at all others.
VALUES = {
    "hd": {13: "0", 14: "0", 15: "a"},
    "tl": {13: "[]", 14: "[a]", 15: "[]"},
    "length": {12: "0", 13: "1", 14: "2", 15: "1"},
    "size": {9: "0", 10: "1", 11: "2"},
    "tuple_size": {9: "0", 10: "1", 11: "2"},
    "abs": {1: "1", 2: "0", 3: str(MOST)},
    "bnot": {0: str(MOST), 1: "0", 2: "-1", 3: str(LEAST)},
    "node": {7: "nonode@nohost", 8: "nonode@nohost"},
}

# Functions of two of any kind: whether they are true of the places of both.
PAIRS = {
    ">": lambda i, j: j < i,
    ">=": lambda i, j: j <= i,
    "<": lambda i, j: i < j,
    "=<": lambda i, j: i <= j,
    "==": lambda i, j: i == j,
    "=:=": lambda i, j: i == j,
    "/=": lambda i, j: i != j,
    "=/=": lambda i, j: i != j,
    "and": lambda i, j: i == 6 and j == 6,
    "or": lambda i, j: i == 6 or j == 6,
    "xor": lambda i, j: {i, j} == {5, 6},
}

# The integers at both ends of 64 bits, -1 and 0, which come first among the kinds.
ENDS = (LEAST, -1, 0, MOST)

# What functions of two integers answer of two of these: a row for each first one; None is a fault.
INTEGERS = {
    "+": (
        (None, None, LEAST, -1),
        (None, -2, -1, MOST - 1),
        (LEAST, -1, 0, MOST),
        (-1, MOST - 1, MOST, None),
    ),
    "-": (
        (0, -MOST, LEAST, None),
        (MOST, 0, -1, LEAST),
        (None, 1, 0, -MOST),
        (None, None, MOST, 0),
    ),
    "*": (
        (None, None, 0, None),
        (None, 1, 0, -MOST),
        (0, 0, 0, 0),
        (None, -MOST, 0, None),
    ),
    "div": (
        (1, None, None, -1),
        (0, 1, None, 0),
        (0, 0, None, 0),
        (0, -MOST, None, 1),
    ),
    "rem": (
        (0, 0, None, -1),
        (-1, 0, None, -1),
        (0, 0, None, 0),
        (MOST, 0, None, 0),
    ),
    "band": (
        (LEAST, LEAST, 0, 0),
        (LEAST, -1, 0, MOST),
        (0, 0, 0, 0),
        (0, MOST, 0, MOST),
    ),
    "bor": (
        (LEAST, -1, LEAST, -1),
        (-1, -1, -1, -1),
        (LEAST, -1, 0, MOST),
        (-1, -1, MOST, MOST),
    ),
    "bxor": (
        (0, MOST, LEAST, -1),
        (MOST, 0, -1, LEAST),
        (LEAST, -1, 0, MOST),
        (-1, LEAST, MOST, 0),
    ),
}

# Other calls: signs of quotients and remainders, products at the ends, bits, elements and logic of three.
OTHERS = (
    ("{'+',2,3}", 5),
    (f"{{'+',{MOST},1}}", None),
    ("{'-',2,3}", -1),
    (f"{{'-',{LEAST},1}}", None),
    ("{'*',-3,5}", -15),
    (f"{{'*',{MOST},2}}", None),
    (f"{{'*',{LEAST},1}}", LEAST),
    ("{'*',4294967296,2147483648}", None),
    ("{'*',4294967296,-2147483648}", LEAST),
    ("{'div',7,2}", 3),
    ("{'div',-7,2}", -3),
    ("{'div',7,-2}", -3),
    ("{'div',-7,-2}", 3),
    ("{'div',1,0}", None),
    (f"{{'div',{LEAST},1}}", LEAST),
    ("{'rem',7,2}", 1),
    ("{'rem',-7,2}", -1),
    ("{'rem',7,-2}", 1),
    ("{'rem',-7,-2}", -1),
    ("{'rem',1,0}", None),
    ("{'band',12,10}", 8),
    ("{'band',-4,7}", 4),
    ("{'bor',12,10}", 14),
    ("{'bor',-4,1}", -3),
    ("{'bxor',12,10}", 6),
    ("{'bxor',-1,10}", -11),
    ("{element,1,{{a,b}}}", "a"),
    ("{element,2,{{a,b}}}", "b"),
    ("{element,0,{{a,b}}}", None),
    ("{element,3,{{a,b}}}", None),
    ("{element,1,{{}}}", None),
    ("{element,1,[a]}", None),
    ("{element,a,{{a}}}", None),
    ("{'and',true,true,true}", "true"),
    ("{'and',true,7,true}", "false"),
    ("{'and',true,true,false}", "false"),
    ("{'or',false,7,true}", "true"),
    ("{'or',false,7,false}", "false"),
    ("{self}", "<0.100.0>"),
    ("{node}", "nonode@nohost"),
    ("{tl,{tl,{tl,{const,[a,0,b]}}}}", "[]"),
    ("{tl,{tl,{tl,{const,[0,b]}}}}", None),
    ("{hd,{tl,{const,[a,0,b]}}}", 0),
)


def of_one():
    """The name of each function of one argument, and its values on the kinds."""
    for name, (first, end) in TESTS.items():
        yield name, ["true" if first <= place < end else "false" for place in range(len(KINDS))]
    for name, values in VALUES.items():
        yield name, [values.get(place, FAULT) for place in range(len(KINDS))]


def of_two():
    """The name of each function of two arguments, the place of its first, and its values on the kinds."""
    for name, holds in PAIRS.items():
        for i in range(len(KINDS)):
            yield name, i, ["true" if holds(i, j) else "false" for j in range(len(KINDS))]
    for name, table in INTEGERS.items():
        for i in range(len(KINDS)):
            row = table[i] if i < len(ENDS) else ()
            values = [FAULT if value is None else str(value) for value in row]
            yield name, i, values + [FAULT] * (len(KINDS) - len(values))


def of_elements():
    """A call of element with room for one argument of any kind, and its values on the kinds."""
    first = {10: "a", 11: "0"}
    yield "{{element,1,{}}}", [first.get(place, FAULT) for place in range(len(KINDS))]
    yield "{{element,{},{{{{a}}}}}}", [FAULT] * len(KINDS)


def others():
    """Each other call, and its value."""
    for call, value in OTHERS:
        yield call, FAULT if value is None else str(value)


def expression(kind):
    """The kind as an expression of its own, whose tuples and lists are made."""
    return kind.replace("{", "{{").replace("}", "}}")


def rest(kind):
    """The kind as an expression of its own, whose lists are what is left of longer ones."""
    if not kind.startswith("["):
        return expression(kind)
    return "{tl,{const,[" + ",".join(["7", *filter(None, [kind[1:-1]])]) + "]}}"
