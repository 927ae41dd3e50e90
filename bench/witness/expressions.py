"""The functions of match specifications, and changes of the calls in a specification."""
from witness.terms import Atom, TRUE

CALLS, SENDS, RECEIVES = "calls", "sends", "receives"

COMPARISONS = [Atom(name) for name in ("<", "=<", ">", ">=", "==", "/=", "=:=", "=/=")]
ARITHMETIC = [Atom(name) for name in ("+", "-", "*", "div", "rem", "band", "bor", "bxor")]
LOGIC = [Atom(name) for name in ("and", "or", "andalso", "orelse")]
TESTS = [
    Atom(name)
    for name in "is_atom is_integer is_list is_tuple is_pid is_number is_float is_port is_reference is_map"
    " is_binary is_function".split()
]
OTHER_TESTS = [Atom("is_boolean"), Atom("is_bitstring")]

# Functions of the OTP documentation that the program answers with {unsupported,F}, but for those that print.
UNSUPPORTED = [
    Atom(name)
    for name in "is_record is_seq_trace set_seq_token get_seq_token set_tcw get_tcw caller_line current_stacktrace"
    " bsl bsr max min float round trunc ceil floor map_get map_size is_map_key bit_size byte_size binary_part".split()
]

FLAGS = [
    Atom(name)
    for name in "send receive call procs silent arity set_on_spawn set_on_first_spawn set_on_link"
    " set_on_first_link".split()
]
OTHER_FLAGS = [Atom("timestamp"), Atom("garbage_collection"), Atom("running"), Atom("return_to")]


def changed_expression(expression, change):
    """The expression with each call in it changed, its arguments before it."""
    if isinstance(expression, list):
        return [changed_expression(part, change) for part in expression]
    if not isinstance(expression, tuple) or not expression:
        return expression
    first, *rest = expression
    if isinstance(first, tuple) and not rest:
        return (tuple(changed_expression(part, change) for part in first),)
    if not isinstance(first, Atom) or (first == "const" and len(rest) == 1):
        return expression
    return change((first, *(changed_expression(part, change) for part in rest)))


def changed_specification(specification, change):
    """The specification with each call in its conditions and bodies changed."""
    return [
        (clause[0], changed_expression(clause[1], change), changed_expression(clause[2], change))
        if len(clause) == 3
        else clause
        for clause in specification
    ]


def is_specification(term):
    """A part of a command is a match specification: a list of tuples that isn't empty."""
    return isinstance(term, list) and bool(term) and all(isinstance(clause, tuple) for clause in term)


def calls_in(specification):
    """The calls in the conditions and bodies of a specification."""
    found = []
    changed_specification(specification, lambda call: found.append(call) or call)
    return found


def atoms_in(term):
    """The atoms of a pattern or an expression, but for those of {const,T}."""
    if isinstance(term, Atom):
        return [term]
    if not isinstance(term, (list, tuple)) or (len(term) == 2 and term[0] == "const"):
        return []
    return [atom for part in term for atom in atoms_in(part)]


def integers_in(term):
    """The integers of a term."""
    if isinstance(term, int):
        return [term]
    return [found for part in term for found in integers_in(part)] if isinstance(term, (list, tuple)) else []


# A specification that every node refuses.
REFUSED = [(Atom("refused"), [], [])]

# The actions that change flags of a process, and all that have an effect.
CHANGES = ("enable_trace", "disable_trace", "trace")
EFFECTS = (*CHANGES, "message", "silent")


def flags_in(part):
    """The flags of a list that a call of `trace` has as an argument; None where it is no list of atoms."""
    if isinstance(part, tuple) and len(part) == 2 and part[0] == "const":
        part = part[1]
    return part if isinstance(part, list) and all(isinstance(flag, Atom) for flag in part) else None


def flags_named(call):
    """The flags that a change of flags names: those that it takes, and those that it sets."""
    if call[0] == "trace":
        lists = [flags_in(part) or [] for part in call[-2:]] if len(call) > 2 else [[], []]
        return tuple(lists)
    return ([], [call[-1]]) if call[0] == "enable_trace" else ([call[-1]], [])


def effects_in(expression):
    """How many calls with an effect an expression has."""
    found = []
    changed_expression(expression, lambda call: found.append(call) or call)
    return sum(call[0] in EFFECTS for call in found)


def order_shows(expression):
    """Two effects stand in the arguments of one call, or in one tuple, whose order a node turns round."""
    found = []

    def look(call):
        if call[0] not in ("andalso", "orelse"):
            found.append(sum(bool(effects_in(part)) for part in call[1:]) > 1)
        return call

    def tuples(term):
        if isinstance(term, tuple) and len(term) == 1 and isinstance(term[0], tuple):
            found.append(sum(bool(effects_in(part)) for part in term[0]) > 1)
        if isinstance(term, (tuple, list)):
            for part in term:
                tuples(part)

    changed_expression(expression, look)
    tuples(expression)
    return any(found)


def shows_order(specification):
    """The order of effects shows in a body."""
    return any(order_shows(expression) for clause in specification for expression in clause[2:3])


def takes_flags(call):
    """The call takes flags, or may: a list that isn't written out may have any flag."""
    if call[0] not in CHANGES:
        return False
    return bool(flags_named(call)[0]) or (call[0] == "trace" and len(call) > 2 and flags_in(call[-2]) is None)


def bodies_of(specification):
    """The calls in each body, one list for each clause."""
    return [calls_in([(*clause[:1], [], *clause[2:3])]) for clause in specification]


def may_lose_flags(specification):
    """A body may take flags of the process whose event it is."""
    return any(takes_flags(call) for calls in bodies_of(specification) for call in calls)


def without_order(call):
    """The call, or the tuple, with effects in the first of its parts that has some, and in no other."""
    seen = False
    parts = []
    for part in call:
        parts.append(without_effects(part) if seen else part)
        seen = seen or bool(effects_in(part))
    return tuple(parts)


def without_effects(expression):
    """The expression with `true` in place of each call that has an effect."""
    return changed_expression(expression, lambda call: TRUE if call[0] in EFFECTS else call)


def ordered_expression(expression):
    """The expression without what shows the order of evaluation of arguments of calls and parts of tuples."""
    if isinstance(expression, list):
        return [ordered_expression(part) for part in expression]
    if not isinstance(expression, tuple) or not expression:
        return expression
    first, *rest = expression
    if isinstance(first, tuple) and not rest:
        return (without_order(tuple(ordered_expression(part) for part in first)),)
    if not isinstance(first, Atom) or (first == "const" and len(rest) == 1):
        return expression
    parts = tuple(ordered_expression(part) for part in rest)
    return (first, *(parts if first in ("andalso", "orelse") else without_order(parts)))
