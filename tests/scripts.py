"""The line of a script's refusal, by the rules of the manual for texts, forms and static rules.

It reads a script in its own way, by expressions over the bytes and by plain values: it has nothing of the
program. A term is a number, an Atom, a Pid, a tuple or a list.
"""
import re

LONGEST, MOST_FORMS, DEEPEST = 1_048_576, 256, 32
MOST_ELEMENTS, MOST_FIELDS, MOST_CHARACTERS, MOST_ARGUMENTS = 4096, 255, 255, 255
FUNCTIONS, STEPS, PROCESSES, COMMANDS, SESSIONS = 64, 64, 16, 256, 128

RESERVED = frozenset(
    b"after and andalso band begin bnot bor bsl bsr bxor case catch cond div end fun if let not of or orelse "
    b"receive rem try when xor".split()
)
BLANK = re.compile(rb"(?:[ \t\n\r]|%[^\n]*)*")
TOKEN = re.compile(
    rb"(?P<mark>[{}\[\],])|(?P<stop>\.(?=[ \t\n\r%]|\Z))|(?P<integer>-?[0-9]+)|(?P<bare>[a-z][A-Za-z0-9_@]*)"
    rb"|'(?P<quoted>(?:[ -&(-\[\]-~]|\\['\\])*)'|\"(?P<string>(?:[ !#-\[\]-~]|\\[\"\\])*)\"|<0\.(?P<pid>0|[1-9][0-9]*)\.0>"
)
CLOSING = {b"{": b"}", b"[": b"]"}


class Atom(str):
    """An atom: its characters."""


class Pid(int):
    """A pid: its number."""


class Refusal(Exception):
    """A script's refusal; its text is the line."""


def token(text, at):
    """The kind, the bytes and the end of the token at a place; None where none stands there."""
    found = TOKEN.match(text, at)
    if not found or found["bare"] in RESERVED:
        return None
    return found.lastgroup, found[found.lastgroup], found.end()


def plain(characters, quote):
    """The characters of what stood between quotes."""
    return re.sub(rb"\\(.)", rb"\1", characters)


def is_large(kind, body):
    """Whether a token passes a limit on its own size."""
    if kind == "integer":
        return not -(2**63) <= int(body) < 2**63
    if kind == "pid":
        return int(body) >= 2**32
    if kind == "string":
        return len(plain(body, b'"')) > MOST_ELEMENTS
    return kind in ("bare", "quoted") and len(plain(body, b"'")) > MOST_CHARACTERS


def leaf(kind, body):
    """The term of a token that is one."""
    if kind == "integer":
        return int(body)
    if kind == "pid":
        return Pid(body)
    if kind == "string":
        return list(plain(body, b'"'))
    return Atom(plain(body, b"'").decode())


class Reader:
    """Reads the tokens of a text one by one: the terms that end with a full stop, and those that are open."""

    def __init__(self):
        self.terms = []
        self.open = []
        self.last = None
        self.wants_term = True

    def is_next(self, kind, body):
        """Whether the tokens so far with this one begin a script, if there were no limits."""
        if kind == "stop":
            return not self.open and self.last is not None
        if kind != "mark":
            return self.wants_term
        if body in CLOSING:
            return self.wants_term
        if not self.open:
            return False
        bracket, terms = self.open[-1]
        if body == b",":
            return not self.wants_term
        return body == CLOSING[bracket] and (not self.wants_term or not terms)

    def passes_limit(self, kind, body):
        """The number of the refusal where this token passes a limit."""
        if (body in CLOSING and kind == "mark" or kind == "string") and len(self.open) == DEEPEST:
            return 3
        if is_large(kind, body):
            return 4
        if kind == "mark" and body == b",":
            bracket, terms = self.open[-1]
            return 4 if len(terms) == (MOST_FIELDS if bracket == b"{" else MOST_ELEMENTS) else None
        return None

    def put(self, term):
        """Puts a term where one was wanted."""
        self.wants_term = False
        if self.open:
            self.open[-1][1].append(term)
        else:
            self.last = term

    def take(self, kind, body):
        """Takes a token that is next."""
        if kind == "stop":
            self.terms.append(self.last)
            self.last, self.wants_term = None, True
        elif kind != "mark":
            self.put(leaf(kind, body))
        elif body in CLOSING:
            self.open.append((body, []))
        elif body == b",":
            self.wants_term = True
        else:
            bracket, terms = self.open.pop()
            self.put(tuple(terms) if bracket == b"{" else terms)


def terms_of(text):
    """The terms of a script."""
    if len(text) > LONGEST:
        raise Refusal("refused 1 too long")
    reader = Reader()
    at = BLANK.match(text).end()
    while at < len(text):
        found = token(text, at)
        if not found or not reader.is_next(*found[:2]):
            raise Refusal(f"refused 2 token at {at}")
        number = reader.passes_limit(*found[:2])
        if number:
            raise Refusal(f"refused {number} {'too deep' if number == 3 else 'too large'} at {at}")
        reader.take(*found[:2])
        at = BLANK.match(text, found[2]).end()
    if reader.open or reader.last is not None:
        raise Refusal(f"refused 2 token at {len(text)}")
    return reader.terms


def is_variable(term):
    """Whether it is an atom that is a variable."""
    return isinstance(term, Atom) and "A" <= term[:1] <= "Z"


def is_name(term):
    """Whether it is an atom that is a name."""
    return isinstance(term, Atom) and term != "_" and not is_variable(term)


def is_target(term):
    """Whether a value may be put there."""
    return term == Atom("_") if not is_variable(term) else term != "Self"


def are_arguments(term):
    """Whether it is a list of few enough terms."""
    return isinstance(term, list) and len(term) <= MOST_ARGUMENTS


def is_place(term):
    """Whether it names a module and a function."""
    return isinstance(term, tuple) and len(term) == 2 and is_name(term[0]) and is_name(term[1])


def head(term):
    """The atom that a tuple begins with, and how many elements it has."""
    is_headed = isinstance(term, tuple) and term and isinstance(term[0], Atom)
    return (str(term[0]), len(term)) if is_headed else (None, 0)


def is_step(term):
    """Whether it has the shape of a step."""
    name = head(term)
    if name == ("receive", 2):
        return is_target(term[1])
    if name in (("call", 4), ("spawn", 4), ("catch", 4)):
        is_local = name[0] == "call" and is_name(term[2])
        return is_target(term[1]) and (is_local or is_place(term[2])) and are_arguments(term[3])
    return name in {("send", 3)} | {(word, 2) for word in ("link", "unlink", "return", "exit", "error", "throw")}


def is_command(term):
    """Whether it has the shape of a command."""
    name = head(term)
    if name == ("session_create", 4):
        return is_name(term[1]) and is_name(term[2]) and term[3] == []
    if name in (("send", 4), ("recv", 4)):
        return is_name(term[1]) and term[3] == []
    return name in (("session_destroy", 2), ("process", 5), ("function", 5)) and is_name(term[1])


def is_form(term):
    """Whether it has the shape of a form."""
    name = head(term)
    if name == ("process", 4):
        return is_name(term[1]) and is_name(term[2]) and are_arguments(term[3])
    if name == ("control", 2):
        return isinstance(term[1], list) and all(is_command(command) for command in term[1])
    if name != ("function", 6) or not (is_name(term[1]) and is_name(term[2]) and are_arguments(term[4])):
        return False
    params = term[4]
    are_params = all(is_variable(one) and one != "Self" for one in params) and len(set(params)) == len(params)
    return term[3] in ("exported", "internal") and are_params and isinstance(term[5], list) and all(map(is_step, term[5]))


def variables(term):
    """The variables of a term."""
    if isinstance(term, (tuple, list)):
        return set().union(*map(variables, term))
    return {term} if is_variable(term) else set()


def uses_of(step):
    """The variables of a step elsewhere than as its target."""
    if step[0] == "receive":
        return set()
    if step[0] in ("call", "spawn", "catch"):
        return variables(step[3])
    return variables(step[1:])


def targets_of(step):
    """What a step binds."""
    return {step[1]} if step[0] in ("receive", "call", "spawn", "catch") else set()


def names_of(form):
    """What a form names: module, function and number of arguments, and whether it has to be exported."""
    if form[0] == "process":
        yield form[1], form[2], len(form[3]), True
    for step in form[5] if form[0] == "function" else ():
        if step[0] in ("call", "spawn", "catch"):
            is_local = not isinstance(step[2], tuple)
            module, name = (form[1], step[2]) if is_local else step[2]
            yield module, name, len(step[3]), not is_local


def is_unbound(form):
    """Whether a variable stands where it isn't bound."""
    if form[0] == "process":
        return bool(variables(form[3]))
    bound = set(form[4]) | {"Self"} if form[0] == "function" else set()
    for step in form[5] if form[0] == "function" else ():
        if uses_of(step) - bound:
            return True
        bound |= targets_of(step)
    return False


def declarations(forms):
    """The functions that forms declare: module, name, number of parameters and whether it is exported."""
    return [(form[1], form[2], len(form[4]), form[3] == "exported") for form in forms if form[0] == "function"]


def commands_of(forms):
    """The commands of the forms, in order."""
    return [command for form in forms if form[0] == "control" for command in form[1]]


def breaks_by_name(form, forms):
    """The rules that a form breaks by what it names."""
    declared = declarations(forms)
    for module, name, count, is_open in names_of(form):
        counts = {params for m, f, params, _ in declared if (m, f) == (module, name)}
        if not counts:
            yield 8
        elif count not in counts:
            yield 12
        elif is_open and (module, name, count, False) in declared:
            yield 9


def breaks_by_command(form, earlier):
    """The rules that the commands of a form break, behind earlier ones."""
    earlier = list(earlier)
    for command in form[1] if form[0] == "control" else ():
        created = [one for one in earlier if one[0] == "session_create"]
        names = {one[1] for one in created}
        if command[0] == "session_create":
            if command[1] in names:
                yield 7
            if command[2] in {one[2] for one in created}:
                yield 11
            if len(created) >= SESSIONS:
                yield 13
        elif command[1] not in names:
            yield 8
        if len(earlier) >= COMMANDS:
            yield 13
        earlier.append(command)


def breaks(form, before, forms):
    """The rules that a form behind others breaks."""
    if form[0] == "function":
        same = [one[:3] for one in declarations(before)]
        if (form[1], form[2], len(form[4])) in same:
            yield 7
        if len(same) >= FUNCTIONS or len(form[5]) > STEPS:
            yield 13
    if form[0] == "process" and sum(one[0] == "process" for one in before) >= PROCESSES:
        yield 13
    if is_unbound(form):
        yield 10
    yield from breaks_by_name(form, forms)
    yield from breaks_by_command(form, commands_of(before))


NAMES = {7: "duplicate", 8: "undeclared", 9: "not exported", 10: "unbound", 11: "tracer taken", 12: "arity", 13: "limit"}


def forms_of(text):
    """The forms of an accepted script."""
    forms = terms_of(text)
    if len(forms) > MOST_FORMS:
        raise Refusal("refused 6 too many forms")
    for number, form in enumerate(forms, 1):
        if not is_form(form):
            raise Refusal(f"refused 5 form {number}")
    for number, form in enumerate(forms, 1):
        rule = min(breaks(form, forms[: number - 1], forms), default=None)
        if rule:
            raise Refusal(f"refused {rule} {NAMES[rule]} in form {number}")
    return forms


def atom_text(atom):
    """The text of an atom."""
    found = token(atom.encode(), 0)
    is_bare = found and found[0] == "bare" and found[2] == len(atom) and atom not in ("maybe", "else")
    return atom if is_bare else "'%s'" % atom.replace("\\", "\\\\").replace("'", "\\'")


def output_of(text):
    """What a script gives for no picks: its sessions without messages, or the line of its refusal."""
    try:
        commands = commands_of(forms_of(text))
    except Refusal as refusal:
        return f"{refusal}\n"
    created = [command for command in commands if command[0] == "session_create"]
    headers = [f"== session {atom_text(one[1])} tracer {atom_text(one[2])}\n" for one in created]
    return "".join(headers) + "== replies\n== journal\n\n"


# A script with strings, comments, pids and signs, and one with every kind of form, step and command.
TEXTS = (
    rb"""% Greets "twice" , with 'quotes. and {brackets}.
{function,m,go,exported,['To','N'],[{send,'To',"hi \"you\" \\"},   % a string.
  {send,<0.101.0>,[-0012,'it\'s a \\ b',"",{},'',x_Y@9]}]}.
{process,m,go,[<0.101.0>,-9223372036854775808]}.% behind a full stop
	{process , m , go , [ <0.4294967295.0> , 9223372036854775807 ] } .
{control,[]}.
""",
    rb"""{function,m,last,internal,['X'],[{return,'X'}]}.
{function,m,kid,exported,[],[{'receive','M'},{link,'Self'},{unlink,'M'},{exit,"end"}]}.
{function,m,fails,exported,['X'],[{error,{bad,'X'}}]}.
{function,m,throws,exported,['X','Y'],[{throw,['X',{'Y'}]}]}.
{function,m,go,exported,[],[{call,'A',last,[1]},{spawn,'B',{m,kid},[]},{send,'B','A'},{call,'_',{m,kid},[]},
  {'catch','C',{m,fails},['B']},{'catch','_',{m,throws},['C',<0.7.0>]},{return,ok}]}.
{process,m,go,[]}.
{control,[{session_create,s1,t1,[]},{process,s1,all,true,[send,'receive']},{session_create,'s 2',t2,[]}]}.
{control,[{function,s1,{m,'_','_'},[{['$1'],[],[{message,'$1'}]}],[local]},{send,s1,[],[]},{recv,'s 2',false,[]},
  {session_destroy,s1}]}.
""",
)
