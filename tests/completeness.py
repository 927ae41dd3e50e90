"""What the functions of the crates complete_* ensure, by the text of their declarations.

A completeness function calls one public function twice and hands out both answers. It ensures of both answers, and of
what both calls leave of their `&mut` arguments, that they are seen alike. A few call once: the contract of the public
function names their answer, and they ensure that. Of a job, some hand out what the completeness function of all jobs
answers, and ensure the same of it.
"""
import re

from sources import crates, end_of_group, functions, parts_of

# What of a call is free although the call changes it, by the path of the completeness function: the parameters of the
# first call, and why.
FREE = {
    "complete_runs::run::step": (("first",), "what an observer writes is its own; its `sees` says what it is then"),
    "complete_runs::run::take_all": (("first",), "as of a step"),
    "complete_session::session::tell": (("room",), "no contract says what a room has"),
    "complete_terms::write::read_back": (("text",), "that `write_term` leaves one text is ensured by itself"),
    "complete_workers::turns::ends": (("one",), "the queue is lent to its ends for as long as it is"),
}

EMPTY = re.compile(r"\b(?:Unit|True)\b|⊤|^\s*$|\b(true|false) ≡ \1\b")
SAME_SIDES = re.compile(r"(?<![\w.(])(\(?[\w.]+\)?) ≡ \1(?![\w.])")


def completeness_functions():
    """Each public function of the crates complete_*, by its path."""
    for crate in sorted(name for name in crates() if name.startswith("complete_")):
        for each in functions(crate):
            if each.is_public:
                yield path_of(each), each


def path_of(each):
    """The path by which docs/CONTRACTS.md names a completeness function."""
    return f"{each.crate}::{each.module}::{each.name}"


def public_function(each):
    """The crate and the name of the public function that the comment names; None where it names none."""
    named = re.match(r"/// `(\w+)::([\w:]+)` ", each.comment)
    return named.groups() if named else None


def arguments_at(body, at):
    """The arguments of a call whose bracket opens at a place."""
    depth, begin, found = 0, at + 1, []
    for place in range(at, len(body)):
        sign = body[place]
        if depth == 1 and sign in ",)]}":
            found.append(body[begin:place].strip())
            begin = place + 1
        depth += (sign in "([{") - (sign in ")]}")
        if depth == 0:
            break
    return [argument for argument in found if argument]


def calls_of(each):
    """The calls of the public function: for each what it is made on, and its arguments."""
    name = public_function(each)[1].rpartition("::")[2]
    for match in re.finditer(rf"(?:([\w.]+)\.|(?<![\w.])(?:\w+::)*(?:<[^>]*>::)?){name}(?:::<[^>]*>)?\(", each.body):
        yield [match[1] or "", *arguments_at(each.body, match.end() - 1)]


def delegate(each):
    """The completeness function of the same file whose answers are handed out as they are; None where there is none."""
    found = re.fullmatch(r"\s*(\w+)\(([^()]*)\)\s*", each.body)
    others = [other for other in functions(each.crate) if other.path == each.path and other is not each]
    same = [other for other in others if found and other.name == found[1] and public_function(other) == public_function(each)]
    return same[0] if same else None


def says_of(clause, word):
    """Whether a clause speaks of this."""
    return re.search(rf"(?<![\w.]){re.escape(word)}(?!\w)", clause.text) is not None


def alike(clauses, pairs):
    """Whether one clause speaks of both of the first pair, or two clauses say the same of one and the other."""
    one, other = pairs[0]
    if any(says_of(clause, one) and says_of(clause, other) for clause in clauses):
        return True
    texts = [clause.text for clause in clauses]
    for text in texts:
        for here, there in pairs:
            text = re.sub(rf"(?<![\w.]){re.escape(here)}(?!\w)", there, text)
        if text in texts and re.search(rf"(?<![\w.]){re.escape(other)}(?!\w)", text):
            return True
    return False


def parts_said(clauses):
    """The parts of an answer with several parts that the clauses name, of the first answer and of what is bound to it."""
    found = set()
    for clause in clauses:
        names = ["result.0", *re.findall(r"result\.0(?:\.answer)? \(λ (\w+)\.", clause.text)]
        for name in names:
            found |= {int(number) for number in re.findall(rf"(?<![\w.]){re.escape(name)}\.(\d)", clause.text)}
    return found


def number_of_parts(answer):
    """How many parts one of two answers has: of a tuple, also within a Result or an Option."""
    inner = re.sub(r"^\s*(?:Result|Option)<", "", answer[1:]).lstrip()
    return len(parts_of(inner[1 : end_of_group(inner, 0) - 1])) if inner.startswith("(") else 1


def faults_of_clauses(clauses):
    """What is wrong with clauses by themselves: one that says nothing, or binds what it doesn't look at."""
    for clause in clauses:
        if EMPTY.search(clause.text) or SAME_SIDES.search(clause.text):
            yield f"a clause says nothing: {clause.text}"
        if not re.search(r"\bresult\b|\.new\b", clause.text):
            yield f"a clause speaks of no answer: {clause.text}"
        for name in re.findall(r"λ (\w+)\.", clause.text):
            if name != "_" and len(re.findall(rf"(?<![\w.]){name}\b", clause.text)) < 2:
                yield f"a clause looks at no {name}: {clause.text}"


def faults_of_one(each, call, clauses):
    """What is wrong with a function that calls once: it names the answer, and what is left."""
    if each.answer.startswith("("):
        yield "two answers of one call"
    if each.answer != "()" and not any(says_of(clause, "result") for clause in clauses):
        yield "nothing is ensured of the answer"
    yield from faults_left(each, [(argument, None) for argument in call], clauses)


def faults_left(each, pairs, clauses):
    """The `&mut` arguments of which nothing is ensured afterwards."""
    changed = {name for name, kind in each.parameters if re.match(r"&(?:'\w+ )?mut ", kind)}
    free = FREE.get(path_of(each), ((), ""))[0]
    for one, other in pairs:
        if one in changed and one not in free:
            news = [clause for clause in clauses if says_of(clause, f"{one}.new")]
            both = other is None or alike(clauses, [(f"{one}.new", f"{other}.new")])
            by_itself = any(says_of(clause, f"{one}.old") and not says_of(clause, "result.0") for clause in news)
            if not news or not (both or by_itself):
                yield f"nothing is ensured of what both calls leave of {one} and {other}"


def faults_of_two(each, calls, clauses):
    """What is wrong with a function that calls twice: it ensures something of both answers, and of what both leave."""
    pairs = list(zip(*calls))
    renamed = [(one, other) for one, other in pairs if re.fullmatch(r"\w+", one or "") and one != other]
    if len(calls[0]) != len(calls[1]):
        yield "the calls have other numbers of arguments"
    if each.answer != "()":
        if not re.match(r"\(", each.answer):
            yield "one answer of two calls"
        if not alike(clauses, [("result.0", "result.1"), *renamed]):
            yield "no clause speaks of both answers"
        said, count = parts_said(clauses), number_of_parts(each.answer)
        if count > 1 and said and said != set(range(count)):
            yield f"of {count} parts of the answers the clauses name {sorted(said)}"
    elif not any(says_of(clause, f"{one}.new") for one, _ in pairs for clause in clauses if one):
        yield "nothing is ensured of what is left"
    yield from faults_left(each, pairs, clauses)


def faults(each):
    """What is wrong with a completeness function, in words."""
    if public_function(each) is None:
        yield "its comment names no public function"
        return
    clauses, calls = each.ensured(), list(calls_of(each))
    if not clauses:
        yield "it ensures nothing"
    yield from faults_of_clauses(clauses)
    other = delegate(each)
    if other:
        if not set(clauses) <= set(other.ensured()):
            yield f"it ensures something else than {other.name}"
        if not any(says_of(clause, "result.0") and says_of(clause, "result.1") for clause in clauses):
            yield "no clause speaks of both answers"
        return
    if len(calls) == 1:
        yield from faults_of_one(each, calls[0], clauses)
    elif len(calls) == 2:
        yield from faults_of_two(each, calls, clauses)
    else:
        yield f"it calls the public function {len(calls)} times"


def shows_one_answer(each):
    """Whether it calls twice, by itself or by another one, so that its proof shows that there is one answer."""
    return len(list(calls_of(each))) == 2 or delegate(each) is not None


def findings():
    """Each thing to hold: its name, whether it holds, and what was seen."""
    known = dict(completeness_functions())
    for path, each in known.items():
        seen = list(faults(each))
        yield f"what {path} ensures", not seen, seen
    for path in FREE:
        yield f"{path}, which leaves something free, is there", path in known, path
