"""Whether a weaker claim is found: contracts are weakened in copies, and the tests of claims must say so of each.

A copy stands in place of its file in memory alone (`sources.instead`). Of a completeness function a clause is dropped, or
says nothing, or speaks of one answer twice, or names another word, or another premise is added, or the second call is
left out; of a claim of the README the same of its clauses. What says less by its form alone must be found by the form, so
that a table of digests that is written anew doesn't hide it.
"""
import re

import claims
import completeness
import sources

WEAKER = "WeakerWord"


def of_clauses(each):
    """Each weaker text of the clauses of a function: its name, what it was, what it is, and whether the form shows it."""
    text = sources.read(each.path)
    for clause in each.ensured():
        first = rf"\s*ensures {clause.name} *\{{\s*" if clause.name else r"\s*ensures \{\s*"
        words = r"\s+".join(re.escape(word) for word in clause.text.split())
        found = re.search(rf"\bfn {each.name}\b(?:(?!\bfn ).)*?({first}({words})\s*\}})", text, re.S)
        yield "a clause says nothing", found.span(2), "Unit", True
        yield "a clause is dropped", found.span(1), "", False
        named = [here for here, *_ in sources.words_named(each.path) if re.search(rf"(?<![\w.]){here}\b", found[2])]
        for word in named[:1]:
            yield "a clause names another word", found.span(2), re.sub(rf"(?<![\w.]){word}\b", WEAKER, found[2]), False


def of_completeness(each):
    """Each weaker text of a completeness function."""
    text = sources.read(each.path)
    yield from of_clauses(each)
    declared = re.search(rf"^pub fn {each.name}\b.*?^\}}", text, re.M | re.S)
    whole = declared[0]
    at = whole.index("\n    ensures")
    yield "a premise is added", declared.span(), whole[:at] + "\n    requires { Weaker }" + whole[at:], False
    if "result.1" in whole:
        yield "the second answer is left out", declared.span(), whole.replace("result.1", "result.0"), True
    calls = list(completeness.calls_of(each))
    changed = [one for one, kind in each.parameters if kind.startswith("&mut ")]
    for one, other in zip(*calls) if len(calls) == 2 else ():
        if one in changed and one != other and f"{other}.new" in whole:
            yield f"what is left of {other} is left out", declared.span(), whole.replace(f"{other}.new", f"{one}.new"), False
    if len(calls) == 2 and "let second" in whole:
        once = re.sub(r"let second =.*?;", "let second = first;", whole, flags=re.S)
        yield "the second call is left out", declared.span(), once, True


def is_found(path, kind, name, title):
    """What is found of the copy: by the form of the function, and by its lines in the table."""
    there = [each for each in sources.functions_in(sources.read(path), *kind, path) if each.name == name]
    if not there:
        return True, True
    faults = completeness.faults(there[0]) if kind[0].startswith("complete_") else claims.says_nothing(there[0])
    return any(faults), not claims.lines_of(title, there[0]) <= set(claims.stored_lines())


def weaker_copies():
    """Each copy: its title, the function, the text, and whether its form shows that it says less."""
    for path, each in completeness.completeness_functions():
        for what, span, text, by_form in of_completeness(each):
            yield path, each, what, span, text, by_form
    for _, each in claims.of_readme():
        for what, span, text, by_form in of_clauses(each):
            yield claims.name_of(each), each, what, span, text, by_form


def findings():
    """Each thing to hold: its name, whether it holds, and what was seen."""
    count, missed = 0, []
    for title, each, what, (begin, end), text, wanted in weaker_copies():
        whole = sources.read(each.path)
        sources.instead[each.path] = whole[:begin] + text + whole[end:]
        try:
            by_form, by_line = is_found(each.path, (each.crate, each.module), each.name, title)
        finally:
            del sources.instead[each.path]
        count += 1
        if not by_line or (wanted and not by_form):
            missed.append(f"{what} in {title}")
    yield "weaker copies of claims", count > 1500, count
    yield "each weaker copy of a claim is found", not missed, missed
