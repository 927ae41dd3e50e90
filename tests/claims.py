#!/usr/bin/env python3
"""Compares what is claimed with the text of the contracts: tests/claims.txt has a line for each function that the README
or docs/PROMISES.md claims something of, for each completeness function, for each word that their clauses name and for each
other word of the crates complete_*; and one for each claim and each formula of the README.

    tests/claims.py           says which lines changed
    tests/claims.py --write   writes the lines, and prints those that changed

A line has the function, a digest of its declaration, and the names of its clauses; `_` stands for a clause without a name.
So a claim that says less than before, or something else, is seen: whoever changes a contract writes the lines anew, and a
reader of the change sees which claims it is about.
"""
import hashlib
import re
import sys

from completeness import EMPTY, completeness_functions
from sources import PROMISES, README, TOP, chapter, crates, files, functions, item_of, read, word_text, words_named, words_of

TABLE = TOP / "tests" / "claims.txt"
EVERY_PROMISE = "## Every promise"


def digest(text):
    """A short digest of a text."""
    return hashlib.sha256(text.encode()).hexdigest()[:12]


def readme_rows():
    """Each claim of the README: the function and the file that it names."""
    return re.findall(r"^\| [^|]+ \| `(\w+)` \| `([\w/.]+)` \|$", read(README), re.M)


def readme_formulas():
    """The formulas of the README's theorem."""
    theorem = read(README).partition("\n## The theorem\n")[2].partition("\n## ")[0]
    return [" ".join(block.split()) for block in re.findall(r"(?:^    .+\n)+", theorem, re.M)]


def of_readme():
    """Each function of a claim of the README; None where the file that is named has no such function."""
    for name, path in readme_rows():
        crate = path.split("/")[1]
        found = [each for each in functions(crate) if each.name == name and each.is_public and each.path == TOP / path]
        yield (name, path), (found[0] if found else None)


def promised_names():
    """Each name that a row of "Every promise" has after a crate, with the crate, the row, and the type named before."""
    for row, state in re.findall(r"^\| [^|]+ \| ([^|]+) \| ([^|]+) \|$", chapter(EVERY_PROMISE), re.M):
        for part in row.split(";"):
            crate, _, names = part.partition(":")
            crate, kind = crate.strip(" `"), ""
            if crate in crates():
                for name in re.findall(r"`([\w:]+)`", names):
                    kind = name.rpartition("::")[0] or kind
                    yield crate, name, kind, state


def promised(crate, name, kind):
    """The functions that a promise names: by their type, or by the type that was named before, or by their name."""
    there = functions(crate)
    if "::" in name:
        return [each for each in there if each.title == name]
    return (
        [each for each in there if each.title == name]
        or [each for each in there if kind and each.title == f"{kind}::{name}"]
        or [each for each in there if each.name == name]
    )


def name_of(each):
    """The name of a function in the table: with its module, where another function of its crate has the same one."""
    same = [other for other in functions(each.crate) if other.title == each.title and other.clauses]
    return "::".join((each.crate, each.title) if len(same) == 1 else (each.crate, each.module, each.title))


def subjects():
    """What has a line: the functions by their names, and the types, with their text."""
    found, types = {}, {}
    for _, each in of_readme():
        if each:
            found[name_of(each)] = each
    for crate, name, kind, _ in promised_names():
        some = [each for each in promised(crate, name, kind) if each.clauses]
        found |= {name_of(each): each for each in some}
        if not some and item_of(crate, name):
            types[f"{crate}::{name}"] = item_of(crate, name)
    for path, each in completeness_functions():
        found[path] = each
    return found, types


def words_in(each):
    """The words of the project's specifications that the clauses of a function name, with their text."""
    text = " ".join(clause.text for clause in each.clauses)
    for here, crate, module, word in words_named(each.path):
        if re.search(rf"(?<![\w.']){re.escape(here)}(?![\w'])", text):
            yield f"{crate}.{module}.{word}", word_text(crate, module, word)


def words_of_completeness():
    """The words of the crates complete_*, which say what is seen alike, with their text."""
    for crate in sorted(name for name in crates() if name.startswith("complete_")):
        for path in files(crate, "specs"):
            for word in words_of(path):
                yield f"{crate}.{path.stem}.{word}", word_text(crate, path.stem, word)


def lines_of(name, each):
    """The lines of a function, by this name: its own, and those of the words that it names."""
    body = " ".join(each.body.split()) if each.crate.startswith("complete_") else ""
    names = " ".join(clause.name or "_" for clause in each.ensured())
    own = f"{name} {digest(each.declaration() + body)} {names}"
    return {own, *(f"word {word} {digest(text)}" for word, text in words_in(each) if text)}


def stored_lines():
    """The lines of the table as it is stored."""
    return read(TABLE).splitlines()


def lines():
    """The lines of the table."""
    found, types = subjects()
    made = {f"readme {name} {path}" for name, path in readme_rows()}
    made |= {f"readme formula {digest(formula)}" for formula in readme_formulas()}
    made |= {f"type {name} {digest(text)}" for name, text in types.items()}
    made |= {f"word {word} {digest(text)}" for word, text in words_of_completeness()}
    for name, each in found.items():
        made |= lines_of(name, each)
    return sorted(made)


def changes():
    """The lines that are in the table alone, and those that should be there."""
    stored, wanted = set(stored_lines()), set(lines())
    return sorted(stored - wanted), sorted(wanted - stored)


def has_word(crate, name):
    """Whether a crate's specifications define a word of this name."""
    return any(name in words_of(path) for path in files(crate, "specs"))


def clauses_named():
    """Each clause that docs/PROMISES.md names beside its function and crate, and whether there is such a clause."""
    for part, crate in re.findall(r"clauses? ([^|;.]*?) in `(\w+)`", read(PROMISES)):
        for clause, titles in re.findall(r"`(\w+)` of ((?:`\w+`(?! of)(?:,? and |, )?)+)", part):
            for title in re.findall(r"`(\w+)`", titles):
                there = [each for each in functions(crate) if each.name == title]
                yield crate, title, clause, any(one.name == clause for each in there for one in each.ensured())


def says_nothing(each):
    """The clauses of a function that hold of every body."""
    return [clause for clause in each.ensured() if EMPTY.search(clause.text)]


def findings():
    """Each thing to hold: its name, whether it holds, and what was seen."""
    rows = list(of_readme())
    yield "the README has claims", len(rows) >= 1, rows
    for (name, path), each in rows:
        yield f"the claim of {name} in {path}", each is not None and each.ensured() != [], path
    for crate, name, kind, state in promised_names():
        some = promised(crate, name, kind)
        is_there = bool(some) or item_of(crate, name) != "" or has_word(crate, name)
        is_ensured = not some or any(each.ensured() or each.of_trait for each in some) or not state.startswith("proved")
        yield f"the promise of {name} in {crate}", is_there and is_ensured, state
    for name, each in subjects()[0].items():
        yield f"the clauses of {name} say something", not says_nothing(each), each.ensured()
    for crate, title, clause, is_there in clauses_named():
        yield f"the clause {clause} of {title} in {crate}", is_there, clause
    gone, new = changes()
    yield "the claims are those of tests/claims.txt", not gone and not new, (gone, new, "tests/claims.py --write writes them")


if __name__ == "__main__":
    stored, wanted = changes() if TABLE.exists() else ([], lines())
    for mark, some in (("-", stored), ("+", wanted)):
        for one in some:
            print(mark, one)
    if sys.argv[1:] == ["--write"]:
        TABLE.write_text("".join(f"{line}\n" for line in lines()))
    elif stored or wanted:
        sys.exit(1)
    else:
        print("the claims are those of tests/claims.txt")
