"""Compares docs/CONTRACTS.md with the crates: which public functions have a complete contract, and by which proof.

Each crate tn_* has a table in "Complete contracts", with one row for each of its public functions. A row that says
"determined" names a function of a complete_* crate, whose comment names the public function and which calls it twice.
"""
import re

from completeness import completeness_functions, public_function, shows_one_answer
from sources import CRATES, chapter, crates, functions, public_functions, root, trait_methods

CONTRACTS = "## Complete contracts"
BODIES = "## Wrong bodies that must be refused"


def tables():
    """The rows of "Complete contracts", by crate: function, what is said of it, and the proof that is named."""
    found = {}
    for part in chapter(CONTRACTS).split("\n### ")[1:]:
        crate = part.partition("\n")[0].strip(" `")
        found[crate] = re.findall(r"^\| `([^`]+)` \| ([^|]+) \| (?:`([^`]+)`)? *\|$", part, re.M)
    return found


def functions_to_list(crate):
    """The functions that a table has a row of: of a program, which hands on no names, those that its modules share."""
    if root(crate).name == "main.rt":
        return {each.title for each in functions(crate) if each.is_public}
    return public_functions(crate)


def edits():
    """The must-fail edits that the chapter on wrong bodies names, and those that the crates have."""
    named = re.findall(r"`(\w+/must-fail/[\w-]+\.edit)`", chapter(BODIES))
    return sorted(named), sorted(str(path.relative_to(CRATES)) for path in CRATES.glob("*/must-fail/*.edit"))


def findings():
    """Each thing to hold: its name, whether it holds, and what was seen."""
    named, there = edits()
    yield "the must-fail edits are listed", named == there, set(named) ^ set(there)
    for crate in {path.partition("/")[0] for path in there}:
        count = sum(path.startswith(f"{crate}/") for path in there)
        yield f"the must-fail edits of {crate}", 2 <= count <= 5, count
    coded = {crate for crate in crates() if crate.startswith("tn_")}
    yield "each crate tn_* has a table of contracts", set(tables()) == coded, set(tables()) ^ coded
    known, listed_ones = dict(completeness_functions()), set()
    for crate, rows in tables().items():
        listed = [function for function, _, _ in rows]
        public, inherited = functions_to_list(crate), trait_methods(crate)
        good = len(set(listed)) == len(listed) and public <= set(listed) <= public | inherited
        yield f"the contracts of {crate} are listed", good, set(listed) ^ public
        for function, says, proof in rows:
            listed_ones.add((crate, function))
            each = known.get(proof)
            good = says.startswith("determined") and each and public_function(each) == (crate, function)
            good = good and shows_one_answer(each)
            free = says.startswith("free: ") and not proof
            yield f"the contract of {crate}::{function}", good or free, (says, proof)
    for path, each in known.items():
        yield f"{path} is listed", public_function(each) in listed_ones, each.comment
