#!/usr/bin/env python3
"""Makes the tables of crates in docs/PROMISES.md from the comments that the crates open with.

    tests/promises.py           says whether the tables are those of the crates
    tests/promises.py --write   writes them

A crate opens with a comment: a paragraph on what it is for, and one on what it depends on and promises. Each is a cell,
without the sentences that crates.txt says, and those that the page says once of all crates complete_*.
"""
import re
import sys

from sources import PROMISES, comment_of, listed_crates, read

CHAPTERS = {
    "## Definitions: what is proved of them": ("def_",),
    "## Code: what the contracts say": ("tn_", "complete_"),
}
HEADER = ("| Crate | What it is for | What it promises |", "|---|---|---|")

# Sentences that are in no cell.
LEFT_OUT = re.compile(
    r"(?:It d|D)epends on .*"
    r"|Each function calls one of (?:theirs|its functions) twice on equal values\."
    r"|It knows no more than the contract, so its proof shows that the contract leaves one answer[^.]*\."
    r"|Promises nothing to other crates\."
    r"|There is no code\."
    r"|(?:All else|Everything else here) is definition, for (?:the crates|every crate) above\."
)


def cell(text):
    """A paragraph of a comment without the sentences that are left out."""
    return " ".join(each for each in re.split(r"(?<=\.) (?=[A-Z`])", text) if not LEFT_OUT.fullmatch(each))


def table(prefixes):
    """The lines of the table of the crates whose names begin so."""
    yield from HEADER
    for crate, _ in listed_crates():
        if crate.startswith(prefixes):
            first, *rest = comment_of(crate)
            yield f"| `{crate}` | {cell(first)} | {cell(' '.join(rest))} |".replace("  ", " ")


def written():
    """The page with its tables made anew: the first table of each chapter is replaced."""
    page = read(PROMISES)
    for title, prefixes in CHAPTERS.items():
        before, found, after = page.partition(title + "\n")
        chapter = re.sub(r"(?:^\|.*\n)+", lambda _: "\n".join(table(prefixes)) + "\n", after, count=1, flags=re.M)
        page = before + found + chapter
    return page


def findings():
    """Whether the tables are those of the crates, and each crate has both paragraphs."""
    for crate, _ in listed_crates():
        parts = comment_of(crate)
        yield f"the comment of {crate}", bool(parts[0]) and "Depends on" in " ".join(parts), parts
    yield "the tables of crates of PROMISES", read(PROMISES) == written(), "tests/promises.py --write makes them"


if __name__ == "__main__":
    if sys.argv[1:] == ["--write"]:
        PROMISES.write_text(written())
    else:
        bad = [name for name, holds, _ in findings() if not holds]
        print("\n".join(bad) or "the tables are those of the crates")
        sys.exit(1 if bad else 0)
