"""Names and shapes of the sources, compared with the rules for them.

A word of the specifications is defined in one file. No function, type, file or word has a bare participle for a name.
A clause of a contract is a line of at most 120 columns. What is said once is in one file. Comments and documents are in
the words of the glossary, but for the files that tests/old_words.txt lists with how many other words each has: when one of
these words goes, its number must go down, and no number may go up.
"""
import collections
import re

from sources import CRATES, DOCS, TOP, crates, files, functions, read, words_of

# Participles that don't end in -ed or -ing.
IRREGULAR = set(
    """behind begun bent borne bought bound broken brought built caught chosen done drawn driven felt found frozen given
    gone grown heard held hidden kept known laid led left lent lost made meant met paid said seen sent shown shut sold
    sought spelled spent split spoken spread stood struck stuck sung taken taught thought thrown told torn understood
    woken won worn written wrote""".split()
)

# Words that look like participles, and the names that the manual gives to parts of the public surface.
NOUNS = {
    "binding", "bound", "listing", "matching", "nothing", "reading", "renaming", "seed", "setting", "spelling",
    "string", "thing", "upcoming",
}
SURFACE = {"closed", "created", "failed", "made", "moved", "seen", "split", "spread", "watched"}

# What one function does for all crates, and how what it ensures is known.
APPENDED = r"^OnOk result \(\w+\.new\.items ≡ \w+\.old\.items \+\+ "
HOMES = {
    "the test for a blank": r"^result ≡ is_blank \w",
    "the length of blanks and comments": r"^result ≡ gap_len",
    "the length of digits": r"^result ≡ run_len is_digit",
    "the length of a name": r"^result ≡ run_len is_name_byte",
    "the length of what is in quotes": r"^result ≡ quoted_end",
    "the test for the end of a form": r"^result ≡ ends_form",
    "a number in decimal": APPENDED + r"(?:(?:signed_)?decimal [\w.]+|N\.text number)\)$",
    "the number after a number": APPENDED + r"decimal \(suc [\w.]+\)\)$",
    "the text of a pid": APPENDED + r"pid_text [\w.]+\)$",
    "the flags that a term lists": r"^option_map \w+ result ≡ flags_listed \(tree_of",
    "picks that are taken again and again": r"^TakesWithin .*\(repeat_picks ",
    "a run by a plan": r"^let p = program_of program\.now in IfOk result \(λ r\. IsDriven ",
}

# What is done with a run: each takes any schedule.
JOBS = {"Schedule", "Replay", "ExplainRequest", "StateRequest", "DrawRequest", "ExploreRequest"}

# The forms in which a comment may have the words that the glossary has others for.
FORMS = {
    "tells": r"tell|tells|told|telling",
    "behind": r"behind",
    "beneath": r"beneath",
    "stands on": r"(?:stand|stands|stood|standing) on",
    "dear": r"dear|dearer|dearest",
    "want of memory": r"want of memory",
    "mend": r"mend|mends|mended|mending",
    "held against": r"(?:hold|holds|held|holding)(?: \w+){0,3} against",
}
OLD_WORDS = TOP / "tests" / "old_words.txt"


def is_participle(name):
    """Whether a name is one participle alone."""
    if "_" in name or re.search(r"[a-z][A-Z]", name):
        return False
    word = name.lower()
    return word not in NOUNS | SURFACE and (word in IRREGULAR or re.search(r"(?:ed|ing)$", word) is not None)


def title(path):
    """A file as it is named here."""
    return str(path.relative_to(CRATES if path.is_relative_to(CRATES) else TOP))


def specifications():
    """Each word of the specifications is defined in one file, and each crate of definitions defines some."""
    homes = collections.defaultdict(set)
    for crate in crates():
        for path in files(crate, "specs"):
            words = list(words_of(path))
            for word in words:
                homes[word].add(title(path))
    crates_with_words = {place.partition("/")[0] for places in homes.values() for place in places}
    blind = [crate for crate in sorted(crates()) if crate.startswith("def_") and crate not in crates_with_words]
    yield "each crate of definitions defines words", not blind, blind
    twice = {word: places for word, places in homes.items() if len(places) > 1}
    yield "no word is defined in two files", not twice, twice
    participles = [word for word in homes if is_participle(word)]
    yield "no word is a bare participle", not participles, participles


def names():
    """No function, type or file is named by a bare participle, and each name that is excepted is there."""
    found = collections.defaultdict(set)
    for crate in crates():
        for path in files(crate, "src"):
            found[path.stem].add(title(path))
            for name in re.findall(r"\b(?:fn|struct|enum|trait|type) (\w+)", read(path)):
                found[name].add(title(path))
        for path in (*files(crate, "specs"), *files(crate, "proofs")):
            found[path.stem].add(title(path))
    bad = {name: places for name, places in found.items() if is_participle(name)}
    yield "no name is a bare participle", not bad, bad
    text = "\n".join(read(path) for crate in crates() for part in ("src", "specs") for path in files(crate, part))
    there = {word.lower() for word in re.findall(r"\w+", text)} | {name.lower() for name in found}
    yield "each name that is excepted is there", SURFACE <= there, SURFACE - there


def clauses():
    """Each line of the layers' sources but a long text is at most 120 columns."""
    for crate in sorted(name for name in crates() if not name.startswith("test_")):
        for path in files(crate, "src"):
            lines = [line for line in read(path).splitlines() if len(line) > 120 and '"' not in line]
            if lines:
                yield f"the columns of {title(path)}", False, lines
    yield "the columns of the sources", True, None


def once():
    """What a pick does in a run is matched on in one file; one function performs commands with the runtime, one without."""
    coded = [path for crate in sorted(crates()) if crate.startswith("tn_") for path in files(crate, "src")]
    places = [title(path) for path in coded if re.search(r"\bMoved::Moved\(\w+\) =>", read(path))]
    yield "one file matches on what a pick does in a run", len(places) == 1, places
    performs = [each for each in functions("tn_command") if each.name.startswith("perform")]
    ways = ["rt" in dict(each.parameters) for each in performs]
    yield "one function performs commands with the runtime, and one without", sorted(ways) == [False, True], performs


def homes():
    """What several crates need is in one function, which is known by what it ensures."""
    ensured = [
        (each, " ".join(clause.text.split()))
        for crate in sorted(crates()) if crate.startswith("tn_")
        for each in functions(crate) for clause in each.ensured()
    ]
    for thing, pattern in HOMES.items():
        found = [f"{each.crate}::{each.module}::{each.title}" for each, text in ensured if re.search(pattern, text)]
        yield f"one function for {thing}", len(found) == 1, found
    jobs = {
        job for crate in sorted(crates()) if crate.startswith("tn_") for path in files(crate, "src")
        for job, body in re.findall(r"^impl\b[^\n]*\bJob<\w+> for (\w+)(.*?)^}", read(path), re.M | re.S)
        if "IsSpelledBy (schedule_seen" in body
    }
    yield "the jobs over a schedule", jobs == JOBS, jobs


def prose(path):
    """The comments of a source, or the prose of a document without what is in backquotes, in one line."""
    if path.suffix == ".md":
        return " ".join(re.sub(r"^    .*$|`[^`\n]*`", "", read(path), flags=re.M).split())
    lines = re.findall(r"^ *//[/!]*(.*)$" if path.suffix == ".rt" else r"^ *--+(.*)$", read(path), re.M)
    return " ".join(" ".join(lines).split())


def forbidden_words():
    """The words that the glossary has others for, as its last line says."""
    last = read(DOCS / "GLOSSARY.md").rstrip().rpartition("\n")[2]
    return [word for group in re.findall(r'for ("[^"]+"(?: and "[^"]+")*)', last) for word in re.findall(r'"([^"]+)"', group)]


def old_words():
    """How many of those words each source and each document but the glossary has, of those that have any."""
    pattern = re.compile(rf"\b(?:{'|'.join(FORMS[word] for word in forbidden_words())})\b", re.I)
    sources = [path for crate in sorted(crates()) for part in ("src", "specs", "proofs") for path in files(crate, part)]
    documents = [TOP / "README.md", TOP / "CHANGELOG.md", *sorted(DOCS.glob("*.md"))]
    for path in (*sources, *(path for path in documents if path.name != "GLOSSARY.md")):
        count = len(pattern.findall(prose(path)))
        if count:
            yield f"{title(path)} {count}"


def glossary():
    """Each word that the glossary has another for is known here; there are as many as are stored, and no more."""
    unknown = [word for word in forbidden_words() if word not in FORMS]
    yield "the words that the glossary has others for", not unknown and len(forbidden_words()) == len(FORMS), unknown
    stored, there = set(read(OLD_WORDS).splitlines()), set(old_words())
    yield "the words of comments and documents are the glossary's", not there - stored, sorted(there - stored)
    yield "tests/old_words.txt counts no words that are gone", not stored - there, sorted(stored - there)


def findings():
    """Each thing to hold: its name, whether it holds, and what was seen."""
    for part in (specifications, names, clauses, once, homes, glossary):
        yield from part()
