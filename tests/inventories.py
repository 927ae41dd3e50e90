"""Compares the documents' inventories with the tree: crates, laws, functions, files, sizes and the version.

A document names crates, functions and files in backquotes. What it names must exist where it says so, and what a table
lists must be all that there is.
"""
import re

from claims import readme_formulas
from contracts import tables
from node_differences import DIFFERENCES, OF_TESTS
from sources import CRATES, DOCS, README, TOP, chapter, crates, files, functions, listed_crates, read, root

DOCUMENTS = (README, TOP / "CHANGELOG.md", *sorted(DOCS.glob("*.md")))

# What a path of a document begins with.
FOLDERS = "bench|completions|crates|docs|examples|tests"


def words(path):
    """The words in backquotes of a document's prose and tables."""
    text = re.sub(r"^    .*$", "", read(path), flags=re.M)
    return re.findall(r"`([^`\n]+)`", text)


def first_cells(text):
    """The words in backquotes of the first cells of a text's tables, in order."""
    return [word for cell in re.findall(r"^\| ([^|]*)\|", text, re.M) for word in re.findall(r"`([^`]+)`", cell)]


def lists_of_crates():
    """Each list of crates: the one of the build, that of the map, and the two of the promises."""
    listed = [crate for crate, _ in listed_crates()]
    yield "the crates of crates.txt", set(listed) == crates() and len(set(listed)) == len(listed), set(listed) ^ crates()
    for at, (crate, libraries) in enumerate(listed_crates()):
        below = [library for library in libraries if library in crates() and library not in listed[:at]]
        yield f"{crate} depends only on crates above it", not below, below
    cells = first_cells(read(DOCS / "ARCHITECTURE.md"))
    mapped = [word for word in cells if re.fullmatch(r"(def|tn|complete|test|probe)_\w+", word)]
    places = list(zip(mapped, listed))
    yield "the crates of ARCHITECTURE, in order", mapped == listed, [pair for pair in places if pair[0] != pair[1]][:3]
    users = [libraries for crate, libraries in listed_crates() if not crate.startswith(("complete_", "test_"))]
    used = {library for libraries in users for library in libraries}
    libraries = [crate for crate in listed if crate.startswith(("def_", "tn_")) and root(crate).name == "lib.rt"]
    to_come = re.findall(r"^\| `(\w+)` \|.*; (?:no crate uses it yet|it has laws alone) \|$", read(DOCS / "ARCHITECTURE.md"), re.M)
    unused = [crate for crate in libraries if crate not in used]
    yield "each library is used, but for those of which the page says that none uses it yet or that it has laws alone", unused == to_come, unused
    defined = {name for name in crates() if name.startswith("def_")}
    found = set(first_cells(chapter("## Definitions: what is proved of them")))
    yield "the definitions of PROMISES", found == defined, found ^ defined
    coded = {name for name in crates() if name.startswith(("tn_", "complete_"))}
    found = set(first_cells(chapter("## Code: what the contracts say")))
    yield "the code of PROMISES", found == coded, found ^ coded
    tested = chapter("## What is tested")
    missing = [name for name in crates() - defined - coded if name != "test_allocator" and f"`{name}`" not in tested]
    yield "the tests of PROMISES", not missing, missing


def laws():
    """The laws that the page of laws lists, and those that the crates of definitions have."""
    listed = set(re.findall(r"^\| `(def_\w+)` \| `(\w+)` \|", read(DOCS / "LAWS.md"), re.M))
    there = set()
    for crate in sorted(name for name in crates() if name.startswith("def_")):
        there |= {(crate, each.name) for each in functions(crate) if each.is_public}
    yield "the laws of LAWS", listed == there, listed ^ there


def formulas():
    """The README's count of contracts with one answer, and its formulas, which are in the sources."""
    text = read(README)
    says = [row[1] for rows in tables().values() for row in rows]
    one = sum(text.startswith("determined") for text in says)
    counts = f"| {one} of {len(says)} contracts leave one answer but for what is named |"
    yield "the counts of contracts with one answer", counts in text, counts
    sources = " ".join(
        " ".join(read(CRATES / path).split())
        for path in ("tn_request/src/answer.rt", "tn_run/specs/Laws.antt", "def_run/specs/Listing.antt")
    )
    yield "the theorem has formulas", bool(readme_formulas()), text
    for formula in readme_formulas():
        yield f"the formula {formula[:60]}", formula in sources, formula


def exists(word):
    """Whether the files that a path of a document names exist."""
    if "*" in word:
        return any(TOP.glob(word.rstrip("/")))
    return (TOP / word).exists()


def named_files():
    """Each file and folder that a document names."""
    for document in DOCUMENTS:
        for word in dict.fromkeys(words(document)):
            if re.fullmatch(rf"(?:{FOLDERS})/[\w.*/+-]*", word) and "NAME" not in word:
                yield f"{word} of {document.name}", exists(word), word
            elif re.fullmatch(r"(?:def|tn|complete|test|probe)_\w+/[\w.*/+-]+", word) and "*" not in word:
                yield f"{word} of {document.name}", exists(f"crates/{word}"), word
    named = read(README)
    for path in sorted(DOCS.glob("*.md")):
        yield f"{path.name} in the README", f"docs/{path.name}" in named, path


def glossary():
    """Each name that the glossary says the code has."""
    there = "\n".join(read(path) for crate in sorted(crates()) for part in ("src", "specs") for path in files(crate, part))
    for row in re.findall(r"^\| [^|]+ \| [^|]+ \| ([^|]+) \| [^|]+ \|$", read(DOCS / "GLOSSARY.md"), re.M):
        for name in re.findall(r"`(\w+)`", row):
            yield f"{name} of the glossary", re.search(rf"\b{name}\b", there), row


def differences():
    """Each difference that bench/node or bench/free knows: its first words are those of a line of the page of differences."""
    text = read(DOCS / "DIFFERENCES.md")
    lines = {line.rstrip(".") for line in re.findall(r"^\* \*\*(.+?)\*\*", text, re.M)}
    source = "".join(read(TOP / "bench" / "witness" / name) for name in ("differences.py", "free_differences.py"))
    for first in re.findall(r'^class \w+\(\w+\):\n    """([^.:"]+)', source, re.M):
        if not first.startswith(("A difference by which", "A difference of")):
            yield f"the difference {first}", first in lines, first


def node_differences():
    """Each difference that an explanation knows has its definition, its words, its line of the page and its moves."""
    text = read(DOCS / "DIFFERENCES.md")
    lines = {line.rstrip(".") for line in re.findall(r"^\* \*\*(.+?)\*\*", text, re.M)}
    defined = read(CRATES / "def_explain" / "specs" / "Differences.antt")
    names = re.findall(r"^  (\w+) : Difference$", defined, re.M)
    known = [name for name, *_ in DIFFERENCES + OF_TESTS]
    yield "the differences that have moves", known == names, (known, names)
    words = dict(re.findall(r'^difference_text (\w+) = codes "(.*)"$', defined, re.M))
    manual = read(DOCS / "MANUAL.md")
    for name, line, first, *_ in DIFFERENCES + OF_TESTS:
        yield f"the words of {name}", words.get(name) == line, words.get(name)
        yield f"the line of {name} on the page of differences", first in lines, first
        yield f"the row of {name} in the manual", f"| `on a node: {line}` |" in manual, line
    source = read(TOP / "bench" / "witness" / "differences.py")
    classes = re.findall(r'^class \w+\(\w+\):\n    """([^.:"]+)(?:(?!^class ).*\n)*?    lines = \((.*)\)$', source, re.M)
    yield "the classes of bench/node that have lines", len(classes) == source.count("\n    lines = (\""), classes
    for first, lines in classes:
        for said in re.findall(r'"([^"]+)"', lines):
            good = any(line.startswith(said) and title == first for _, line, title, *_ in DIFFERENCES)
            yield f"the line that bench/node expects: {said}", good, first


# The numbers that a document may say in words.
NUMBERS = (
    "no one two three four five six seven eight nine ten eleven twelve thirteen fourteen fifteen sixteen seventeen eighteen"
    " nineteen twenty twenty-one twenty-two twenty-three twenty-four twenty-five twenty-six twenty-seven twenty-eight"
).split()


def known_differences():
    """How many differences the definitions have: all, those of commands, those of a test alone, and those of events."""
    known = re.findall(r"^  (\w+) : Difference$", read(CRATES / "def_explain" / "specs" / "Differences.antt"), re.M)
    of_commands = read(CRATES / "def_explain" / "specs" / "CommandDifferences.antt")
    commands = [name for name in known if re.search(rf"^SettingDiffers .*\b{name} =", of_commands, re.M)]
    of_tests = [name for name, *_ in OF_TESTS]
    return len(known), len(commands), len(of_tests), len(known) - len(commands) - len(of_tests)


def counts():
    """Each number of differences that a document or a comment says is one that is counted from the definitions."""
    every, commands, tests, events = known_differences()
    yield "the differences of events, commands and tests", min(commands, tests, events) > 0, (every, commands, tests)
    number = "|".join(sorted(NUMBERS[2:], key=len, reverse=True)) + r"|\d+"
    for path in (*DOCUMENTS, *files("def_explain", "src"), *files("def_explain", "specs")):
        text = " ".join(read(path).split())
        for word in re.findall(rf"\b({number})\b (?:known |other |of the )*differences", text):
            said = NUMBERS.index(word) if word in NUMBERS else int(word)
            yield f"{word} differences in {path.name}", said in (every, every - tests, events), (every, tests, events)
    phrase = rf"each of the ({number}) differences.*?each of the ({number}) of a command"
    promised = re.findall(phrase, chapter("## Every promise"))
    wanted = [(NUMBERS[events], NUMBERS[commands])]
    yield "the numbers of differences of events and commands in PROMISES", promised == wanted, (promised, wanted)


def sizes():
    """The README is a front door, and the page of progress is short."""
    text = read(README)
    yield "the length of the README", text.count("\n") <= 150 and len(text.split()) <= 1200, len(text.split())
    size = (DOCS / "PROGRESS.md").stat().st_size
    yield "the length of PROGRESS", size < 4096, size


def said_version():
    """The version as the program's source says it."""
    return re.search(r'VERSION: &str = "([\d.]+)\\n', read(CRATES / "tn_line" / "src" / "commands.rt"))[1]


def version():
    """The version is said by the program; the list of changes and the man page have the same."""
    said = said_version()
    changes = re.search(r"^## ([\d.]+), (\d{4}-\d\d-\d\d)$", read(TOP / "CHANGELOG.md"), re.M)
    yield "the version of the changes", changes and changes[1] == said, (said, changes)
    title = read(DOCS / "tracenode.1").partition("\n")[0]
    good = changes and f'1 {changes[2]} "tracenode {said}"' in title
    yield "the version and the date of the man page", good, (title, changes)


# The list that says what each command of the program takes, and the words that are no options.
TAKEN = {
    "run": "RUN", "replay": "REPLAY", "round": "ROUND", "workers": "WORKERS", "explain": "EXPLAIN", "state": "STATE", "draw": "DRAW",
    "spec": "TRIAL", "fun": "FUN_ARGUMENTS", "explore": "EXPLORE_ARGUMENTS",
}
BARE_WORDS = {"script", "specification", "number"}


def taken_options():
    """The options of each command, by the lists that the contracts of the command line name."""
    text = read(CRATES / "tn_line" / "specs" / "Line.antt")
    found = dict(re.findall(r"^([A-Z_]+) =((?:.*\n)(?:    .*\n)*)", text, re.M))
    named = {name: re.findall(r'codes "([^"]+)"', found[name]) for name in found}
    for command, name in TAKEN.items():
        parts = [part for part in ("EXPECTATION", "SCHEDULES") if part in found[name]]
        taken = {*named[name], *(word for part in parts for word in named[part])}
        yield command, taken - BARE_WORDS - ({"fun"} if command == "fun" else set())


def completed_options(command):
    """The options of a command, by the completions for each shell and by the synopsis of the man page."""
    folder = TOP / "completions"
    zsh = re.search(rf"^        {command}\)\n(.*?);;", (folder / "_tracenode").read_text(), re.M | re.S)[1]
    yield "zsh", set(re.findall(r"(?:'\*?|{-\w,)--([\w-]+)}?'?=?\[", zsh)) - {"help"}
    bash = (folder / "tracenode.bash").read_text().partition("case $command in")[2]
    bash = re.search(rf"^            {command}\)(.*?);;", bash, re.M | re.S)[1]
    yield "bash", set(re.findall(r"--([\w-]+)", bash)) - {"help"}
    fish = (folder / "tracenode.fish").read_text()
    yield "fish", set(re.findall(rf"seen_subcommand_from {command}' (?:-s \w )?-l ([\w-]+)", fish))
    page = read(DOCS / "tracenode.1").replace("\\-", "-").partition(".SH DESCRIPTION")[0]
    page = page.partition(f".B tracenode {command}\n")[2].partition(".br")[0]
    yield "the man page", set(re.findall(r"--([\w-]+)", page))


def options():
    """Each option of a command is in the completions for each shell and in the man page, and no other is."""
    for command, wanted in taken_options():
        for place, seen in completed_options(command):
            yield f"the options of {command} in {place}", seen == wanted, seen ^ wanted


def findings():
    """Each thing to hold: its name, whether it holds, and what was seen."""
    parts = (lists_of_crates, laws, formulas, named_files, glossary, differences, node_differences, counts, sizes, version)
    parts += (options,)
    for part in parts:
        yield from part()
