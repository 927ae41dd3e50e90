"""The sources as text: the crates in their order, and of each crate the files, the functions with their contracts, the
types, and the words of its specifications.

Every test that reads `.rt` or `.antt` files asks this module. `instead` has the text of copies that are looked at in
place of files, by path; so a test can ask what it would say of a changed source.
"""
import dataclasses
import functools
import pathlib
import re

TOP = pathlib.Path(__file__).resolve().parent.parent
CRATES = TOP / "crates"
DOCS = TOP / "docs"
PROMISES = DOCS / "PROMISES.md"
CONTRACTS = DOCS / "CONTRACTS.md"
README = TOP / "README.md"

# The text that is looked at in place of a file's own.
instead = {}


@functools.cache
def stored_text(path):
    """The text of a file as it is stored."""
    return path.read_text()


def read(path):
    """The text of a file, or of the copy in its place."""
    return instead[path] if path in instead else stored_text(path)


def chapter(title):
    """The text of a chapter of docs/PROMISES.md or docs/CONTRACTS.md."""
    return "".join(read(page).partition(title)[2].partition("\n## ")[0] for page in (PROMISES, CONTRACTS))


def listed_crates():
    """Each crate of crates.txt, in order, with the libraries that it names."""
    for line in read(TOP / "crates.txt").splitlines():
        if line and not line.startswith("#"):
            name, _, libraries = line.partition(":")
            yield name.split()[0], libraries.split()


def crates():
    """The names of all crates."""
    return {path.name for path in CRATES.iterdir() if path.is_dir()}


@functools.cache
def files(crate, part):
    """The files of a crate's folder `src`, `specs` or `proofs`."""
    return sorted((CRATES / crate / part).rglob("*.rt" if part == "src" else "*.antt"))


def root(crate):
    """The file that a crate begins with."""
    folder = CRATES / crate / "src"
    return folder / "lib.rt" if (folder / "lib.rt").exists() else folder / "main.rt"


def comment_of(crate):
    """The paragraphs of the comment that a crate opens with."""
    text = "\n".join(re.findall(r"^//! ?(.*)$", read(root(crate)), re.M))
    return [" ".join(part.split()) for part in text.split("\n\n")]


@dataclasses.dataclass(frozen=True)
class Clause:
    """A clause of a contract: `requires` or `ensures`, its name (empty where it has none) and its text."""

    sort: str
    name: str
    text: str


@dataclasses.dataclass(frozen=True)
class Function:
    """A function: its crate and module, the type that it is a method of, and what stands in its declaration."""

    crate: str
    module: str
    kind: str
    of_trait: bool
    name: str
    is_public: bool
    comment: str
    parameters: tuple
    answer: str
    clauses: tuple
    body: str
    path: pathlib.Path

    @property
    def title(self):
        """Its name, after that of the type that it is a method of."""
        return f"{self.kind}::{self.name}" if self.kind else self.name

    def ensured(self):
        """What it ensures."""
        return [clause for clause in self.clauses if clause.sort == "ensures"]

    def declaration(self):
        """The parameters, the answer and the clauses, in one line."""
        parts = [f"({', '.join(f'{name}: {kind}' for name, kind in self.parameters)}) -> {self.answer}"]
        parts += [f"{clause.sort} {clause.name} {{ {clause.text} }}" for clause in self.clauses]
        return " ".join(" ".join(parts).split())


HEAD = re.compile(
    r"^(?P<comment>(?:^ *///[^\n]*\n)*)(?:^ *#\[[^\n]*\n)*"
    r"^(?P<indent>(?: {4})?)(?P<public>pub(?:\(\w+\))? )?(?:const )?fn (?P<name>\w+)",
    re.M,
)
OUTER = re.compile(r"^(?:pub(?:\(\w+\))? )?(?:unsafe )?(?P<word>impl|trait)\b(?P<header>[^{;]*)\{", re.M)
CLAUSE = re.compile(r"\s*(?://[^\n]*\s*)*(?P<sort>requires|ensures|ghost|reads|decreases)\b *(?P<name>\w*)[^{\n]*\{")
CLAUSES = re.compile(r"\s+(?://[^\n]*\s*)*(?:requires|ensures|ghost|reads|decreases)\b")
OPEN, CLOSE = "([{", ")]}"


def end_of_group(text, at):
    """The place after the bracket that closes the one at this place; strings are passed over."""
    depth = 0
    while at < len(text):
        if text[at] == '"':
            at = re.compile(r'"(?:[^"\\]|\\.)*"').match(text, at).end()
            continue
        depth += (text[at] in OPEN) - (text[at] in CLOSE)
        at += 1
        if depth == 0:
            return at
    return at


def parts_of(text):
    """The parts of a list between brackets, at its commas."""
    parts, depth, begin = [], 0, 0
    for at, sign in enumerate(text):
        depth += (sign in "([{<") - (sign in ")]}" or (sign == ">" and text[at - 1] not in "-="))
        if sign == "," and depth == 0:
            parts.append(text[begin:at])
            begin = at + 1
    return [" ".join(part.split()) for part in (*parts, text[begin:]) if part.strip()]


def parameters_of(text):
    """The names and types of parameters."""
    found = []
    for part in parts_of(text):
        name, _, kind = part.partition(": ")
        found.append((name, kind))
    return tuple(found)


def end_of_answer(text, at):
    """The place where the type of the answer ends: at a clause, at the body or at a semicolon."""
    depth = 0
    while at < len(text):
        if depth == 0 and (text[at] in "{;" or CLAUSES.match(text, at)):
            return at
        depth += (text[at] in "([") - (text[at] in ")]")
        at += 1
    return at


def clauses_at(text, at):
    """The clauses from a place on, and the place after them."""
    found = []
    while match := CLAUSE.match(text, at):
        end = end_of_group(text, match.end() - 1)
        found.append(Clause(match["sort"], match["name"], " ".join(text[match.end() : end - 1].split())))
        at = end
    return tuple(found), at


def kind_of(header):
    """The type or trait that an `impl` or `trait` is of, and whether it is a trait's."""
    bare = re.sub(r"^<[^{]*?>\s(?=\w)", "", header.strip())
    if " for " in bare:
        return re.search(r" for &?(?:mut )?(\w+)", bare)[1], True
    found = re.search(r"(\w+)(?:<[^{]*)?\s*$", bare)
    return (found[1] if found else ""), False


@functools.lru_cache(maxsize=4096)
def functions_in(text, crate, module, path):
    """The functions of a file's text."""
    outer = [(match.start(), match["word"], match["header"]) for match in OUTER.finditer(text)]
    found = []
    for match in HEAD.finditer(text):
        at = match.end()
        if text[at] == "<":
            at = text.index("(", re.compile(r">(?=\()").search(text, at).start())
        end = end_of_group(text, at)
        stop = end_of_answer(text, end)
        clauses, after = clauses_at(text, stop)
        rest = text[after:].lstrip()
        has_body = rest[:1] == "{" and rest[:2] != "{}"
        body = re.split(rf"^{match['indent']}\}}", rest[1:], maxsplit=1, flags=re.M)[0] if has_body else ""
        kind, of_trait = "", False
        if match["indent"]:
            before = [entry for entry in outer if entry[0] < match.start("name")]
            if before:
                word, header = before[-1][1:]
                kind, of_trait = kind_of(header) if word == "impl" else (re.match(r"\s*(\w+)", header)[1], True)
        answer = " ".join(text[end:stop].replace("->", "", 1).split()) or "()"
        parameters = parameters_of(text[at + 1 : end - 1])
        comment = "\n".join(line.strip() for line in match["comment"].splitlines())
        public = match["public"] == "pub "
        place, declared = (crate, module, kind, of_trait), (comment, parameters, answer, clauses, body, path)
        found.append(Function(*place, match["name"], public, *declared))
    return found


def functions(crate):
    """The functions of a crate."""
    return [found for path in files(crate, "src") for found in functions_in(read(path), crate, path.stem, path)]


def exports(crate):
    """The names that the crate's root hands on."""
    uses = re.findall(r"^pub use [\w:]+::(\{[^}]*\}|\w+);", read(root(crate)), re.M)
    return {name for words in uses for name in re.findall(r"\w+", words)}


def public_functions(crate):
    """The public functions of a crate: those that its root hands on, and the methods of such types."""
    handed = exports(crate)
    found = [each for each in functions(crate) if each.is_public and not each.of_trait]
    return {each.title for each in found if (each.kind or each.name) in handed}


def trait_methods(crate):
    """The methods of public traits that a crate declares, and those that its types have."""
    found = [each for each in functions(crate) if each.of_trait]
    return {each.title for each in found if not re.search(rf"^(?:pub\(\w+\) )?trait {each.kind}\b", read(each.path), re.M)}


def item_of(crate, name):
    """The text of a type's or a trait's declaration; empty where there is none."""
    for path in files(crate, "src"):
        found = re.search(rf"^pub (?:struct|enum|trait) {name}\b.*?(?:;\n|^\}})", read(path), re.M | re.S)
        if found:
            return " ".join(re.sub(r"///?[^\n]*", "", found[0]).split())
    return ""


# What a line of a specification defines: a word at the margin, or one in a mutual block or a module.
WORD = re.compile(r"(?:pub )?(?:abbrev|record|data|class)\s+(?:pub )?(?:record |data )?(?!mutual\b)([A-Za-z_][\w'-]*)")
INNER = re.compile(r"  (?:abbrev )?pub (?:record |data )?([A-Za-z_][\w'-]*)\b(?: [:({])")


def words_of(path):
    """The words that a specification defines."""
    block = ""
    for line in read(path).splitlines():
        if line.startswith("--") or not line.strip():
            continue
        if not line[0].isspace():
            block = line
            found = WORD.match(line)
        else:
            found = INNER.match(line) if re.match(r"(?:abbrev )?mutual|module", block) else None
        if found:
            yield found[1]


def word_text(crate, module, word):
    """What a specification says of a word: its lines up to the next empty one, without comments."""
    path = CRATES / crate / "specs" / f"{module}.antt"
    if not path.exists():
        return ""
    blocks = re.split(r"\n\s*\n", read(path))
    is_of = re.compile(rf"^ *(?:abbrev |record |data |pub |class )+{re.escape(word)}\b(?!')", re.M)
    lines = [line for block in blocks if is_of.search(block) for line in block.splitlines()]
    return " ".join(" ".join(line for line in lines if not line.lstrip().startswith("--")).split())


def words_named(path):
    """The words of the project's specifications that a file's `ghost use` lines name: as here, crate, module, word."""
    for crate, module, names in re.findall(r"ghost use Rattle\.(\w+)\.specs\.(\w+)\.\{([^}]*)\};", read(path)):
        if (CRATES / crate).is_dir():
            for name in names.split(","):
                word, _, here = name.strip().partition(" as ")
                yield here or word, crate, module, word
