"""Cases of explorations: how many states and listings there are, journals that give their listings, runs by hand, words for
patterns, refusals.
"""
import json
import re
import shlex

from format_cases import summary
from harness import EXAMPLES, NO_FORMS, ROWS, SEND_HI, check, run, wants
from numbers_of_explorations import COUNTS
from schemas import is_valid

# The line of an entry, and the last line of a search.
ENTRY = re.compile(r"== listing (\d+) of (\d+): journal((?: \d+)*)\n")
END = re.compile(r"== explored\n(?:complete: (\d+) states?, (\d+) listings?|not complete: (\d+) states? (?:was|were) met)\n")

# The process of a trace message.
TRACED = re.compile(r"\{trace,<0\.(\d+)\.0>,")

# Everybody that may move, once.
EVERYBODY = " ".join(["0", *(str(pid) for pid in range(100, 164))])


def script_of(name):
    """The script of an example, or of a worked run."""
    example = EXAMPLES / f"{name}.term"
    return example.read_bytes() if example.exists() else (ROWS / name / "stdin").read_bytes()


def searches(output):
    """The searches of an output, one for each session: the entries, each with its journal and its text, and the last line."""
    begin = 0
    for end in END.finditer(output):
        text = output[begin : end.start()]
        heads = list(ENTRY.finditer(text))
        borders = [*(head.start() for head in heads[1:]), len(text)]
        yield [(head[3].strip(), text[head.end() : border]) for head, border in zip(heads, borders)], end
        begin = end.end()
    check("an exploration ends with its last line", begin == len(output), output[begin:])


def by_process(text):
    """The text of a listing with the messages of each process in their order, by rising pid."""
    head, *lines = text.splitlines(keepends=True)
    return head + "".join(sorted(lines, key=lambda line: int(TRACED.match(line)[1])))


def listing(script, journal, session):
    """The listing of a session in the run by a journal, after which everybody may move once more; None where one does."""
    ran = run(["replay", "--quiet", "--picks", f"{journal} {EVERYBODY}".strip()], script)
    output = ran.stdout.decode()
    moved = output.rpartition("== journal\n")[2].strip()
    parts = re.split(r"(?m)^(?=== )", output)
    found = [part for part in parts if part.startswith(f"== session {session} ")]
    return found[0] if moved == journal and len(found) == 1 else None


def gives(script, journal, text, words):
    """Whether a journal gives a listing, in the order that the words ask for, and nothing moves after it."""
    seen = listing(script, journal, text.split()[2])
    return seen and (seen if "total" in words else by_process(seen)) == text


def counts():
    """How many states and listings there are, by an independent search; each journal gives its listing, and nothing moves after it."""
    for name, words, states, listings in COUNTS:
        script = script_of(name)
        ran = run(["explore", *shlex.split(words)], script)
        title = f"explore {words} of {name}"
        found = list(searches(ran.stdout.decode()))
        good = ran.returncode == 0 and not ran.stderr and len(found) == 1
        check(title, good and found[0][1].groups()[:2] == (str(states), str(listings)), ran.stdout.decode()[-300:])
        for entries, _ in found:
            journals = [len(journal.split()) for journal, _ in entries]
            check(f"{title}: shorter journals come first", journals == sorted(journals), journals)
            check(f"{title}: no listing comes twice", len({text for _, text in entries}) == len(entries), len(entries))
            for journal, text in entries[:40]:
                check(f"{title}: the journal {journal}", gives(script, journal, text, words), text)


def reductions():
    """With `--reduce` the listings are the same, each by a journal that is as long, and the words too; of the pool fewer states are met."""
    asking = [word for text, _ in PATTERNS for word in ("--shows", text)]
    for name, words, states, _ in COUNTS:
        script, options = script_of(name), shlex.split(words)
        plain, ran = (run(["explore", *options, *form], script) for form in ([], ["--reduce"]))
        [(entries, _)], [(found, end)] = (searches(each.stdout.decode()) for each in (plain, ran))
        title = f"explore --reduce {words} of {name}"
        lengths = [sorted((text, len(journal.split())) for journal, text in each) for each in (entries, found)]
        check(f"{title}: the listings", lengths[0] == lengths[1] and ran.returncode == 0 and not ran.stderr, found)
        fewer = int(end[1]) < states if name == "pool" else int(end[1]) <= states
        check(f"{title}: the states", fewer, end[0])
        for journal, text in found[:10]:
            check(f"{title}: the journal {journal}", gives(script, journal, text, words), text)
        plain, ran = (run(["explore", *options, *asking, *form], script) for form in ([], ["--reduce"]))
        answers = [WORD_LINE.findall(each.stdout.decode()) for each in (plain, ran)]
        check(f"{title}: the words", answers[0] == answers[1] and len(answers[0]) == len(PATTERNS), answers[1])
    ran = run(["explore", "--reduce", "--random", "1"], SEND_HI)
    check("explore --reduce --random 1", ran.returncode == 2 and not ran.stdout and ran.stderr, ran)


def moved(script, picks):
    """The journal of a run, and the listing of its one session."""
    output = run(["replay", "--quiet", "--picks", picks], script).stdout.decode()
    return output.rpartition("== journal\n")[2].strip(), output.partition("== replies\n")[0]


def all_listings(script, first, movers):
    """The listings of all runs to rest that begin with a journal: every schedule is run, and none is taken for another."""
    left, listings = [first], set()
    while left:
        journal = left.pop()
        longer = [(picks, *moved(script, picks)) for picks in (f"{journal} {pick}".strip() for pick in movers)]
        further = [picks for picks, done, _ in longer if done == picks]
        listings |= set() if further else {longer[0][2]}
        left.extend(further)
    return listings


# Small systems: the movers, and which moves the schedules begin with.
SMALL = (("send_hi", "0 100 101", "0!"), ("race", "0 100", "0*3"), ("second_send", "0 100 101", "0*2"))


def schedules_by_hand():
    """The listings of small systems are those of all their schedules, each of which is run by itself."""
    for name, movers, first in SMALL:
        script = script_of(name)
        ran = run(["explore", "--order", "total", "--after", first], script)
        found = {text for entries, _ in searches(ran.stdout.decode()) for _, text in entries}
        begun = run(["replay", "--quiet", "--moves", first], script).stdout.decode().rpartition("== journal\n")[2].strip()
        listings = all_listings(script, begun, movers.split())
        check(f"every schedule of {name} after {first}", found == listings, (len(found), len(listings)))


# Patterns, each with the messages that match it, as a regular expression of their text.
PATTERNS = (
    ("{trace,'_',call,{m,handle,[2]}}", r"\{trace,<[^>]+>,call,\{m,handle,\[2\]\}\}"),
    ("{trace,'$1',call,{m,'$2','$3'}}", r"\{trace,<[^>]+>,call,\{m,[a-z_]+,\[.*\]\}\}"),
    ("{trace,'_',call,{m,'$1',['$1']}}", r"\{trace,<[^>]+>,call,\{m,([a-z_]+),\[\1\]\}\}"),
    ("{trace,<0.100.0>,return_from,'_','_'}", r"\{trace,<0\.100\.0>,return_from,.*\}"),
    ("{trace,'_',send,'_','$1'}", r"\{trace,<[^>]+>,send,.*,<[^>]+>\}"),
    ("{trace,'$1','_','$1'}", r"\{trace,(<[^>]+>),[a-z_]+,\1\}"),
    ("'_'", r".*"),
    ("[trace]", r"\[trace\]"),
)


def line_of(words, journals):
    """The line of the first of some journals; nothing where there is none."""
    return f"{words} {journals[0]}".strip() + "\n" if journals else ""


def refutes(demand, shown, missed, whole):
    """Whether journals of both kinds refute what is demanded."""
    wrong = {"shows": [], "always": missed, "never": shown, "sometimes": []}[demand]
    needed = {"shows": [], "always": [shown], "never": [missed], "sometimes": [shown, missed]}[demand]
    return bool(wrong) or (whole and not all(needed))


def word_lines(entries, whole, pattern, demand):
    """The lines of a pattern by the entries of an exploration without patterns, and whether the demand is refuted."""
    text, match = pattern
    sort = {True: [], False: []}
    for journal, listing_text in entries:
        sort[any(re.fullmatch(match, line) for line in listing_text.splitlines()[1:])].append(journal)
    shown, missed = sort[True], sort[False]
    word = "sometimes" if shown and missed else "unknown" if not whole else "always" if shown else "never"
    refuted = refutes(demand, shown, missed, whole)
    told = f"refuted: {demand}\n" if refuted else ""
    return f"{word}: {text}\n{told}" + line_of("shown by", shown) + line_of("not by", missed), refuted


def headers(script):
    """The header of each session, in the order of the control list."""
    return re.findall(r"(?m)^== session .*\n", run(["round", "--quiet", "--control", "first"], script).stdout.decode())


def expected_words(script, plain, asked):
    """The output and the status by the output of an exploration without patterns. Demands and patterns go together."""
    output, refuted, complete = "", False, True
    for header, (entries, end) in zip(headers(script), searches(plain)):
        whole = end[1] is not None
        lines = [word_lines(entries, whole, pattern, demand) for demand, pattern in asked]
        output += header + "".join(text for text, _ in lines) + end[0]
        refuted = refuted or any(one for _, one in lines)
        complete = complete and whole
    return output, 1 if refuted else 0 if complete else 4


# Systems that are asked about patterns, with words of the command line.
ASKED = (
    ("race", ""),
    ("race", "--order total"),
    ("race", "--control first"),
    ("race", "--max-states 100"),
    ("pool", "--control first"),
    ("pool", "--max-states 2000"),
    ("spawn_inheritance", ""),
    ("worker_pool", "--order total"),
    ("second_send", "--after '0!'"),
)


def patterns():
    """The words for patterns and the status, by the listings that an exploration without patterns has."""
    for name, words in ASKED:
        script = script_of(name)
        plain = run(["explore", *shlex.split(words)], script).stdout.decode()
        for demands in (["shows"], ["always"], ["never"], ["sometimes"], ["shows", "always", "never", "sometimes"]):
            asked = [(demand, pattern) for demand in demands for pattern in PATTERNS]
            options = [word for demand, (text, _) in asked for word in (f"--{demand}", text)]
            ran = run(["explore", *shlex.split(words), *options], script)
            found = (ran.stdout.decode(), ran.returncode)
            check(f"explore {words} of {name} with {demands}", found == expected_words(script, plain, asked), found)


# Texts that are no patterns, and why.
NO_TERM = "it spells no term: its variables are '_' and '$1', in quotes"
NO_PATTERNS = (
    ("{trace", NO_TERM),
    ("_", NO_TERM),
    ("a b", NO_TERM),
    ("", NO_TERM),
    ("{trace,'$1000'}", "an atom of $ and a number in it is no variable"),
    ("[" * 33 + "]" * 33, "it nests too deep"),
    ("1" * 30, "a part of it is past a limit"),
)


def bad_patterns():
    """Texts that are no patterns: the option, the text and why."""
    for option in ("--shows", "--always", "--never", "--sometimes"):
        for text, why in NO_PATTERNS:
            ran = run(["explore", "--shows", "'_'", option, text], SEND_HI)
            told = f"error: invalid value '{text}' for '{option} <PATTERN>': {why}\n\nFor more information, try '--help'.\n"
            check(f"explore {option} {text}", ran.returncode == 2 and not ran.stdout and ran.stderr == told.encode(), ran)


def bad_explorations():
    """What isn't complete, and what is refused."""
    ran = run(["explore", "--max-states", "1"], SEND_HI)
    end = ran.stdout.decode().splitlines()[-1]
    check("an exploration of few states", ran.returncode == 4 and re.fullmatch(r"not complete: \d+ states? (was|were) met", end), ran)
    for words, told in (
        (["--session", "nobody"], b"error: the script creates no session nobody: it creates s1\n"),
        (["--after", "xx"], None),
        (["--after", "0!", "--control", "first"], None),
        (["--max-states", "0"], None),
        (["--max-states", "4294967296"], None),
        (["--order", "none"], None),
    ):
        ran = run(["explore", *words], SEND_HI)
        good = ran.returncode == 2 and not ran.stdout and ran.stderr and (told is None or ran.stderr == told)
        check(f"explore {' '.join(words)}", good, ran)
    wants("an exploration of a bad script", run(["explore"], b"{"), 2, b"refused 2 token at 1\n")
    ran = run(["explore"], b"")
    good = ran.returncode == 0 and ran.stdout.endswith(b"complete: 1 state, 1 listing\n") and ran.stderr == NO_FORMS
    check("an exploration of no forms", good, ran)
    ran = run(["explore", "--max-output", "10"], SEND_HI)
    check("an exploration past its bound", ran.returncode == 3 and not ran.stdout and ran.stderr.startswith(b"fault"), ran)


# The words for a pattern, each at the beginning of its line.
WORD_LINE = re.compile(r"(always|never|sometimes|unknown): (.*)")


def picks_of(text):
    """The picks of a journal's text."""
    return [int(pick) for pick in text.split()]


def explored_row(line, listings):
    """The value of the last line of a search that found so many listings."""
    states = int(re.search(r"\d+", line)[0])
    return {"complete": not line.startswith("not"), "states": states, "listings": listings}


def listing_rows(output):
    """The values of JSON that listings of sessions with bare names are, as the manual says."""
    for entries, end in searches(output):
        for number, (journal, text) in enumerate(entries, 1):
            yield {"listing": number, "of": len(entries), "journal": picks_of(journal)}
            head, *lines = text.splitlines() or [""]
            session = dict(zip(("session", "tracer"), head.split()[2::2]))
            yield {**session, "messages": len(lines)}
            for at, line in enumerate(lines, 1):
                pid, kind = line.split(",")[1:3]
                yield {**session, "message": at, "kind": kind, "pid": pid, "text": line}
        yield explored_row(end[0].splitlines()[1], len(entries))


def word_rows(output, demands, listings):
    """Those of words for patterns, each with what is demanded of it, where there are so many listings."""
    head, *lines = output.splitlines()
    yield dict(zip(("session", "tracer"), head.split()[2::2]))
    starts = [at for at, line in enumerate(lines) if WORD_LINE.fullmatch(line)]
    for demand, at, end in zip(demands, starts, [*starts[1:], lines.index("== explored")], strict=True):
        word, pattern = WORD_LINE.fullmatch(lines[at]).groups()
        told = dict(line.split(" by", 1) for line in lines[at + 1 : end] if " by" in line)
        journals = {f"{name}_by": picks_of(told[name]) if name in told else None for name in ("shown", "not")}
        refuted = f"refuted: {demand}" in lines[at + 1 : end]
        yield {"pattern": pattern, "word": word, "demand": demand, "refuted": refuted, **journals}
    yield explored_row(lines[-1], listings)


def has_rows(name, plain, ran, wanted):
    """The lines of JSON are these values, with their keys in order, each is of the schema, and the status is the plain one."""
    try:
        found = [json.loads(line, object_pairs_hook=list) for line in ran.stdout.decode().splitlines()]
    except ValueError:
        found = []
    good = found == [json.loads(json.dumps(row), object_pairs_hook=list) for row in wanted]
    good = good and all(is_valid(json.loads(line)) for line in ran.stdout.decode().splitlines())
    check(name, good and (ran.returncode, ran.stderr) == (plain.returncode, plain.stderr), (wanted, ran))


# The numbers of a seed: a linear congruential generator over 64 bits.
LOW_WORD = 2**64 - 1


def next_seed(seed):
    """The seed after a seed."""
    return (seed * 6364136223846793005 + 1442695040888963407) & LOW_WORD


def mixture(seed):
    """The bits of a seed, mixed."""
    return ((seed ^ (seed >> 29)) * 11400714819323198485) & LOW_WORD


class Runs:
    """The runs of a script with these movers, each of which is asked for once."""

    def __init__(self, script, movers, in_total):
        self.script, self.movers, self.in_total, self.known = script, movers, in_total, {}

    def after(self, journal):
        """The picks that move after a journal, and the listing of the one session."""
        if journal not in self.known:
            longer = [journal + (pick,) for pick in self.movers]
            moving = [picks[-1] for picks in longer if moved(self.script, " ".join(map(str, picks)))[0].split() == [str(pick) for pick in picks]]
            text = moved(self.script, " ".join(map(str, journal)))[1]
            self.known[journal] = moving, text if self.in_total or not text else by_process(text)
        return self.known[journal]

    def random(self, first, most, seed):
        """The journal of a random run with at most so many moves, and whether it is at rest."""
        journal = first
        while True:
            moving = self.after(journal)[0]
            if not moving or len(journal) - len(first) == most:
                return journal, not moving
            seed = next_seed(seed)
            journal += (moving[(mixture(seed) >> 33) % len(moving)],)

    def entries(self, first, runs, seed, most):
        """The listings of random runs, each with its first journal, and how many states they go through."""
        found, states = {}, 0
        for _ in range(runs):
            if states == most:
                break
            journal, rests = self.random(first, most - states - 1, mixture(seed))
            states += len(journal) - len(first) + 1
            seed = next_seed(seed)
            if rests:
                found.setdefault(self.after(journal)[1], journal)
        return [(" ".join(map(str, journal)), text) for text, journal in found.items()], states


# Systems of which random runs are made: the movers, the words of the command line, how many runs, the seed and the bound.
RANDOM = (
    ("race", (0, 100), "", 12, 0, None),
    ("race", (0, 100), "--order total", 30, 7, None),
    ("race", (0, 100), "--after '0*3'", 9, 4294967295, None),
    ("race", (0, 100), "", 12, 3, 40),
    ("race", (0, 100), "", 5, 3, 1),
    ("send_hi", (0, 100, 101), "--order total", 25, 1, None),
    ("second_send", (0, 100, 101), "--after '0!'", 6, 2, 30),
)


def random_runs():
    """The listings of random runs are those of an independent reading; they are never complete; the words for patterns are theirs."""
    for name, movers, words, runs, seed, most in RANDOM:
        script = script_of(name)
        options = [*shlex.split(words), "--random", str(runs), *(["--seed", str(seed)] if seed else [])]
        options += ["--max-states", str(most)] if most else []
        ran = run(["explore", *options], script)
        title = f"explore {shlex.join(options)} of {name}"
        given = shlex.split(words)
        first = given[given.index("--after") + 1] if "--after" in given else ""
        begun = run(["replay", "--quiet", "--moves", first], script).stdout.decode().rpartition("== journal\n")[2].split()
        entries, states = Runs(script, movers, "total" in words).entries(tuple(map(int, begun)), runs, seed, most or 100000)
        [(found, end)] = searches(ran.stdout.decode())
        check(title, found == entries and end[3] == str(states) and ran.returncode == 4 and not ran.stderr, (entries, states, ran))
        asked = [(demand, pattern) for demand in ("shows", "always", "never", "sometimes") for pattern in PATTERNS]
        asking = [word for demand, (text, _) in asked for word in (f"--{demand}", text)]
        answered = run(["explore", *options, *asking], script)
        found = (answered.stdout.decode(), answered.returncode)
        check(f"{title} with patterns", found == expected_words(script, ran.stdout.decode(), asked), found)
        row = run(["explore", "--json", *options], script)
        has_rows(f"{title} as JSON", ran, row, list(listing_rows(ran.stdout.decode())))
    for words in (["--seed", "1"], ["--random", "0"], ["--random", "4294967296"], ["--random", "1", "--seed", "-1"], ["--random", "x"]):
        ran = run(["explore", *words], SEND_HI)
        check(f"explore {' '.join(words)}", ran.returncode == 2 and not ran.stdout and ran.stderr, ran)


def summaries():
    """The summary of each listing stands in place of its messages; words for patterns are as without it."""
    for name, words in (("race", ""), ("race", "--order total --max-states 90"), ("pool", "--control first"), ("send_hi", "--random 9")):
        script, options = script_of(name), shlex.split(words)
        plain, ran = (run(["explore", *options, *form], script) for form in ([], ["--summary"]))
        wanted = ""
        for entries, end in searches(plain.stdout.decode()):
            for number, (journal, text) in enumerate(entries, 1):
                wanted += f"== listing {number} of {len(entries)}: journal {journal}".rstrip() + "\n" + summary(text.encode()).decode()
            wanted += end[0]
        good = (ran.stdout.decode(), ran.returncode, ran.stderr) == (wanted, plain.returncode, plain.stderr)
        check(f"explore --summary {words} of {name}", good, (wanted, ran))
    patterns = ["--shows", "'_'", "--never", "{trace,'_',send,'_','_'}"]
    plain, ran = (run(["explore", *patterns, *form], script_of("race")) for form in ([], ["--summary"]))
    same = (ran.stdout, ran.returncode) == (plain.stdout, plain.returncode)
    check("explore --summary with patterns", same, ran)
    ran = run(["explore", "--summary", "--json"], SEND_HI)
    check("explore --summary --json", ran.returncode == 2 and not ran.stdout and ran.stderr, ran)


def exploration_json():
    """The JSON of listings and of words is what the plain lines say."""
    for name, words in (("race", ""), ("race", "--order total"), ("pool", "--control first"), ("race", "--max-states 40")):
        plain = run(["explore", *shlex.split(words)], script_of(name))
        ran = run(["explore", "--json", *shlex.split(words)], script_of(name))
        has_rows(f"explore --json {words} of {name}", plain, ran, list(listing_rows(plain.stdout.decode())))
    shown, other = "{trace,'_',call,{m,handle,[2]}}", "{trace,'_',send,'_','_'}"
    patterns = ["--shows", shown, "--always", shown, "--never", other, "--sometimes", other]
    for words in ([], ["--max-states", "20"]):
        plain = run(["explore", *patterns, *words], script_of("race"))
        ran = run(["explore", "--json", *patterns, *words], script_of("race"))
        listings = run(["explore", *words], script_of("race")).stdout.decode().count("== listing ")
        wanted = word_rows(plain.stdout.decode(), ("any word", "always", "never", "sometimes"), listings)
        has_rows(f"explore --json with patterns {words}", plain, ran, list(wanted))
