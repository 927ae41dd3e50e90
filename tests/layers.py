"""What the layers may answer where one growth of memory is refused, worked out from the manual's rules.

The program crates/probe_memory calls them and prints what they answer. A case has its words, its standard
input and what may be printed: each text, with the name of the answer that is refused in it. The outputs are
those of tests/rows, by picks and by rounds: one worker takes the picks of a round.
"""
import pathlib

ROWS = pathlib.Path(__file__).resolve().parent / "rows"

# Worked runs whose sessions set specifications, inherit flags, enable one another and are destroyed, one that fails,
# and one whose specification changes flags and tells whether they change.
NAMES = (
    "send-hi",
    "guard-fault-skips-clause",
    "caller-of-each-call",
    "nothing-after-destroy",
    "set-on-first-spawn",
    "enable-on-another-pid",
    "two-sessions",
    "caught-error",
    "trace-in-a-message",
)

# The run queue's order, and how many turns are taken by give_turn.
SLOTS = (0, *range(100, 164))
TURNS = 260

# A pick that no process takes.
NOBODY = 999

# The whole text, where no answer is refused.
WHOLE = "whole"

# The names of the faults by which a growth that is refused is answered.
NO_ROOM, NO_MEMORY = "AllocError", "OutOfMemory"


def of_lines(*lines):
    """The text of these lines."""
    return "".join(f"{line}\n" for line in lines)


def picks_of(output):
    """The picks of an output's journal."""
    return [int(pick) for pick in output.splitlines()[-1].split()]


def messages_of(output):
    """How many messages an output has."""
    return output.partition("== replies\n")[0].count("\n") - sessions_of(output)


def sessions_of(output):
    """How many sessions an output has."""
    return output.count("== session ")


def no_core():
    """What is printed where there is no core of the script."""
    for name, fault in (("forms", NO_MEMORY), ("program", NO_MEMORY), ("core", NO_ROOM)):
        yield of_lines(f"{name} {fault}"), name


def of_run(output):
    """A run: its output, or nothing."""
    yield of_lines("listed") + output, WHOLE
    yield of_lines(f"run {NO_MEMORY}"), "run"


def of_core(output):
    """Steps of a core: behind a refused one all is spent."""
    yield from no_core()
    picks = picks_of(output)
    moved = [f"step {pick} moved" for pick in picks]
    yield of_lines(*moved, f"step {NOBODY} idle") + output, WHOLE
    steps = [*picks, NOBODY]
    listings = ["listing Spent"] * sessions_of(output)
    for at, pick in enumerate(steps):
        spent = [f"step {later} Spent" for later in steps[at + 1 :]]
        lines = (*moved[:at], f"step {pick} {NO_MEMORY}", *spent, *listings)
        yield of_lines(*lines, "replies Spent", "journal Spent"), "step"


def seats_of(count):
    """The seat of each of so many picks and then of one more step of each seat, and what that seat made before."""
    made = [0, 0]
    for at in range(count):
        yield at % 2, made[at % 2]
        made[at % 2] += 1
    yield 0, made[0]
    yield 1, made[1]


def of_live_refusals(picks):
    """Steps under a lock, of which one is refused: behind it both seats are told that it is spent, and so is the close."""
    steps = [*picks, NOBODY, NOBODY]
    seats = list(seats_of(len(picks)))
    moved = [f"step {pick} moved {made + 1}" for pick, (_, made) in zip(picks, seats)]
    moved.append(f"step {NOBODY} idle {seats[-2][1]} of {len(picks)}")
    for at, pick in enumerate(steps):
        made = [sum(seat == own for seat, _ in seats[: min(at, len(picks))]) for own in (0, 1)]
        refused = f"step {pick} {NO_MEMORY} {made[seats[at][0]]}"
        behind = zip(steps[at + 1 :], seats[at + 1 :])
        spent = [f"step {later} Spent {made[seat]}" for later, (seat, _) in behind]
        yield of_lines(*moved[:at], refused, *spent, "close Spent"), "step"


def of_live(output):
    """Steps under a lock by two seats in turn, its close and its output, with the board's lines or all but one."""
    yield from no_core()
    for name in ("board", "lock"):
        yield of_lines(f"{name} {NO_ROOM}"), name
    picks = picks_of(output)
    yield from of_live_refusals(picks)
    seats = list(seats_of(len(picks)))
    lines = [f"step {pick} moved {made + 1}" for pick, (_, made) in zip(picks, seats)]
    lines += [f"step {NOBODY} idle {made} of {len(picks)}" for _, made in seats[-2:]]
    lines += [f"entry {seat} {pick}" for pick, (seat, _) in zip(picks, seats)]
    closed, taken = of_lines(*lines), messages_of(output)
    yield closed + of_lines(f"assembled {taken}") + output, WHOLE
    if taken:
        yield closed + of_lines(f"assembled {taken - 1}") + output, "line"
    yield closed + of_lines(f"assemble {NO_ROOM}", f"assembled {taken}") + output, "assemble"


def of_code(line):
    """An outcome, or a refusal and then the outcome."""
    for name, fault in (("term", NO_MEMORY), ("specification", NO_MEMORY), ("code", NO_ROOM)):
        yield of_lines(f"{name} {fault}"), name
    yield of_lines(line), WHOLE
    yield of_lines(f"execute {NO_ROOM}", line), "execute"


def of_turns():
    """Turns of one end: the queue's order again and again; a token that comes back is given again."""
    for name in ("queue", "ends"):
        yield of_lines(f"{name} {NO_ROOM}"), name
    turns = [(f"taken {SLOTS[turn % len(SLOTS)]}", "given") for turn in range(TURNS)]
    yield of_lines(*(line for lines in turns for line in lines)), WHOLE
    for at in range(TURNS):
        again = [(turns[at][0], f"came back {SLOTS[at % len(SLOTS)]}", "given")]
        lines = [*turns[:at], *again, *turns[at + 1 :]]
        yield of_lines(*(line for part in lines for line in part)), "give_turn"


def of_run_live(output):
    """A run by one worker: its output, or a fault and nothing."""
    yield of_lines("listed") + output, WHOLE
    for fault, name in ((f"Run({NO_MEMORY})", "run"), ("Pool(Memory)", "worker"), (f"Pool(Step({NO_MEMORY}))", "step")):
        yield of_lines(f"run_live {fault}"), name


def turns_of(picks):
    """At which turn of the queue's order each pick moves, where each moves at its first turn."""
    turn = 0
    for pick in picks:
        while SLOTS[turn % len(SLOTS)] != pick:
            turn += 1
        yield turn
        turn += 1


def of_run_workers(output):
    """One worker's report and the close of its lock: where its receipt, its step or its token is refused it ends."""
    yield from no_core()
    for name in ("board", "lock"):
        yield of_lines(f"{name} {NO_ROOM}"), name
    picks = picks_of(output)
    receipts = [f"receipt {number} {pick}" for number, pick in enumerate(picks)]
    entries = [f"entry 0 {pick}" for pick in picks]
    turns = [-1, *turns_of(picks), TURNS * 5]
    yield of_lines(*receipts, "fault None", *entries), WHOLE
    for count in range(len(picks) + 1):
        made, closed = receipts[:count], entries[:count]
        yield of_lines(*made, "fault Some(Memory)", *closed), "receipt" if count else "report"
        yield of_lines(*made, f"fault Some(Step({NO_MEMORY}))", "close Spent"), "step"
        for turn in range(max(turns[count], 0), turns[count + 1]):
            kept = f"token {SLOTS[turn % len(SLOTS)]}"
            yield of_lines(*made, kept, "fault Some(Memory)", *closed), "token"


# Specifications of the rows, each with a dialect, and lists with how many effects the body has that code comes to.
CODES = (
    (
        "[{['$1'],[{'>',{hd,'$1'},3}],[]},{['_'],[],[{message,second}]}]",
        "call",
        (("[[]]", "match 1"), ("[[4]]", "match 0"), ("[1,2]", "no match")),
    ),
    ("[{'_',[],[{message,{caller}},{return_trace},{exception_trace}]}]", "call", (("[1]", "match 3"),)),
    ("[{['$3','$1'],[],[{message,'$$'}]}]", "call", (("[a,b]", "match 1"),)),
    ("[{'_',[],[{enable_trace,<0.101.0>,'receive'}]}]", "send", (("[<0.101.0>,{hi,1}]", "match 1"),)),
    (
        "[{['$1'],[],[{message,[{trace,'$1',[],[send,arity]},{trace,'$1',[call],[send]},{trace,[call],[]}]}]}]",
        "call",
        (("[<0.101.0>]", "match 4"), ("[<0.102.0>]", "match 2")),
    ),
)

# What must be refused somewhere, for each call.
REFUSED = {
    "run": {"run"},
    "core": {"forms", "program", "core", "step"},
    "live": {"forms", "program", "core", "board", "lock", "step", "assemble"},
    "execute": {"execute"},
    "give_turn": {"queue", "ends", "give_turn"},
    "run_live": {"run", "worker", "step"},
    "run_workers": {"board", "lock", "report", "receipt", "step", "token"},
}


def cases():
    """Each case: its words, its standard input, and what may be printed, with the name of what is refused."""
    for name in NAMES:
        script = (ROWS / name / "stdin").read_bytes()
        picks = (ROWS / name / "args").read_text().split("\n")[2]
        by_picks = (ROWS / name / "stdout").read_text()
        by_rounds = (ROWS / f"round-of-{name}" / "stdout").read_text()
        for call, allowed, output in (
            ("run", of_run, by_picks),
            ("core", of_core, by_picks),
            ("live", of_live, by_picks),
            ("run_live", of_run_live, by_rounds),
            ("run_workers", of_run_workers, by_rounds),
        ):
            yield [call, picks], script, dict(allowed(output))
    for spec, dialect, lists in CODES:
        for terms, line in lists:
            yield ["execute", "", terms, dialect], spec.encode(), dict(of_code(line))
    yield ["give_turn"], b"", dict(of_turns())
