"""Cases of comparisons: traces as a node could print them, with pids of its own and in another order, and traces that no
run shows. What is expected is found by an independent comparison with the listings that an exploration writes.
"""
import itertools
import json
import random
import re
import shlex
import tempfile
from pathlib import Path

from exploration_cases import explored_row, has_rows, headers, script_of, searches
from harness import SEND_HI, check, run

PID = re.compile(r"<0\.(\d+)\.0>")


def process_of(line):
    """The pid of the process that a trace message is of."""
    return PID.search(line)[1]


def paired(pairs, there, here):
    """The pairs of pids, one to one, with those that make the one message the other; None where there are none."""
    pids = list(zip(PID.findall(there), PID.findall(here)))
    if PID.sub("<>", there) != PID.sub("<>", here):
        return None
    for one, other in pids:
        if any((one == a) != (other == b) for a, b in pairs):
            return None
        pairs = pairs if (one, other) in pairs else [*pairs, (one, other)]
    return pairs


def all_paired(pairs, theirs, ours):
    """The same for messages and the first ones of a list."""
    if len(theirs) > len(ours):
        return None
    for there, here in zip(theirs, ours):
        pairs = paired(pairs, there, here)
        if pairs is None:
            return None
    return pairs


def groups_of(lines, total):
    """Lists of messages that are in an order: all, or those of each process, by its first message."""
    if total:
        return [lines]
    pids = list(dict.fromkeys(process_of(line) for line in lines))
    return [[line for line in lines if process_of(line) == pid] for pid in pids]


def begun(groups, lists, pairs=()):
    """The first pairs by which each group is the first messages of a list; None where there are none."""
    if not groups:
        return list(pairs)
    for ours in lists:
        more = all_paired(list(pairs), groups[0], ours)
        found = None if more is None else begun(groups[1:], lists, more)
        if found is not None:
            return found
    return None


def first_match(trace, entries, total, goes_on):
    """The first entry that shows the trace: its journal and the pairs."""
    for journal, text in entries:
        lines = text.splitlines()[1:]
        lists = lists_of(lines, total)
        found = begun(groups_of(trace, total), lists) if goes_on or len(lines) == len(trace) else None
        if found is not None:
            return journal, found, lines
    return None


def run_line(words, journal):
    """A line that ends with a journal."""
    return f"{words} {journal}".strip() + "\n"


def pair_lines(pairs):
    """Which pids are which."""
    return "".join(f"<0.{there}.0> is <0.{here}.0>\n" for there, here in pairs)


def difference(trace, count, pairs, lines, total):
    """Where the run that begins with so many messages differs from the trace."""
    if count == len(trace):
        return f"not in the trace: {len(lines) - count} more\n"
    pid = process_of(trace[count])
    partner = dict(pairs).get(pid)
    before = [line for line in trace[:count] if total or process_of(line) == pid]
    ours = [line for line in lines if total or process_of(line) == partner]
    there = ours[len(before)] if len(before) < len(ours) else "no message"
    return f"not there: {trace[count]}\nthere: {there}\n"


def lists_of(lines, total):
    """The messages of a run that are in an order; those of processes by rising pid."""
    return [lines] if total else sorted(groups_of(lines, False), key=lambda group: int(process_of(group[0])))


def listing(script, journal):
    """The messages of the run by a journal."""
    text = run(["replay", "--quiet", "--picks", journal], script).stdout.decode()
    return text.partition("== replies\n")[0].splitlines()[1:]


POSSIBLE = re.compile(r"possible: journal ?(.*)\n")
LONGEST = re.compile(r"(impossible|unknown): the longest prefix is (\d+) of \d+ messages?: journal ?(.*)\n")


def possible_answer(script, told, trace, total, goes_on):
    """The lines of a trace that is possible, by the run of the journal that they have."""
    journal = POSSIBLE.match(told)[1]
    lines = listing(script, journal)
    pairs = begun(groups_of(trace, total), lists_of(lines, total))
    if pairs is None or not goes_on and len(lines) != len(trace):
        return "the run shows other messages"
    return run_line("possible: journal", journal) + pair_lines(pairs)


def prefix_answer(script, told, trace, total):
    """The lines of the longest prefix, by the run of the journal that they have."""
    word, count, journal = LONGEST.match(told).groups()
    lines, count = listing(script, journal), int(count)
    lists = lists_of(lines, total)
    pairs = begun(groups_of(trace[:count], total), lists)
    if pairs is None or count < len(trace) and begun(groups_of(trace[: count + 1], total), lists) is not None:
        return "the run has another prefix"
    size = f"{len(trace)} message" + ("" if len(trace) == 1 else "s")
    begin = run_line(f"{word}: the longest prefix is {count} of {size}: journal", journal)
    return begin + pair_lines(pairs) + difference(trace, count, pairs, lines, total)


def departure(script, header, told, trace, total):
    """What is explained where the run of the longest prefix has a message that the trace hasn't: its last move."""
    found = LONGEST.match(told)
    if not found or begun(groups_of(listing(script, found[3]), total), lists_of(trace, total)) is not None:
        return ""
    words = ["--picks", found[3], "--move", str(len(found[3].split())), "--session", header.split()[2]]
    return "== explained\n" + run(["explain", *words], script).stdout.decode()


def longest(trace, entries, total):
    """How many messages of a trace the runs to rest begin with."""
    return next(n for n in range(len(trace), -1, -1) if first_match(trace[:n], entries, total, True))


def is_answer(script, told, trace, searched, total, goes_on):
    """Whether these lines are an answer, with its status, beside the entries of a search through all states or some. By
    process a run in the order of the trace comes first: an entry in total order."""
    (entries, whole), (ordered, all_ordered) = searched
    found = first_match(trace, entries, total, goes_on)
    if POSSIBLE.match(told):
        in_order = first_match(trace, ordered, True, goes_on)
        wanted = in_order or all_ordered and found
        first = goes_on or not wanted or POSSIBLE.match(told)[1] == wanted[0]
        return first and (found or not whole) and told == possible_answer(script, told, trace, total, goes_on), 0
    if told.endswith(": no run to rest was met\n"):
        return not whole and told.startswith("unknown"), 4
    # By process and with a prefix a run to rest can show more than one that is followed until it departs.
    good = LONGEST.match(told) and told == prefix_answer(script, told, trace, total) and (not found or goes_on and not total)
    if good and whole:
        count, most = int(LONGEST.match(told)[2]), longest(trace, entries, total)
        good = count == most if total else count <= most
    return good, 1 if told.startswith("impossible") else 4


def compare(script, trace, words):
    """A comparison with a trace in a file."""
    with tempfile.TemporaryDirectory() as room:
        path = Path(room) / "trace.txt"
        path.write_text(trace)
        return run(["compare", "--trace", str(path), *words], script)


def printed(lines, total, chance):
    """Messages as a node could print them: with other pids, and mixed otherwise where that is no order."""
    pids = sorted(set(PID.findall("\n".join(lines))))
    other = dict(zip(pids, chance.sample(range(80, 400), len(pids))))
    groups = groups_of(lines, total)
    mixed = []
    while any(groups):
        mixed.append(chance.choice([group for group in groups if group]).pop(0))
    return [PID.sub(lambda found: f"<0.{other[found[1]]}.0>", line) for line in mixed]


def changes(trace, chance):
    """Traces that differ: one message changed, one dropped, two of one process swapped, one more."""
    if not trace:
        return [["{trace,<0.81.0>,call,{m,f,[]}}"]]
    place = chance.randrange(len(trace))
    changed = [*trace[:place], re.sub(r"\{trace,(<[^>]+>),\w+", r"{trace,\1,link", trace[place]), *trace[place + 1 :]]
    dropped = [*trace[:place], *trace[place + 1 :]]
    places = [n for n, line in enumerate(trace) if process_of(line) == process_of(trace[place])]
    swapped = list(trace)
    swapped[places[0]], swapped[places[-1]] = trace[places[-1]], trace[places[0]]
    return [changed, dropped, swapped, [*trace, trace[place]]]


# Systems with words of the command line; each has one session.
SYSTEMS = (
    ("race", ""),
    ("race", "--order total"),
    ("pool", "--control first"),
    ("pool", "--order total --control first"),
    ("pool", ""),
    ("spawn_inheritance", ""),
    ("worker_pool", "--order total"),
    ("second_send", ""),
    ("pool", "--max-states 1500"),
    ("race", "--max-states 1"),
)

def elements(text):
    """The elements of a tuple's or list's text: what commas part outside of quotes, tuples and lists."""
    found, depth, quoted = [""], 0, None
    for part in re.findall(r"\\.|.", text[1:-1]):
        if quoted or part in "'\"":
            quoted = None if part == quoted else quoted or part
        else:
            depth += (part in "{[") - (part in "}]")
        if part == "," and not depth and not quoted:
            found.append("")
        else:
            found[-1] += part
    return found


def function(mfa):
    """`ffunc/2` of `dbg`: a function with its arguments or its arity."""
    module, name, arguments = elements(mfa)
    return f"{module}:{name}({arguments[1:-1]})" if arguments.startswith("[") else f"{module}:{name}/{arguments}"


def dbg_line(message):
    """`dhandler1/3` of `dbg`: what it prints of a trace message. It breaks long terms; here each list or tuple that is
    the last term is broken after its first comma."""
    _, pid, kind, *rest = elements(message)
    if kind == "'receive'":
        told = f"<< {rest[0]}"
    elif kind == "send":
        told = f"{rest[1]} ! {rest[0]}"
    elif kind == "call":
        told = f"call {function(rest[0])}" + (f" ({rest[1]})" if rest[1:] else "")
    elif kind == "return_from":
        told = f"returned from {function(rest[0])} -> {rest[1]}"
    elif kind == "spawn":
        told = f"spawn {rest[0]} as {function(rest[1])}"
    else:
        told = " ".join([kind, *rest[:-1], re.sub(r"^([{\[]\w+,)", r"\1\n     ", rest[-1])])
    return f"({pid}) {told}"


def has_dbg_line(message):
    """Whether `dbg` prints all of a trace message: it leaves out what a match specification adds to a send or receive."""
    _, _, kind, *rest = elements(message)
    return len(rest) == {"'receive'": 1, "send": 2}.get(kind, len(rest))


def mixed_lines(lines):
    """Two of three messages as `dbg` prints them."""
    return "".join(f"{dbg_line(line) if n % 3 and has_dbg_line(line) else line}\n" for n, line in enumerate(lines))


def without(option, options):
    """The words of a command line without an option and its value."""
    return [word for n, word in enumerate(options) if word != option and (n == 0 or options[n - 1] != option)]


CLOSING = re.compile(r"complete: \d+ states?, \d+ listings?\n|not complete: \d+ states? w(?:as|ere) met\n")

# How a text may be laid out, by its messages.
LAYOUTS = (
    mixed_lines,
    "\n".join,
    lambda lines: "".join(f"{line}.\n" for line in lines),
    lambda lines: "% a trace\n\n" + "".join(f"  {line} .\r\n" for line in lines) + "\n",
)


def comparisons():
    """Traces of entries, with other pids and in other orders, and changed ones, against an independent comparison."""
    chance = random.Random(62)
    for name, words in SYSTEMS:
        script, options = script_of(name), shlex.split(words)
        [(entries, end)] = searches(run(["explore", *options], script).stdout.decode())
        words_in_order = ["--order", "total", *without("--order", options)]
        [(ordered, ordered_end)] = searches(run(["explore", *words_in_order], script).stdout.decode())
        [header] = headers(script)
        total, whole = "total" in words, end[1] is not None
        searched = (entries, whole), (ordered, ordered_end[1] is not None)
        for journal, text in chance.sample(entries, min(8, len(entries))):
            trace = printed(text.splitlines()[1:], total, chance)
            for n, lines in enumerate([trace, trace[: len(trace) // 2], *changes(trace, chance)]):
                for goes_on in (False, True):
                    lay = LAYOUTS[n % len(LAYOUTS)]
                    ran = compare(script, lay(lines), [*options, *(["--prefix"] if goes_on else [])])
                    answer, mark, explained = ran.stdout.decode().removeprefix(header).partition("== explained\n")
                    told, _, closing = answer.partition("== explored\n")
                    good, status = is_answer(script, told, lines, searched, total, goes_on)
                    in_order = not total and POSSIBLE.match(told)
                    good = good and mark + explained == departure(script, header, told, lines, total)
                    good = good and CLOSING.fullmatch(closing) and (not whole or in_order or closing.startswith("complete"))
                    good = good and ran.returncode == status and not ran.stderr
                    check(f"compare {words} with {name}, {journal}, change {n}, {goes_on}", good, (lines, ran))


def possible_runs():
    """The journal of a trace that is possible gives these messages, with the pids that are said."""
    chance = random.Random(27)
    for name in ("race", "pool", "spawn_inheritance"):
        script = script_of(name)
        [(entries, _)] = searches(run(["explore"], script).stdout.decode())
        for _, text in chance.sample(entries, min(5, len(entries))):
            trace = printed(text.splitlines()[1:], False, chance)
            told = compare(script, "\n".join(trace), []).stdout.decode()
            journal = re.search(r"(?m)^possible: journal ?(.*)$", told)[1]
            pids = dict(re.findall(r"(?m)^<0\.(\d+)\.0> is <0\.(\d+)\.0>$", told))
            lines = listing(script, journal)
            ours = [PID.sub(lambda found: f"<0.{pids[found[1]]}.0>", line) for line in trace]
            by_process = lambda messages: sorted(messages, key=process_of)
            check(f"the run of a trace of {name}", by_process(ours) == by_process(lines), (ours, lines))


def calls(function, lasts):
    """Steps that call a function of `m` with each of some last arguments."""
    return ",".join(f"{{call,'_',{{m,{function}}},[{last}]}}" for last in lasts)


def busy_script():
    """Four processes that make 265 calls each, all of which a session traces."""
    return (
        f"{{function,m,go,exported,[],[{calls('turn', range(8))}]}}.\n"
        + f"{{function,m,turn,exported,['N'],[{calls('handle', range(32))}]}}.\n"
        + "{function,m,handle,exported,['N'],[{return,'N'}]}.\n"
        + "{process,m,go,[]}.\n" * 4
        + "{control,[{session_create,s,t,[]},{process,s,all,true,[call]},{function,s,{m,'_','_'},true,[]}]}.\n"
    ).encode()


def busy_lines(pid):
    """The trace messages of one of them."""
    turn = lambda n: [("turn", n), *(("handle", last) for last in range(32))]
    made = [("go", ""), *(call for n in range(8) for call in turn(n))]
    return [f"{{trace,<0.{pid}.0>,call,{{m,{function},[{last}]}}}}" for function, last in made]


def busy_traces():
    """A trace of a thousand messages of four processes, in any order of these, is possible; one that lacks a message
    isn't the whole."""
    chance = random.Random(64)
    script = busy_script()
    trace = printed([line for pid in range(100, 104) for line in busy_lines(pid)], False, chance)
    ran = compare(script, "\n".join(trace), ["--control", "first"])
    journal = POSSIBLE.search(ran.stdout.decode())
    good = ran.returncode == 0 and journal and len(trace) == 1060
    check("compare with a trace of four busy processes", good, ran)
    lines = listing(script, journal[1])
    check("the run of four busy processes", begun(groups_of(trace, True), [lines]) is not None, ran)


# What a node prints in the place of `[]` in `{trace,_,exit,{{bad_header,7},[]}}`, and whether it is read as that.
STACK_TRACES = (
    ("[]", True),
    ("[{worker,parse,1,[]}]", True),
    ("[{worker,parse,[7],[{file,\"w.erl\"},{line,9}]},{worker,load,1,[]}]", True),
    ("[{erlang,hd,[[]],[{error_info,#{module => erl_erts_errors}}]},{worker,parse,1,[]}]", True),
    ("[{m,f,1,[{error_info, #{cause => {'}',#{}}, function => g}}]}]", True),
    ("[{m,f,1,[{location,#{line => 1}}]}]", False),
    ("[{m,f,1,[{error_info,#{module => m}]}]", False),
    ("#{}", False),
)


def stack_traces():
    """A stack trace is `[]`, with a map that says more of an error in it or without; any other map is no term."""
    script = script_of("exceptions")
    lines = listing(script, "0 0 0 0 0 0 100 100 100 100")
    trace = list(itertools.takewhile(lambda line: not line.startswith("== "), lines))
    for stack, is_read in STACK_TRACES:
        text = "\n".join([*trace[:-1], trace[-1].replace("[]", stack)])
        ran = compare(script, text, ["--control", "first", "--session", "returns"])
        if is_read:
            good = ran.returncode == 0 and b"possible: journal" in ran.stdout
        else:
            good = ran.returncode == 2 and not ran.stdout and b"it spells no term" in ran.stderr
        check(f"compare with the stack trace {stack}", good, ran)


# Texts that are no traces: the line, and why.
NO_TRACES = (
    ("{trace,<0.84.0>,call,{m,f,[]}}\n{trace\n", 2, "it spells no term"),
    ("hello\n", 1, "it is no trace message"),
    ("{trace,a,call}\n", 1, "it is no trace message"),
    ("{trace,<0.84.0>}\n", 1, "it is no trace message"),
    ("% nothing\n\n{trace,<0.84.0>,call,{m,f,[]}} x\n", 3, "it spells no term"),
    ("[" * 33 + "]" * 33, 1, "it nests too deep"),
    ("(<0.84.0>) exit\n", 1, "it spells no term"),
    ("(<0.84.0>) exit normal (Timestamp: {1,2,3})\n", 1, "it spells no term"),
    ("(<0.84.0>) call m:f(1)\n(<0.84.0>) exit {a,\n  b\n\n{trace", 2, "it spells no term"),
    ("(<0.84.0>) exit {a,\n  b}\n% c\n  d\n", 4, "it is no trace message"),
    ("(a) exit normal\n", 1, "it is no trace message"),
)


def bad_traces():
    """Texts that are no traces, files that aren't there, and what the command line lacks."""
    for text, line, why in NO_TRACES:
        ran = compare(SEND_HI, text, [])
        told = re.fullmatch(rb"(?:error: )?\S*trace\.txt:(\d+): (.*)\n", ran.stderr)
        good = ran.returncode == 2 and not ran.stdout and told and (int(told[1]), told[2].decode()) == (line, why)
        check(f"compare with {text[:40]}", good, ran)
    for words in (["--trace", "/no/such/file"], [], ["--trace", "/"], ["--trace", "x", "--max-states", "0"]):
        ran = run(["compare", *words], SEND_HI)
        check(f"compare {' '.join(words)}", ran.returncode == 2 and not ran.stdout and ran.stderr, ran)
    ran = compare(b"{", "", [])
    check("compare with a bad script", (ran.returncode, ran.stdout) == (2, b"refused 2 token at 1\n"), ran)
    ran = compare(SEND_HI, "", ["--session", "nobody"])
    check("compare without its session", ran.returncode == 2 and ran.stderr == b"error: the script creates no session nobody: it creates s1\n", ran)
    ran = compare(SEND_HI, "", ["--max-output", "10"])
    check("compare past its bound", ran.returncode == 3 and not ran.stdout and ran.stderr.startswith(b"fault"), ran)


def comparison_row(lines):
    """The value of JSON that the lines of an answer are, as the manual says."""
    first, rest = lines[0], lines[1:]
    pids = [dict(zip(("trace", "run"), line.split(" is "))) for line in rest if re.fullmatch(r"<[^>]+> is <[^>]+>", line)]
    journal = [int(pick) for pick in first.partition("journal")[2].split()]
    if first.startswith("possible"):
        return {"answer": "possible", "journal": journal, "pids": pids}
    answer = {"answer": first.partition(":")[0]}
    if "no run to rest" in first:
        return answer
    prefix, count = (int(number) for number in re.findall(r"is (\d+) of (\d+) message", first)[0])
    told = dict(line.split(": ", 1) for line in rest if ": " in line)
    there = told.get("there")
    more = int(told["not in the trace"].split()[0]) if "not in the trace" in told else None
    differs = {"not_there": told.get("not there"), "there": None if there == "no message" else there, "more": more}
    return {**answer, "prefix": prefix, "of": count, "journal": journal, "pids": pids, **differs}


def comparison_json():
    """The JSON of comparisons is what the plain lines say."""
    chance = random.Random(63)
    for name, words in (("race", ""), ("race", "--order total"), ("pool", "--control first"), ("race", "--max-states 1")):
        script, options = script_of(name), shlex.split(words)
        [(entries, _)] = searches(run(["explore", *without("--max-states", options)], script).stdout.decode())
        head = dict(zip(("session", "tracer"), headers(script)[0].split()[2::2]))
        for _, text in chance.sample(entries, min(3, len(entries))):
            trace = printed(text.splitlines()[1:], "total" in words, chance)
            for lines in [trace, *changes(trace, chance)]:
                plain = compare(script, "\n".join(lines), options)
                ran = compare(script, "\n".join(lines), ["--json", *options])
                told, _, closing = plain.stdout.decode().partition("== explained\n")[0].partition("== explored\n")
                found = [json.loads(line) for line in ran.stdout.decode().splitlines()]
                listings = found[-1]["listings"] if found else 0
                wanted = [head, comparison_row(told.splitlines()[1:]), explored_row(closing, listings)]
                has_rows(f"compare --json {words} with {name}, {lines}", plain, ran, wanted)
