"""Random scripts with one to four sessions, as questions to both sides."""
import collections
import re

from witness.chooser import Chooser
from witness.differences import commands_of
from witness.expressions import (
    CALLS,
    CHANGES,
    FLAGS,
    RECEIVES,
    SENDS,
    calls_in,
    flags_named,
    integers_in,
    is_specification,
)
from witness.functions import Function, LAST, Source, module_text
from witness.terms import ANYTHING, Atom, FALSE, Pid, Reader, TRUE, line_is, pid_of, quoted, text, to_node

HAS_NAME = {"m": ["go", "f", "g"], "n": ["h", "k"]}

PID = re.compile(r"<0\.[0-9]+\.0>")


class ScriptChooser:
    """Random functions, processes and commands of a script."""

    # How many processes there are at first.
    STARTED = (2, 3)

    def __init__(self, chance):
        self.chance = chance
        self.started = chance.randint(*self.STARTED)
        self.functions = self.signatures()
        self.used = collections.Counter()
        self.named = set()
        for place, function in enumerate(self.functions):
            self.fill(function, self.functions[place + 1 :])
        self.hide()
        self.processes = [self.process(number) for number in range(self.started)]
        self.session = Atom("s1")

    def often(self, share):
        """True so often."""
        return self.chance.random() < share

    def one(self, choices):
        """One of them."""
        return self.chance.choice(choices)

    def signatures(self):
        """Functions without steps. Each takes a pid first; a function calls only later ones, so a run ends."""
        chosen = []
        for module, names in HAS_NAME.items():
            for name in names:
                if name == "go" or self.often(0.6):
                    parameters = [Atom("To"), Atom("X")] if self.often(0.7) else [Atom("To")]
                    chosen.append(Function(Atom(module), Atom(name), parameters))
        return chosen

    def fill(self, function, later):
        """Gives a function its steps."""
        pids = [Atom("To"), Atom("Self")]
        values = list(function.parameters[1:])
        for _ in range(self.chance.randint(2, 6)):
            if not self.add_step(function, later, pids, values):
                return

    def kinds(self, later):
        """The kinds of steps, each with how often it is."""
        kinds = {"send": 30, "receive": 14, "call": 25 if later else 0, "spawn": 12 if later else 0}
        kinds |= {"link": 8, "unlink": 3, "return": 4, "exit": 9}
        return kinds | {"catch": 30 if later else 0, "error": 12, "throw": 12}

    def add_step(self, function, later, pids, values):
        """One more step; false after a last one."""
        kinds = self.kinds(later)
        kind = self.chance.choices(list(kinds), list(kinds.values()))[0]
        if kind == "send":
            function.steps.append((Atom("send"), self.pid(pids), self.value(pids, values)))
        elif kind == "receive":
            function.steps.append((Atom("receive"), self.target(values)))
        elif kind == "call":
            function.steps.append(self.call(function, self.one(later), pids, values))
        elif kind == "catch":
            function.steps.append(self.catch(self.one(later), pids, values))
            target = function.steps[-1][1]
            if target != ANYTHING and self.often(0.5):
                # What it came to is told.
                function.steps.append((Atom("send"), self.pid(pids), target))
        elif kind == "spawn":
            function.steps.append(self.spawn(self.one(later), pids, values))
        elif kind in ("link", "unlink"):
            function.steps.append((Atom(kind), self.partner(pids)))
        else:
            reason = self.one([Atom("boom"), Atom("normal"), 7]) if kind == "exit" else self.value(pids, values)
            function.steps.append((Atom(kind), reason))
        return kind not in LAST

    def pid(self, pids):
        """A pid: a variable that is one, or one of the first processes, or one that never lives; or what is none."""
        if self.often(0.015):
            return self.one([7, [], Atom("nobody"), (Atom("hi"),)])
        if self.often(0.6):
            return self.one(pids)
        return Pid(163) if self.often(0.06) else Pid(100 + self.chance.randrange(self.started))

    def partner(self, pids):
        """The pid of a link: seldom the process itself."""
        return self.pid(pids if self.often(0.1) else [pid for pid in pids if pid != "Self"])

    def value(self, pids, values):
        """A template."""
        plain = self.one([1, 2, 7, Atom("a"), Atom("b"), TRUE])
        part = self.one(values) if values and self.often(0.5) else plain
        return self.one([part, part, (Atom("hi"), part), [part, 1], (self.pid(pids), part)])

    def target(self, values):
        """A variable to bind, or none."""
        if self.often(0.3):
            return ANYTHING
        name = self.one([Atom("X"), Atom("Y"), Atom("Z")])
        if name not in values:
            values.append(name)
        return name

    def arguments(self, function, pids, values):
        """Arguments for a function."""
        return [self.pid(pids), *(self.value(pids, values) for _ in function.parameters[1:])]

    def call(self, caller, called, pids, values):
        """A call, with its module or in the same one."""
        arguments = self.arguments(called, pids, values)
        target = self.target(values)
        self.used[called.mfa()] += 1
        if called.module == caller.module and self.often(0.5):
            return (Atom("call"), target, called.name, arguments)
        self.named.add(called.mfa())
        return (Atom("call"), target, (called.module, called.name), arguments)

    def catch(self, called, pids, values):
        """A call within a catch. It names the module."""
        arguments = self.arguments(called, pids, values)
        self.named.add(called.mfa())
        return (Atom("catch"), self.target(values), (called.module, called.name), arguments)

    def spawn(self, called, pids, values):
        """A spawn."""
        arguments = self.arguments(called, pids, values)
        target = self.one([ANYTHING, Atom("P")])
        if target != ANYTHING and target not in pids:
            pids.append(target)
        self.named.add(called.mfa())
        return (Atom("spawn"), target, (called.module, called.name), arguments)

    def hide(self):
        """Functions that are called in their module alone may be internal."""
        for function in self.functions[1:]:
            if self.used[function.mfa()] and function.mfa() not in self.named:
                function.internal = self.often(0.7)

    def process(self, number):
        """One of the first processes."""
        exported = [function for function in self.functions if not function.internal]
        function = self.functions[0] if number == 0 or self.often(0.5) else self.one(exported)
        arguments = [Pid(100 + self.chance.randrange(self.started)), 5][: len(function.parameters)]
        return (function.module, function.name, arguments)

    # ---- commands

    def all_commands(self, sessions, destroys):
        """Commands of so many sessions, one among the other; each session's in their order."""
        lists = []
        for number in range(1, sessions + 1):
            self.session = Atom(f"s{number}")
            own = [(Atom("session_create"), self.session, Atom(f"t{number}"), []), *self.commands()]
            if sessions > 1:
                own = own[: 1 + self.chance.randint(1, len(own) - 1)]
            if destroys and self.often(0.45):
                own.insert(self.chance.randint(max(1, len(own) - 2), len(own)), (Atom("session_destroy"), self.session))
            lists.append(own)
        chosen = []
        while any(lists):
            own = self.chance.choices(lists, [len(each) for each in lists])[0]
            chosen.append(own.pop(0))
        return chosen

    def sessions(self, most):
        """How many sessions there are, more than one where there may be many."""
        return self.chance.choices(range(2, most + 1), [most + 2 - number for number in range(2, most + 1)])[0]

    def commands(self):
        """Commands of the session, without its creation."""
        chosen = [self.first_command(), self.function_command()]
        if self.often(0.8):
            body = [(Atom("exception_trace"),)] if self.often(0.75) else [(Atom("return_trace"),)]
            how = self.one([[], [Atom("local")]])
            chosen.insert(1, (Atom("function"), self.session, (ANYTHING,) * 3, [(ANYTHING, [], body)], how))
        makers = [self.process_command, self.function_command, self.function_command, self.decides_messages]
        return chosen + [self.one(makers)() for _ in range(self.chance.randint(2, 7))]

    def first_command(self):
        """Sets most of the flags that tell something."""
        telling = [Atom("send"), Atom("receive"), Atom("call"), Atom("call"), Atom("procs")]
        flags = set(self.chance.sample(telling, 4))
        if self.often(0.2):
            # Others have flags by a link alone.
            flags |= {Atom("procs"), self.one([Atom("set_on_link"), Atom("set_on_first_link")])}
            return (Atom("process"), self.session, Pid(100), TRUE, sorted(flags))
        whom = self.one([Atom("all"), Atom("existing"), Pid(100)])
        return (Atom("process"), self.session, whom, TRUE, sorted(flags))

    def process_command(self):
        """Sets flags, or sometimes clears some, or none."""
        whom = self.one([Atom("all"), Atom("all"), Atom("existing"), Atom("new"), Pid(100), Pid(101), Pid(102)])
        weights = [5, 5, 7, 5, 1.5, 1, 1.2, 1, 1.2, 1]
        flags = sorted(set(self.chance.choices(FLAGS, weights, k=self.chance.randint(1, 5))))
        how = FALSE if self.often(0.12) else TRUE
        return (Atom("process"), self.session, whom, how, [] if self.often(0.007) else [Atom(flag) for flag in flags])

    def function_command(self):
        """Says which calls are told."""
        function = self.one(self.functions)
        module, name, arity = function.mfa()
        covered = self.one(
            [(module, name, arity), (module, name, ANYTHING), (module, ANYTHING, ANYTHING), (ANYTHING,) * 3]
        )
        options = self.one([[], [Atom("global")], [Atom("local")], [Atom("local")]])
        decides = self.decides(CALLS, [Pid(101), 5][:arity])
        if self.often(0.007):
            # What the documentation doesn't have.
            covered, options = self.one([((module, name, 256), options), (covered, options * 2)])
        return (Atom("function"), self.session, covered, decides, options)

    def decides_messages(self):
        """Says which sends, or which receives, are told."""
        if self.often(0.5):
            return (Atom("send"), self.session, self.decides(SENDS, [Pid(101), (Atom("hi"), 1)]), [])
        arguments = [Atom("nonode@nohost"), Pid(100), (Atom("hi"), 1)]
        return (Atom("recv"), self.session, self.decides(RECEIVES, arguments), [])

    def decides(self, dialect, arguments):
        """`true`, `false`, `[]` or a specification."""
        how = self.chance.choices(["true", "none", "false", "specification"], [4, 1, 1, 7])[0]
        if how == "specification":
            return Chooser(self.chance, dialect, of_script=True).specification(arguments)
        return {"true": TRUE, "none": [], "false": FALSE}[how]


class FlagChooser(ScriptChooser):
    """Small scripts in which specifications mostly fire, and mostly change flags of processes that have one or two."""

    CHANGED = [Atom(name) for name in ("call", "send", "procs", "receive", "silent", "arity")]

    def __init__(self, chance):
        super().__init__(chance)
        self.started = 2
        self.processes = [(Atom("m"), Atom("go"), [Pid(101)]), (Atom("m"), Atom("go"), [Pid(100)])]

    def signatures(self):
        return [Function(Atom("m"), Atom(name), [Atom("To")]) for name in ("go", "f", "g")]

    def fill(self, function, later):
        kinds = [
            (Atom("send"), Atom("To"), Atom("a")),
            (Atom("send"), Atom("To"), (Atom("b"), 1)),
            (Atom("send"), Pid(163), 7),
            (Atom("link"), Atom("To")),
            (Atom("receive"), Atom("X")),
        ]
        if later:
            # Mostly calls of the next function.
            names = [(Atom("m"), later[place].name) for place in (0, 0, 0, -1)]
            whom = [self.one([Atom("To"), Atom("Self")])]
            kinds += [(Atom("call"), ANYTHING, name, whom) for name in names] * 2
            kinds += [(Atom("catch"), ANYTHING, names[-1], whom), (Atom("spawn"), ANYTHING, names[-1], [Atom("Self")])]
        least, most = (3, 6) if later else (1, 2)
        function.steps += [self.one(kinds) for _ in range(self.chance.randint(least, most))]
        if self.often(0.25):
            last = [("return", 1), ("throw", Atom("x")), ("error", Atom("y")), ("exit", Atom("z"))]
            kind, value = self.one(last)
            function.steps.append((Atom(kind), value))

    def sessions(self, most):
        return self.chance.randint(1, most)

    def hide(self):
        """All are exported."""

    def process(self, number):
        """They are given."""

    def flag_set(self, most):
        """Up to so many flags, mostly those that tell something."""
        few = self.CHANGED[:2] if self.often(0.6) else self.CHANGED[:3] * 2 + self.CHANGED
        return sorted({self.one(few) for _ in range(self.chance.randint(1, most))})

    def change(self):
        """An action, mostly a change of flags."""
        pid = [self.one([(Atom("self"),), Pid(100), Pid(101)])] if self.often(0.3) else []
        kind = self.one(["on", "off", "off", "trace", "trace", "silent", "return", "exception", "message", "told"])
        lists = [self.flag_set(2) if self.often(0.7) else [] for _ in range(2)]
        if kind in ("on", "off"):
            return (Atom("enable_trace" if kind == "on" else "disable_trace"), *pid, self.flag_set(1)[0])
        if kind == "trace":
            return (Atom("trace"), *pid, *lists)
        if kind == "told":
            return (Atom("message"), [(Atom("trace"), *pid, *lists), (Atom("trace"), *pid, *lists[::-1])])
        if kind in ("return", "exception"):
            return (Atom(f"{kind}_trace"),)
        values = [TRUE, FALSE] if kind == "silent" else [TRUE, FALSE, Atom("w")]
        return (Atom(kind), self.one(values))

    def firing(self):
        """A specification that fires."""
        return [(ANYTHING, [], [self.change() for _ in range(self.chance.randint(1, 3))])]

    def function_command(self):
        """A function command whose specification fires."""
        covered = (Atom("m"), self.one([ANYTHING, Atom("f")]), ANYTHING)
        return (Atom("function"), self.session, covered, self.firing(), self.one([[], [Atom("local")]]))

    def process_command(self):
        """Sets a flag or two, or clears them."""
        whom = self.one([Atom("all"), Atom("new"), Pid(100), Pid(101)])
        flags = {*self.flag_set(1), *([self.one(FLAGS)] if self.often(0.15) else [])}
        return (Atom("process"), self.session, whom, self.one([TRUE, TRUE, FALSE]), sorted(flags))

    def commands(self):
        """Commands of the session, without its creation."""
        whom = self.one([Atom("all"), Atom("existing"), Pid(100)])
        flags = self.flag_set(1 if self.often(0.6) else 2)
        chosen = [(Atom("process"), self.session, whom, TRUE, flags), self.function_command()]
        if self.often(0.35):
            chosen.append((Atom("send"), self.session, self.firing(), []))
        makers = [self.process_command, self.process_command, self.function_command]
        return chosen + [self.one(makers)() for _ in range(self.chance.randint(0, 2))]


class ScriptCase:
    """A script with one or more sessions, and the picks that move it."""

    MOST_PICKS = 70

    def __init__(self, functions, processes, session, picks=None, chance=None):
        self.functions = functions
        self.processes = processes
        self.session = session
        self.wanted = picks
        self.chance = chance
        self.journal = []

    @classmethod
    def at_random(cls, chance, chooser=ScriptChooser, most=1, name=None):
        """A random script with up to so many sessions, of which some are destroyed where there is more than one, whose
        picks are chosen as it runs. With a name, a specification calls the function of it."""
        while True:
            chosen = chooser(chance)
            sessions = 1 if most == 1 else chosen.sessions(most)
            commands = chosen.all_commands(sessions, destroys=most > 1)
            case = cls(chosen.functions, chosen.processes, commands, chance=chance)
            if not name or any(call[0] == name for call in case.calls()):
                return case

    @classmethod
    def of_text(cls, written, picks):
        """The script of a text."""
        lines = [line for line in written.splitlines() if not line.lstrip().startswith("%")]
        texts = (to_node("\n".join(lines)) + "\n").split(".\n")
        forms = [Reader(form).term() for form in texts if form.strip()]
        functions = [
            Function(module, name, parameters, steps, internal=seen == "internal")
            for kind, module, name, seen, parameters, steps in [form for form in forms if form[0] == "function"]
        ]
        processes = [form[1:] for form in forms if form[0] == "process"]
        commands = [command for form in forms if form[0] == "control" for command in form[1]]
        return cls(functions, processes, commands, picks)

    def names(self):
        """The names of the sessions."""
        return [command[1] for command in self.session if command[0] == "session_create"]

    def specifications(self):
        """All specifications of the case."""
        return [part for command in self.session for part in command if is_specification(part)]

    def calls(self):
        """All calls in them."""
        return [call for specification in self.specifications() for call in calls_in(specification)]

    def integers(self):
        """All integers of the specifications."""
        return integers_in(self.specifications())

    def commands(self):
        """The commands of the sessions."""
        return self.session

    def steps(self):
        """The kinds of steps of the script's functions."""
        return {step[0] for function in self.functions for step in function.steps}

    def flags(self):
        """All flags that a command or a specification names."""
        changes = [flags_named(call) for call in self.calls() if call[0] in CHANGES]
        named = [flag for taken, given in changes for flag in (*taken, *given)]
        return [flag for command in commands_of(self, "process") for flag in command[4]] + named

    def script(self, before=()):
        """The text of the script, with these commands before the others."""
        forms = [function.form() for function in self.functions]
        forms += [(Atom("process"), *entry) for entry in self.processes]
        forms.append((Atom("control"), [*before, *self.session]))
        return "".join(text(form) + ".\n" for form in forms)

    # ---- picks

    def choose_picks(self, program):
        """Finds picks that move. A process that an exit signal is sent to moves next, as the signal ends it there.

        A session of its own watches the links and ends while the picks are chosen.
        """
        watch = [
            (Atom("session_create"), Atom("w"), Atom("v"), []),
            (Atom("process"), Atom("w"), Atom("all"), TRUE, [Atom("procs")]),
        ]
        script = self.script(watch)
        picks = [0] * (len(watch) + self.first_picks())
        seen, waiting, most = [], [], self.MOST_PICKS + len(self.session)
        while waiting or len(picks) < most:
            more = waiting[:1] or [self.next_pick(seen) for _ in range(15)]
            moves = program.moves(script, [*picks, *more], "w")[len(picks) :]
            if not moves and not waiting:
                break
            waiting = waiting[1:]
            for move in moves:
                picks.append(move.pick)
                told = move.sent("w")
                seen += told
                waiting += signalled(told, seen)
                if waiting:
                    break
        return picks[len(watch) :]

    def first_picks(self):
        """How many commands are taken before a process moves."""
        many = len(self.session)
        if len(self.names()) == 1:
            return self.chance.randint(min(4, many), many)
        return self.chance.randint(many // 2, many)

    def next_pick(self, seen):
        """The control list or a process that was started."""
        started = len(self.processes) + sum(line_is("spawn")(line) for line in seen)
        return 0 if self.chance.random() < 0.1 else 100 + self.chance.randrange(started)

    def run(self, program):
        """The run of the program, by picks that are chosen first where there are none."""
        if self.wanted is None:
            self.wanted = self.choose_picks(program)
        run = program.run(self.script(), self.wanted)
        self.wanted = run.journal
        return run

    def told_by_program(self, run, listings, replies):
        """The replies, and the lines of each process in each session."""
        told = collections.defaultdict(list)
        told["replies"] = ["badarg" if reply.startswith("{unsupported") else reply for reply in replies]
        living = self.living(run)
        for session, lines in listings.items():
            for line in lines:
                line = PID.sub(lambda found: found[0] if found[0] in living else "<0.163.0>", line)
                told[f"{session} {pid_of(line)}"].append(line)
        return told

    def living(self, run):
        """The pids of the run's processes. The node tells each other one as that of the ended process, <0.163.0>."""
        started = {f"<0.{100 + place}.0>" for place in range(len(self.processes))}
        shown = [event for move in run.account.moves for event, _ in move.shown]
        return started | {event.partition(" ")[0] for event in shown if event.partition(" ")[2].startswith("spawned ")}

    def picks(self):
        """The picks that moved."""
        return self.wanted or []

    def as_asked(self, differences):
        """The script as the program must be asked, with the same picks."""
        session = self.session
        for difference in differences:
            session = [
                difference.asked(changed_specifications(command, difference.asked_specification)) for command in session
            ]
        return ScriptCase(self.functions, self.processes, session, self.picks())

    # ---- the node

    def question(self, differences):
        """What the node is asked."""
        modules = self.modules(differences)
        commands = iter([self.asked(command, differences) for command in self.session])
        moves = [(Atom("pick"), pick) if pick else next(commands) for pick in self.picks()]
        return (Atom("script"), self.names(), modules, self.processes, moves)

    def modules(self, differences, source=Source):
        """The names and texts of the modules."""
        names = sorted({function.module for function in self.functions})
        own = {name: [each for each in self.functions if each.module == name] for name in names}
        return [(name, quoted(module_text(name, own[name], differences, source))) for name in names]

    def asked(self, command, differences):
        """A command for the node."""
        for difference in differences:
            command = difference.command(changed_specifications(command, difference.specification))
        if command[0] in ("session_create", "session_destroy"):
            return (Atom(command[0].removeprefix("session_")), command[1])
        return command

    def told_by_node(self, answer):
        """The same, of real processes."""
        replies, sessions, stuck = answer
        told = collections.defaultdict(list)
        told["replies"] = [text(reply) for reply in replies]
        for name, messages in sessions:
            for message in messages:
                told[f"{text(name)} {text(message[1])}"].append(text(message))
        if stuck:
            told["stuck"] = [text(number) for number in stuck]
        return told


def changed_specifications(command, change):
    """The command with its specification changed."""
    return tuple(change(part) if is_specification(part) else part for part in command)


def signalled(lines, seen):
    """The processes that an exit signal is sent to by the move that told these lines of links and ends."""
    ended = [Reader(to_node(line)).term() for line in lines]
    reasons = {message[1]: message[3] for message in ended if message[2] == "exit"}
    gone = {pid_of(line) for line in seen if line_is("exit")(line)}
    found = []
    for message in ended:
        partner = message[3]
        if message[2] == "getting_unlinked" and reasons.get(partner, Atom("normal")) != "normal":
            found.append(message[1].number)
        if message[2] == "link" and (text(partner) in gone or partner == Pid(163)):
            found.append(message[1].number)
    return found
