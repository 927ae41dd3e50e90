"""Random scripts for processes that run freely: small ones, whose commands come first."""
import dataclasses

from witness import differences as known
from witness.functions import FreeSource
from witness.scripts import ScriptCase, ScriptChooser
from witness.terms import Atom, Pid

# Differences of commands and match specifications, which every schedule has. bench/node is about these: a script that
# meets one of the first kind is left out, and of the second kind the question to the node, or to both, is changed.
LEFT_OUT = [
    *known.REFUSALS,
    *known.ENDINGS,
    *known.FREED,
    known.PastSixtyFourBits(),
    known.LogicOnNoBoolean(),
    known.FlagsThatAreNotHere(),
    known.ZeroForNone(),
    known.OptionTwice(),
    known.OrderOfArguments(),
]
SETTLED = [
    known.FalseRemovesBoth(),
    known.GlobalLeavesInternal(),
    known.InheritsAlone(),
    known.FalseClearsNew(),
]

# How many steps a process takes at most.
STEPS_OF_ONE = 12


class FreeChooser(ScriptChooser):
    """Random functions, processes and commands; messages and receives are more often than elsewhere."""

    STARTED = (2, 4)

    def partner(self, pids):
        """The pid of a link: a variable, since a constant is often the process itself."""
        return self.one([pid for pid in pids if pid != "Self"])

    def process(self, number):
        """One of the first processes, with the pid of another one."""
        module, name, arguments = super().process(number)
        others = [Pid(100 + other) for other in range(self.started) if other != number]
        return module, name, [self.one(others), *arguments[1:]]

    def first_command(self):
        command = super().first_command()
        if self.often(0.5):
            return command
        # Receives are reported later on a node, or never: half of the sessions are without them.
        return (*command[:4], [flag for flag in command[4] if flag != "receive"])

    def kinds(self, later):
        kinds = {"send": 40, "receive": 30, "link": 9, "unlink": 4, "return": 2, "exit": 4, "error": 3, "throw": 3}
        return kinds | ({"call": 16, "spawn": 12, "catch": 14} if later else {})

    def pid(self, pids):
        """A pid: a variable that is one, or one of the first processes, or one that never lives."""
        if self.often(0.35):
            return self.one(pids)
        return Pid(163) if self.often(0.04) else Pid(100 + self.chance.randrange(self.started))

    def sessions(self, most):
        return self.chance.choices(range(1, most + 1), [4, 3, 2][:most])[0]


class FreeCase(ScriptCase):
    """A script whose processes run freely once its commands are given."""

    @classmethod
    def at_random(cls, chance, steps, most=3):
        """A random script whose processes take so many steps at most, in which no difference that is left out shows."""
        while True:
            chosen = FreeChooser(chance)
            commands = chosen.all_commands(chosen.sessions(most), destroys=False)
            commands = [of_first(command, chosen.started) for command in commands]
            case = cls(chosen.functions, chosen.processes, commands)
            if case.is_small(steps) and not any(difference.concerns(case) for difference in LEFT_OUT):
                return case.settled()

    def with_commands(self, commands):
        """The script with other commands."""
        return FreeCase(self.functions, self.processes, list(commands))

    def without_steps(self, kinds):
        """The script without the steps of these kinds."""
        functions = [
            dataclasses.replace(function, steps=[step for step in function.steps if step[0] not in kinds])
            for function in self.functions
        ]
        return FreeCase(functions, self.processes, self.session)

    def with_raises(self, places, step):
        """The script in which functions have another step in place of the link with this number, counted from 1."""
        functions = []
        for function in self.functions:
            links = [at for at, each in enumerate(function.steps) if each[0] == "link"]
            number = places.get(function.mfa(), 0)
            steps = list(function.steps)
            if 0 < number <= len(links):
                steps[links[number - 1]] = step
            functions.append(dataclasses.replace(function, steps=steps))
        return FreeCase(functions, self.processes, self.session)

    def settled(self):
        """The script as both are asked, where a difference is settled by that."""
        return self.with_commands(self.as_asked(self.settling()).session)

    def settling(self):
        """The differences that are settled."""
        return [difference for difference in SETTLED if difference.concerns(self)]

    def is_small(self, steps):
        """No process takes too many steps, and all of them take so many or up to half of that less."""
        sizes = self.sizes()
        own = [sizes[module, name, len(arguments)] for module, name, arguments in self.processes]
        return all(one <= STEPS_OF_ONE for one, _ in own) and steps // 2 <= sum(of_all for _, of_all in own) <= steps

    def sizes(self):
        """How many steps a process takes that begins in a function, and how many with those that it spawns."""
        found = {}
        for function in reversed(self.functions):
            one = of_all = 1 + len(function.steps)
            for kind, *parts in function.steps:
                if kind in ("call", "catch", "spawn"):
                    own, with_spawned = found[self.called(function, parts)]
                    one += own if kind != "spawn" else 0
                    of_all += with_spawned
            found[function.mfa()] = one, of_all
        return found

    def called(self, function, parts):
        """The function that a step calls or spawns."""
        where = (function.module, parts[1]) if isinstance(parts[1], Atom) else parts[1]
        return (*where, len(parts[2]))

    def question(self, differences=(), runs=()):
        """What the node is asked: the script, and for each run whether processes pause."""
        settling = self.settling()
        commands = [self.asked(command, settling) for command in self.session]
        modules = self.modules(differences, FreeSource)
        return (Atom("free"), self.names(), modules, self.processes, commands, list(runs))


def of_first(term, started):
    """The term with the pid that never lives in place of one that a first process doesn't have."""
    if isinstance(term, Pid):
        return term if term.number < 100 + started else Pid(163)
    if isinstance(term, (list, tuple)):
        return type(term)(of_first(part, started) for part in term)
    return term
