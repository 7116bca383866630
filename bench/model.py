"""A plain model of schedules: what each step answers, by docs/SEMANTICS.md, and random schedules.

It shares nothing with the proved code. bench/compare runs both on random schedules, and bench/measure makes its inputs here.
"""

import random
from collections import OrderedDict, namedtuple

FLAGS = (
    "Initialized",
    "Initialization panicked",
    "Initialization skiped",
    "Registered",
    "Registration panicked",
    "Registration refused",
    "Finalized",
    "Finalization panicked",
)
EMPTY = 0
INITIALIZED, PANICKED, SKIPED, REGISTERED, _, REFUSED, FINALIZED, FINALIZATION_PANICKED = (1 << n for n in range(8))
FAILED = PANICKED | SKIPED
PHASES = [
    f"Phase ({' | '.join(name for n, name in enumerate(FLAGS) if phase >> n & 1) or 'not initialized'})"
    for phase in range(256)
]
MOST_READERS = 2**20 - 1

PLAIN = ("Lazy", "LazyFinalize")
PRIMED = ("PrimedLockedLazy", "PrimedLockedLazyDroped")
HARD = ("LockedLazyDroped", "PrimedLockedLazyDroped")
FINALIZED_KINDS = ("LazyFinalize", "LockedLazyFinalize") + HARD
LENDING_KINDS = ("Lazy", "LockedLazy")
KINDS = PLAIN + ("LockedLazy", "LockedLazyFinalize", "LockedLazyDroped") + PRIMED

# What a call seeks of its cell, what it answers, and whether it does not wait. An init of a locked kind seeks to write, and
# tells the phase only where the value may be accessed.
Call = namedtuple("Call", "seeks answers fast", defaults=(False,))
CALLS = {
    "phase": Call(None, "phase"),
    "try_get": Call(None, "value"),
    "get": Call("init", "value"),
    "init": Call("init", "phase"),
    "read": Call("read", "guard"),
    "write": Call("write", "guard"),
    "fast_read": Call("read", "guard", True),
    "fast_write": Call("write", "guard", True),
    "try_read": Call("read_only", "guard"),
    "try_write": Call("write_only", "guard"),
    "fast_try_read": Call("read_only", "guard", True),
    "fast_try_write": Call("write_only", "guard", True),
    "primed_read": Call("read", "guard or err"),
    "primed_write": Call("write", "guard or err"),
    "primed_read_non_initializing": Call("read_only", "guard or err"),
    "primed_write_non_initializing": Call("write_only", "guard or err"),
    "turn": Call("finalize", None),
}
LOCKED_CALLS = [name for name, call in CALLS.items() if call.answers == "guard"]
LENDS = ("get_mut", "try_get_mut")  # the acts by which the value of a cell that is not in use is lent for a step

# What the plan says of a cell: its kind, its place (the party that it belongs to, or how its calls wait), whether its
# generator runs once, whether it also runs where registration is refused, and the value that it has from the start.
Plan = namedtuple("Plan", "kind place once leak prime", defaults=(0,))

# A section that runs: its cell, what the party is in it for, and the phase that its generator adds the outcome to.
Section = namedtuple("Section", "cell call base")


class Cell:
    def __init__(self, plan):
        self.plan = plan
        self.phase = EMPTY
        self.value = plan.prime if plan.kind in PRIMED else None
        self.guards = 0  # open read guards
        self.runner = None  # the party whose generator runs
        self.finalizer = None  # the party whose finalizer runs
        self.writer = None  # the open write guard
        self.shares = {}  # party -> "read" or "write": locks given to parked calls that made no step since
        self.shared = {"read": 0, "write": 0}  # how many shares there are of each nature
        self.parked = {"read": OrderedDict(), "write": OrderedDict()}  # by the nature they are woken to, in order of parking

    def wants_run(self):
        return self.phase == EMPTY if self.plan.once else not self.phase & INITIALIZED

    def has_call(self, name):
        kind = self.plan.kind
        if name in ("phase", "init"):
            return True
        if name in LENDS:
            return kind in LENDING_KINDS
        if name in ("get", "try_get"):
            return kind in PLAIN
        return kind in PRIMED if name.startswith("primed") else kind not in PLAIN

    def seeks(self, name):
        """What the call seeks: an init of a locked kind, to write."""
        if name == "init" and self.plan.kind not in PLAIN:
            return "write"
        return CALLS[name].seeks

    def is_accessible(self):
        hard = self.plan.kind in HARD
        return bool(self.phase & INITIALIZED) and not (hard and self.phase & (FINALIZED | FINALIZATION_PANICKED))

    def readers(self):
        return self.guards + self.shared["read"]

    def is_held_to_write(self):
        holders = (self.runner, self.finalizer, self.writer)
        return any(holder is not None for holder in holders) or self.shared["write"] > 0

    def share(self, party, nature):
        self.shares[party] = nature
        self.shared[nature] += 1

    def leave(self, party):
        """The party is parked no longer, and has no share. Answers the share that it had."""
        share = self.shares.pop(party, None)
        if share is not None:
            self.shared[share] -= 1
        for parked in self.parked.values():
            parked.pop(party, None)
        return share

    def hand_over(self):
        """Gives the cell to parked calls where nothing holds it: to all readers where there is one, else to the first writer."""
        if self.readers() or self.is_held_to_write():
            return ""
        readers, writers = self.parked["read"], self.parked["write"]
        if readers:
            for party in readers:
                self.share(party, "read")
            readers.clear()
            return " gives readers"
        if not writers:
            return ""
        party, _ = writers.popitem(last=False)
        self.share(party, "write")
        return f" gives writer {party}"


class Guard:
    def __init__(self, party, cell, writes, phase=None, value=None):
        self.party, self.cell, self.writes = party, cell, writes
        self.phase, self.value = phase, value  # what its holder sees, where it writes


class Model:
    """On a parking cell each barred call parks, and a downgrade gives nothing."""

    def __init__(self, parties, plan):
        self.cells = [Cell(cell) for cell in plan]
        self.waiting = [None] * parties  # the call that waits, or the turn
        self.running = [[] for _ in range(parties)]  # the sections that run, innermost last
        self.guards = {}
        self.owner = None  # the party of the first exit
        self.registered = []  # the cells registered since the last look
        self.round = []  # the cells of the last look that had no turn yet, the next one first
        self.is_closed = False
        self.exits = []  # the turns that ended
        self.steps = 0

    def step(self, party, act, *args):
        """Makes one step and returns the text of its answer, with what it gave."""
        answer = self.refusal(party, act, args) or self.answer(party, act, args)
        self.steps += 1
        return answer

    def refusal(self, party, act, args):
        if self.waiting[party] is not None:
            return None if act == "again" else "refused 1 Waits"
        if act == "again":
            return "refused 2 NotWaiting"
        if act in CALLS or act in LENDS:
            cell = self.cells[args[0]]
            if cell.plan.place not in ("park", "spin", party):
                return "refused 3 NotOwner"
            if not cell.has_call(act):
                return "refused 4 NoSuchCall"
            if act in LENDS and self.is_in_use(args[0]):
                return "refused 9 InUse"
        if act in ("look", "set", "release", "downgrade", "clone"):
            guard = self.guards.get(args[0])
            if guard is None or guard.party != party or (act == "clone" and guard.writes):
                return "refused 5 NoGuard"
            if act in ("set", "downgrade") and not guard.writes:
                return "refused 6 NotWriter"
        if act in ("made", "made_failed", "finished", "finish_failed"):
            if not self.running[party]:
                return "refused 7 NoSection"
            if not self.ends_so(self.running[party][-1], act, args):
                return "refused 8 NoOutcome"
        if act == "exit":
            if self.is_closed or self.owner not in (None, party):
                return "refused 10 ExitBegun"
            if self.running[party]:
                return "refused 11 Inside"
        return None

    def is_in_use(self, number):
        """A guard of the cell is open, a section of it goes on, or a call waits at it."""
        cell = self.cells[number]
        holders = (cell.runner, cell.finalizer, cell.writer)
        is_held = cell.guards > 0 or any(holder is not None for holder in holders)
        return is_held or any(call is not None and call[1] == number for call in self.waiting)

    def ends_so(self, section, act, args):
        if section.call != "turn" or act not in ("finished", "finish_failed"):
            return section.call != "turn" and act in ("made", "made_failed")
        kind = self.cells[section.cell].plan.kind
        return (len(args) == 1) == (kind == "PrimedLockedLazyDroped") and (act == "finished" or kind != "LockedLazyDroped")

    def answer(self, party, act, args):
        if act == "again":
            return self.call(party, *self.waiting[party])
        if act in CALLS:
            return self.call(party, act, args[0])
        if act in LENDS:
            return self.lend(*args)
        if act in ("made", "made_failed"):
            return self.outcome(party, args)
        if act in ("finished", "finish_failed"):
            return self.end_turn(party, act == "finished", args)
        if act == "exit":
            return self.exit(party)
        return self.use(party, act, args)

    def use(self, party, act, args):
        guard = self.guards[args[0]]
        cell = self.cells[guard.cell]
        if act == "look":
            return f"value {guard.value if guard.writes else cell.value}"
        if act == "set":
            guard.value = args[1]
            return "done"
        if act == "clone":
            return "borrowed" if cell.readers() == MOST_READERS else self.read_guard(party, guard.cell)
        del self.guards[args[0]]
        if guard.writes:
            cell.phase, cell.value, cell.writer = guard.phase, guard.value, None
        else:
            cell.guards -= 1
        if act == "downgrade":
            return self.read_guard(party, guard.cell)
        return "done" + cell.hand_over()

    def lend(self, number, *values):
        """Lends the value that is found, and leaves the last of these in its place. Before that, where there are two, the
        generator makes the first of them, or fails, if a run is due."""
        cell = self.cells[number]
        made, left = values if len(values) == 2 else (None, *values)
        if made is not None and cell.wants_run():
            if made == "fail":
                cell.phase = FAILED
                return "failed"
            cell.phase, cell.value = INITIALIZED, made
        if not cell.is_accessible():
            return "access " + PHASES[cell.phase]
        found, cell.value = cell.value, left
        return f"value {found}"

    def exit(self, party):
        """The turn of the next cell of the round, or, where none is left, a look: it takes the cells registered since the
        last one, the latest first, and closes registration where there is none."""
        self.owner = party
        if self.round:
            return self.call(party, "turn", self.round.pop(0))
        self.round, self.registered = self.registered[::-1], []
        if self.round:
            return f"round {len(self.round)}"
        self.is_closed = True
        return "closed"

    def nature(self, cell, call):
        """The lock that the call wants, judged at the published phase."""
        seeks = cell.seeks(call)
        if seeks is None:
            return None
        if seeks == "finalize":
            return "write" if cell.phase & INITIALIZED else None
        if seeks in ("init", "read") and cell.wants_run():
            return "write"
        return {"init": None, "read": "read", "read_only": "read", "write": "write", "write_only": "write"}[seeks]

    def asks(self, cell, call):
        """Whether the call asks for a run where one is due."""
        return cell.seeks(call) in ("init", "read", "write")

    def call(self, party, call, number):
        cell = self.cells[number]
        nature = self.nature(cell, call)
        self.waiting[party] = None
        share = cell.leave(party)
        given = ""
        if share is None or share != nature:
            given = cell.hand_over() if share is not None else ""
            if self.asks(cell, call) and cell.runner == party:
                return "cyclic"
            if self.bars(cell, nature):
                return self.barred(party, call, number) + given
        return self.admit(party, call, number, nature) + given

    def bars(self, cell, nature):
        if nature is None:
            return False
        if nature == "write":
            return cell.is_held_to_write() or cell.readers() > 0
        return cell.is_held_to_write() or cell.readers() == MOST_READERS

    def barred(self, party, call, number):
        """A call that is barred: it waits, unless it is fast, or its cell is the party's own."""
        cell = self.cells[number]
        if CALLS[call].fast:
            return "none"
        if cell.plan.place not in ("park", "spin"):
            return "borrowed"
        self.waiting[party] = (call, number)
        if cell.plan.place == "spin":
            return "waiting spin"
        woken = "read" if cell.seeks(call) in ("init", "read", "read_only") else "write"
        cell.parked[woken][party] = None
        return f"waiting {woken}"

    def admit(self, party, call, number, nature):
        cell = self.cells[number]
        if call == "turn":
            return self.begin_turn(party, number, nature)
        if nature == "write" and self.asks(cell, call) and cell.wants_run():
            return self.run(party, call, number)
        return self.reached(party, call, number, nature)

    def reached(self, party, call, number, nature):
        """The answer of a call that got this lock and runs nothing: what it does not keep is given back."""
        cell = self.cells[number]
        answers = CALLS[call].answers
        if answers in ("guard", "guard or err"):
            if cell.is_accessible():
                if nature == "read":
                    return self.read_guard(party, number)
                return self.write_guard(party, number, cell.phase, cell.value)
            if answers == "guard or err":
                return self.read_guard(party, number, "err-guard")
        handed = "" if nature is None else cell.hand_over()
        tests = answers != "phase" or (call == "init" and cell.plan.kind not in PLAIN)
        if tests and not cell.is_accessible():
            return "access " + PHASES[cell.phase] + handed
        return (f"value {cell.value}" if answers == "value" else "phase " + PHASES[cell.phase]) + handed

    def run(self, party, call, number):
        """A run that is asked for, of a cell that nobody else holds. A cell that is to be finalized is registered first,
        once; where that is refused its generator runs only if it puts up with the leak."""
        cell = self.cells[number]
        finalized = cell.plan.kind in FINALIZED_KINDS
        base = cell.phase & ~(INITIALIZED | FAILED)
        if finalized and cell.phase == EMPTY:
            base = REFUSED if self.is_closed else REGISTERED
            if not self.is_closed:
                self.registered.append(number)
        if finalized and not base & REGISTERED and not cell.plan.leak:
            cell.phase = REFUSED | SKIPED
            return self.reached(party, call, number, "write")
        cell.runner = party
        self.running[party].append(Section(number, call, base if finalized else EMPTY))
        return "running"

    def outcome(self, party, args):
        section = self.running[party].pop()
        cell = self.cells[section.cell]
        cell.runner = None
        if not args:
            cell.phase = section.base | FAILED
            return "failed" + cell.hand_over()
        answers = CALLS[section.call].answers
        if answers in ("guard", "guard or err") and cell.seeks(section.call) == "write":
            return self.write_guard(party, section.cell, section.base | INITIALIZED, args[0])
        cell.phase, cell.value = section.base | INITIALIZED, args[0]
        if answers in ("guard", "guard or err"):
            return self.read_guard(party, section.cell)
        return (f"value {cell.value}" if answers == "value" else "phase " + PHASES[cell.phase]) + cell.hand_over()

    def begin_turn(self, party, number, nature):
        if nature is None:
            self.exits.append((number, "skipped"))
            return f"skipped {number}"
        self.cells[number].finalizer = party
        self.running[party].append(Section(number, "turn", None))
        return f"finalizing {number}"

    def end_turn(self, party, succeeds, left):
        number = self.running[party].pop().cell
        cell = self.cells[number]
        cell.finalizer = None
        cell.phase |= FINALIZED if succeeds else FINALIZATION_PANICKED
        if cell.plan.kind in HARD:
            cell.value = left[0] if left else None
        self.exits.append((number, "done" if succeeds else "failed"))
        return "phase " + PHASES[cell.phase] + cell.hand_over()

    def read_guard(self, party, number, name="read-guard"):
        self.cells[number].guards += 1
        self.guards[self.steps] = Guard(party, number, False)
        return name

    def write_guard(self, party, number, phase, value):
        self.cells[number].writer = self.steps
        self.guards[self.steps] = Guard(party, number, True, phase, value)
        return "write-guard"

    def ends(self):
        """The lines behind those of the steps."""
        for number, cell in enumerate(self.cells):
            value = "none" if cell.value is None else cell.value
            yield f"cell {number} {PHASES[cell.phase]} {value}"
        for number, turn in self.exits:
            yield f"exit {number} {turn}"


class Player:
    """Chooses steps that mostly do something, with some that are refused or wait. Where cells are to be finalized one
    party exits, from some step on, and all are quicker to give back what they hold."""

    def __init__(self, parties, cells, steps, seed, greatest, parking, once, finalized, leak, mixed):
        self.random = random.Random(seed)
        draw = self.random.random
        self.greatest = greatest
        self.plan = [self.draw_cell(parking, once, finalized, leak) for _ in range(cells)]
        if mixed:
            self.plan = [self.mix(plan, parties) if draw() < mixed else plan for plan in self.plan]
        self.model = Model(parties, self.plan)
        self.parties, self.cells, self.mixed = parties, cells, mixed
        self.own = [[] for _ in range(parties)]  # the numbers of each party's guards
        finalized = finalized or mixed
        self.exiting = self.random.randrange(parties) if finalized else None
        self.exits_from = int(steps * draw() ** 2)
        self.care = 0.95 if finalized else 0.75  # how often a party goes on with what it holds

    def draw_cell(self, parking, once, finalized, leak):
        draw = self.random.random
        kind = "LockedLazyFinalize" if draw() < finalized else "LockedLazy"
        place = "park" if draw() < parking else "spin"
        return Plan(kind, place, draw() < once, draw() < leak)

    def mix(self, plan, parties):
        """The cell as one of any kind, and of any place that its kind may have."""
        kind = self.random.choice(KINDS)
        place = plan.place
        if kind in ("Lazy", "LockedLazy") and self.random.random() < 0.3:
            place = self.random.randrange(parties)
        prime = self.random.randrange(self.greatest) if self.random.random() < 0.5 else 0
        return plan._replace(kind=kind, place=place, prime=prime)

    def choose(self, party):
        draw = self.random.random
        model, number = self.model, self.random.randrange
        if draw() < 0.03:
            return self.random.choice(
                [("again",), ("made", 1), ("made_failed",), ("finished",), ("finish_failed",)]
                + ([("finished", 5)] if self.mixed else [])
                + [(act, number(model.steps + 1)) for act in ("look", "release", "downgrade", "clone")]
                + [("set", number(model.steps + 1), 7)]
                + [("exit",)] * (3 if model.owner is not None else 0)
            )
        if model.waiting[party] is not None:
            return ("again",)
        if party == self.exiting and self.is_exit_time(party):
            return ("exit",)
        if model.running[party] and draw() < self.care - 0.05:
            fails = draw() < 0.15
            section = model.running[party][-1]
            if section.call == "turn":
                left = (number(self.greatest),) if self.plan[section.cell].kind == "PrimedLockedLazyDroped" else ()
                return ("finish_failed" if fails else "finished",) + left
            return ("made_failed",) if fails else ("made", number(self.greatest))
        if self.own[party] and draw() < self.care:
            guard = self.random.choice(self.own[party])
            if draw() < 0.6:
                return ("release", guard)
            if draw() < 0.25:
                return ("look", guard)
            if not model.guards[guard].writes:
                return ("clone", guard)
            return ("downgrade", guard) if draw() < 0.3 else ("set", guard, number(self.greatest))
        if self.mixed and draw() < 0.7:
            cell = number(self.cells)
            if draw() < 0.1:
                return self.draw_lending(cell)
            calls = [name for name in CALLS if name != "turn" and (model.cells[cell].has_call(name) or draw() < 0.05)]
            return (self.random.choice(calls), cell)
        call = "phase" if draw() < 0.1 else "read" if draw() < 0.6 else "write"
        return (call, number(self.cells))

    def draw_lending(self, cell):
        """A value that is to be lent, mostly of a cell of a kind that lends it."""
        draw, number = self.random.random, self.random.randrange
        lending = [cell for cell, plan in enumerate(self.plan) if plan.kind in LENDING_KINDS]
        if lending and draw() < 0.9:
            cell = self.random.choice(lending)
        if draw() < 0.3:
            return ("try_get_mut", cell, number(self.greatest))
        return ("get_mut", cell, "fail" if draw() < 0.3 else number(self.greatest), number(self.greatest))

    def is_exit_time(self, party):
        """Whether the party that exits does so now: rarely inside a section, where it is refused, and rarely beside guards of
        its own, which may bar a turn for good."""
        model = self.model
        if model.steps < self.exits_from or model.is_closed:
            return False
        return self.random.random() < (0.02 if self.own[party] or model.running[party] else 0.5)

    def step(self):
        party = self.random.randrange(self.parties)
        act = self.choose(party)
        answer = self.model.step(party, *act)
        if act[0] in ("release", "downgrade") and not answer.startswith("refused"):
            self.own[party].remove(act[1])
        if "-guard" in answer:
            self.own[party].append(self.model.steps - 1)
        return f"{party} {' '.join(map(str, act))}", answer


def cell_line(plan):
    place = plan.place if plan.place in ("park", "spin") else f"own {plan.place}"
    options = (" once" if plan.once else "") + (" leak" if plan.leak else "") + (f" prime {plan.prime}" if plan.prime else "")
    return f"cell {plan.kind} {place}{options}"


def schedule(parties, cells, steps, seed, greatest=10**6, parking=0.0, once=0.0, finalized=0.0, leak=0.0, mixed=0.0):
    """The text of a random schedule, and the text of its transcript. These shares of its cells park, have no retry, are
    registered for the exit, put up with a leak, and are of any kind and place."""
    player = Player(parties, cells, steps, seed, greatest, parking, once, finalized, leak, mixed)
    text = ["schedule 1", f"parties {parties}"] + [cell_line(plan) for plan in player.plan] + ["steps"]
    lines = ["transcript 1"]
    for n in range(steps):
        step, answer = player.step()
        text.append(step)
        lines.append(f"{n} {answer}")
    text.append("end")
    lines += list(player.model.ends()) + ["end"]
    return "\n".join(text) + "\n", "\n".join(lines) + "\n"


def crowd(parties):
    """The text of a schedule in which these parties park as readers beside a run, and then each step once, and the text of
    its transcript: each waits, leaves its place in the list, and waits again."""
    calls = [f"{party} {act}" for act in ("read 0", "again") for party in range(1, parties + 1)]
    text = ["schedule 1", f"parties {parties + 1}", "cell LockedLazy park", "steps", "0 write 0"] + calls + ["end"]
    waits = [f"{n} waiting read" for n in range(1, 2 * parties + 1)]
    lines = ["transcript 1", "0 running"] + waits + [f"cell 0 {PHASES[EMPTY]} none", "end"]
    return "\n".join(text) + "\n", "\n".join(lines) + "\n"
