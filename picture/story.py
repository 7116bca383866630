"""What a transcript tells of each party: from where to where it holds, runs and waits, and what it was given."""

from dataclasses import dataclass, field

from texts import Run, Step


@dataclass
class Span:
    """From the step that opens it to the step that ends it, or to the end of the schedule."""

    kind: str  # "read", "write", "running" or "finalizing"; of a wait "waiting" or "share"
    party: int
    cell: int
    first: int
    last: int | None = None


@dataclass
class Gift:
    """A step gave a share to a party that was parked."""

    step: int
    giver: int
    party: int
    cell: int


@dataclass
class Story:
    """The spans and gifts of a run, in the order in which they began."""

    holds: list[Span] = field(default_factory=list)
    waits: list[Span] = field(default_factory=list)
    gifts: list[Gift] = field(default_factory=list)


@dataclass
class Wait:
    """A call that waits: how, at which cell, and its span."""

    way: str
    span: Span


class Teller:
    """Goes over the steps, and keeps what is open."""

    def __init__(self, run: Run):
        self.run = run
        self.story = Story()
        self.guards: dict[int, Span] = {}
        self.sections: dict[int, list[Span]] = {}
        self.waits: dict[int, Wait] = {}
        self.pending: list[int] = []
        self.left: list[int] = []
        self.known: set[int] = set()
        self.is_closed = False

    def tell(self) -> Story:
        for step in self.run.steps:
            if not step.is_refused():
                self.follow(step)
        return self.story

    def cell_of(self, step: Step) -> int | None:
        """The cell that a step concerns: none, where it looks for registered cells."""
        name, words = step.act[0], step.act[1:]
        if name == "again":
            return self.waits[step.party].span.cell
        if name == "exit":
            return self.left[0] if self.left else None
        if name in ("made", "made_failed", "finished", "finish_failed"):
            return self.sections[step.party][-1].cell
        if name in ("look", "set", "release", "downgrade", "clone"):
            return self.guards[int(words[0])].cell
        return int(words[0])

    def follow(self, step: Step) -> None:
        cell = self.cell_of(step)
        waited = self.waits.pop(step.party, None)
        if waited is not None:
            waited.span.last = step.number
        self.end(step)
        self.exit(step)
        if cell is not None:
            self.give(step, cell)
            self.open(step, cell)

    def end(self, step: Step) -> None:
        """Ends the section or the guard that the step gives back."""
        name = step.act[0]
        if name in ("made", "made_failed", "finished", "finish_failed"):
            self.sections[step.party].pop().last = step.number
        if name in ("release", "downgrade"):
            self.guards.pop(int(step.act[1])).last = step.number

    def exit(self, step: Step) -> None:
        """Keeps the rounds of the exit."""
        if step.act[0] == "exit" and self.left:
            self.left.pop(0)
        elif step.answer[0] == "round":
            self.left, self.pending = self.pending[::-1], []
        elif step.answer[0] == "closed":
            self.is_closed = True

    def open(self, step: Step, cell: int) -> None:
        """Opens what the line tells."""
        name, number, party = step.answer[0], step.number, step.party
        if name in ("running", "finalizing"):
            span = self.hold(name, party, cell, number)
            self.sections.setdefault(party, []).append(span)
            self.register(name, cell)
        elif name in ("read-guard", "err-guard", "write-guard"):
            self.guards[number] = self.hold("write" if name == "write-guard" else "read", party, cell, number)
        elif name == "waiting":
            span = Span("waiting", party, cell, number)
            self.story.waits.append(span)
            self.waits[party] = Wait(step.answer[1], span)

    def hold(self, kind: str, party: int, cell: int, first: int) -> Span:
        span = Span(kind, party, cell, first)
        self.story.holds.append(span)
        return span

    def register(self, name: str, cell: int) -> None:
        """The first run of a cell that has a finalizer registers it, while the registry is open."""
        is_finalizable = self.run.cells[cell].words.split(" ")[0].endswith(("Finalize", "Droped"))
        if name == "running" and is_finalizable and cell not in self.known and not self.is_closed:
            self.pending.append(cell)
        self.known.add(cell)

    def give(self, step: Step, cell: int) -> None:
        """Gives shares to the parties that are parked."""
        if not step.given:
            return
        if step.given[1] == "writer":
            parties = [int(step.given[2])]
        else:
            parties = [party for party, wait in self.waits.items() if wait.way == "read" and wait.span.cell == cell]
        for party in parties:
            wait = self.waits.get(party)
            if wait is None or wait.span.kind == "share":
                continue
            wait.span.last = step.number
            wait.span = Span("share", party, cell, step.number)
            self.story.waits.append(wait.span)
            self.story.gifts.append(Gift(step.number, step.party, party, cell))


def tell(run: Run) -> Story:
    """The story of a run."""
    return Teller(run).tell()
