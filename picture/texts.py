"""Reads the text of a schedule and of its transcript, as docs/FORMATS.md tells them."""

from dataclasses import dataclass, field


@dataclass
class Cell:
    """A cell of the plan: the words behind `cell`, and what it is left with."""

    words: str
    phase: str = ""
    value: str = ""


@dataclass
class Step:
    """A step with its line. `answer` and `given` are the line's two parts; `given` is empty where nothing was given."""

    number: int
    party: int
    act: list[str]
    answer: list[str]
    given: list[str]

    def told(self) -> str:
        """The step and its line, in words."""
        behind = " " + " ".join(self.given) if self.given else ""
        return f"step {self.number}, party {self.party}: {' '.join(self.act)} \N{RIGHTWARDS ARROW} {' '.join(self.answer)}{behind}"

    def is_refused(self) -> bool:
        return self.answer[0] == "refused"


@dataclass
class Run:
    """A schedule with its transcript."""

    parties: int
    cells: list[Cell] = field(default_factory=list)
    steps: list[Step] = field(default_factory=list)
    exits: list[str] = field(default_factory=list)


def line_of(text: str) -> tuple[list[str], list[str]]:
    """The answer of a line, and what it gives."""
    words = text.split(" ")[1:]
    if "gives" not in words:
        return words, []
    at = words.index("gives")
    return words[:at], words[at:]


def read(schedule: str, transcript: str) -> Run:
    """Reads a schedule that ran, and its transcript."""
    lines = schedule.split("\n")
    run = Run(parties=int(lines[1].split(" ")[1]))
    start = lines.index("steps")
    run.cells = [Cell(line.removeprefix("cell ")) for line in lines[2:start]]
    told = transcript.split("\n")[1:]
    for number, line in enumerate(lines[start + 1 : lines.index("end")]):
        party, *act = line.split(" ")
        answer, given = line_of(told[number])
        run.steps.append(Step(number, int(party), act, answer, given))
    for line in told[len(run.steps) : told.index("end")]:
        if line.startswith("cell "):
            _, cell, left = line.split(" ", 2)
            run.cells[int(cell)].phase, _, run.cells[int(cell)].value = left.rpartition(" ")
        else:
            run.exits.append(line.removeprefix("exit "))
    return run
