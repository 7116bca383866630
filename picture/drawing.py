"""Draws the steps of a run as SVG: a lane for each party, a bar for each hold, a mark for each step."""

from dataclasses import dataclass
from html import escape

from story import Span, Story
from texts import Run, Step

COLUMN, LABELS, HEAD, MARKS, BAR, GAP = 36, 76, 26, 24, 17, 4
# Light fills that are told apart also by those who see few colours; black text on each of them has a contrast above 10.
FILLS = ["#cfe3f7", "#ffe2b0", "#c9ecd9", "#f7d3e4", "#f3f0a8", "#d9d3f5", "#f9cfc0", "#d5dde2"]
EDGES = ["#1f5f99", "#8a5a00", "#14694a", "#8f2a62", "#6b6500", "#4b3a99", "#94381a", "#3f5560"]
INK, FAINT = "#1a1a1a", "#d8d8d8"
SHORT = {"read": "r", "write": "w", "running": "g", "finalizing": "f"}
WORDS = {"read": "read", "write": "write", "running": "generator", "finalizing": "finalizer"}
STYLE = """
text { font-family: system-ui, 'Segoe UI', Helvetica, Arial, sans-serif; fill: #1a1a1a; }
.number { font-size: 10px; text-anchor: middle; }
.name { font-size: 12px; font-weight: 600; }
.bar { font-size: 10px; font-weight: 600; }
.mark { font-size: 9.5px; text-anchor: middle; }
.sign { font-size: 10px; font-weight: 700; text-anchor: middle; }
.step rect { fill: #000; fill-opacity: 0; }
.step:hover rect { fill-opacity: 0.07; }
""".strip()


@dataclass
class Lane:
    """A party's lane: where it begins, and the row of each of its bars."""

    party: int
    top: int
    rows: int

    def bottom(self) -> int:
        return self.top + MARKS + self.rows * (BAR + GAP) + GAP


class Drawing:
    """The lanes of a run, which can be drawn from any step to any later one."""

    def __init__(self, run: Run, story: Story):
        self.run, self.story = run, story
        self.row: dict[int, int] = {}
        self.lanes: dict[int, Lane] = {}
        top = HEAD
        for party in sorted({step.party for step in run.steps}):
            lane = Lane(party, top, self.place([hold for hold in story.holds if hold.party == party]))
            self.lanes[party] = lane
            top = lane.bottom()
        self.height = top + 2

    def place(self, holds: list[Span]) -> int:
        """Puts each bar into the first row that is free, and answers how many rows there are."""
        ends: list[int] = []
        for hold in holds:
            row = next((row for row, end in enumerate(ends) if end <= hold.first), len(ends))
            ends[row : row + 1] = [self.end_of(hold)]
            self.row[id(hold)] = row
        return max(1, len(ends))

    def end_of(self, span: Span) -> int:
        return len(self.run.steps) if span.last is None else span.last

    # ---- the parts

    def labels(self) -> str:
        """The names of the lanes."""
        return "".join(
            f'<text class="name" x="8" y="{lane.top + 17}">party {lane.party}</text>'
            f'<line x1="0" x2="{LABELS}" y1="{lane.bottom()}" y2="{lane.bottom()}" stroke="{FAINT}"/>'
            for lane in self.lanes.values()
        )

    def body(self, first: int, last: int, patterns: str) -> str:
        """The steps from `first` to before `last`, from x = 0 on, with the patterns of this name."""
        parts = [self.grid(first, last)]
        parts += [self.wait(span, first, last) for span in self.story.waits if self.meets(span, first, last)]
        parts += [self.bar(hold, first, last, patterns) for hold in self.story.holds if self.meets(hold, first, last)]
        parts += [self.gift(gift, first) for gift in self.story.gifts if first <= gift.step < last and gift.party in self.lanes]
        parts += [self.mark(step, first) for step in self.run.steps[first:last]]
        parts += [self.column(step, first) for step in self.run.steps[first:last]]
        return "\n".join(parts)

    def meets(self, span: Span, first: int, last: int) -> bool:
        return span.party in self.lanes and span.first < last and self.end_of(span) >= first

    @staticmethod
    def x(step: int, first: int) -> int:
        return (step - first) * COLUMN + COLUMN // 2

    def width(self, first: int, last: int) -> int:
        """The width of these steps. Behind the last one there is room for what is open at the end."""
        return (last - first) * COLUMN + (COLUMN if last == len(self.run.steps) else 0)

    def grid(self, first: int, last: int) -> str:
        width = self.width(first, last)
        lines = "".join(
            f'<line x1="0" x2="{width}" y1="{lane.bottom()}" y2="{lane.bottom()}" stroke="{FAINT}"/>' for lane in self.lanes.values()
        )
        numbers = "".join(
            f'<text class="number" x="{self.x(n, first)}" y="16">{n}</text>'
            f'<line x1="{self.x(n, first)}" x2="{self.x(n, first)}" y1="{HEAD - 5}" y2="{self.height}" stroke="{FAINT}" stroke-width="0.5"/>'
            for n in range(first, last)
        )
        return lines + numbers

    def ends(self, span: Span, first: int, last: int) -> tuple[float, float]:
        """Where a span begins and ends, as far as it is seen."""
        x = self.x(span.first, first) if span.first >= first else 0
        end = self.end_of(span)
        return x, self.x(end, first) if end < last else self.width(first, last)

    def bar(self, hold: Span, first: int, last: int, patterns: str) -> str:
        """The bar of a hold. What it holds is told by its words, its edge and its pattern, its cell by number and colour."""
        x, right = self.ends(hold, first, last)
        y = self.lanes[hold.party].top + MARKS + self.row[id(hold)] * (BAR + GAP)
        edge, width = EDGES[hold.cell % len(EDGES)], right - x
        thick = 2.4 if hold.kind == "write" else 1
        box = f'x="{x + 1}" y="{y}" width="{max(width - 2, 3)}" height="{BAR}" rx="3"'
        shape = f'<rect {box} fill="{FILLS[hold.cell % len(FILLS)]}" stroke="{edge}" stroke-width="{thick}"/>'
        if hold.kind in ("running", "finalizing"):
            shape += f'<rect {box} fill="url(#{hold.kind}-{patterns})"/>'
        words = f"{hold.cell} {WORDS[hold.kind]}"
        if len(words) * 5.8 + 8 > width:
            words = f"{hold.cell} {SHORT[hold.kind]}"
        return shape + f'<text class="bar" x="{x + 6}" y="{y + 12.5}">{words}</text>'

    def wait(self, span: Span, first: int, last: int) -> str:
        """The line of a wait: dashed, and whole once the party has a share."""
        x, right = self.ends(span, first, last)
        y = self.lanes[span.party].top + 17
        dash = "" if span.kind == "share" else ' stroke-dasharray="3 3"'
        return f'<line x1="{x}" x2="{right}" y1="{y}" y2="{y}" stroke="{INK}" stroke-width="1.4"{dash}/>'

    def gift(self, gift, first: int) -> str:
        """An arrow from the lane of the step that gives to the lane that is given to."""
        x = self.x(gift.step, first) + 7
        start, end = self.lanes[gift.giver].top + 17, self.lanes[gift.party].top + 17
        way = 1 if end > start else -1
        return (
            f'<line x1="{x}" x2="{x}" y1="{start}" y2="{end - 6 * way}" stroke="{INK}" stroke-width="1.2"/>'
            f'<path d="M{x - 4} {end - 7 * way} L{x + 4} {end - 7 * way} L{x} {end} Z" fill="{INK}"/>'
        )

    def mark(self, step: Step, first: int) -> str:
        """What the step answered, in a word or a sign."""
        x, y = self.x(step.number, first), self.lanes[step.party].top + 17
        if step.is_refused():
            return f'<rect x="{x - 13}" y="{y - 9}" width="26" height="14" fill="#fff" stroke="{INK}"/><text class="sign" x="{x}" y="{y + 2}">\u00d7{step.answer[1]}</text>'
        if step.answer[0] == "waiting":
            letter = {"spin": "s", "read": "r", "write": "w", "drain": "d"}.get(step.answer[1], "?")
            return f'<circle cx="{x}" cy="{y}" r="6.5" fill="#fff" stroke="{INK}" stroke-width="1.3"/><text class="sign" x="{x}" y="{y + 3.5}">{letter}</text>'
        return f'<circle cx="{x}" cy="{y}" r="2.6" fill="{INK}"/><text class="mark" x="{x}" y="{y - 6}">{escape(word_of(step))}</text>'

    def column(self, step: Step, first: int) -> str:
        """The place of a step: its line is told where the mouse stands on it."""
        return (
            f'<g class="step"><title>{escape(step.told())}</title>'
            f'<rect x="{(step.number - first) * COLUMN}" y="0" width="{COLUMN}" height="{self.height}"/></g>'
        )

    # ---- the whole

    def svg(self, first: int, last: int, labelled: bool = True) -> str:
        """A picture of these steps, with the names of the lanes or without."""
        left = LABELS if labelled else 0
        width = left + self.width(first, last)
        labels = self.labels() if labelled else ""
        # A page has several pictures, and each its own patterns: those of one that is not shown are not there.
        name = f"{first}-{last}" if labelled else "strip"
        return (
            f'<svg xmlns="http://www.w3.org/2000/svg" viewBox="0 0 {width} {self.height}" width="{width}" height="{self.height}" role="img" '
            f'aria-label="{escape(self.summary(first, last), quote=True)}">\n<style>{STYLE}</style>\n{patterns_named(name)}\n'
            f'<rect width="{width}" height="{self.height}" fill="#fff"/>\n{labels}\n<g transform="translate({left} 0)">\n{self.body(first, last, name)}\n</g>\n</svg>\n'
        )

    def label_svg(self) -> str:
        """The names of the lanes alone."""
        return (
            f'<svg xmlns="http://www.w3.org/2000/svg" width="{LABELS}" height="{self.height}" aria-hidden="true">'
            f'<style>{STYLE}</style><rect width="{LABELS}" height="{self.height}" fill="#fff"/>{self.labels()}</svg>'
        )

    def summary(self, first: int, last: int) -> str:
        """A sentence for those who do not see the picture."""
        return (
            f"Steps {first} to {last - 1} of {len(self.run.steps)}, with a lane for each party. "
            "The table of steps tells the same in words."
        )


def patterns_named(name: str) -> str:
    """The stripes of a generator and the dots of a finalizer."""
    return (
        "<defs>"
        f'<pattern id="running-{name}" width="6" height="6" patternUnits="userSpaceOnUse" patternTransform="rotate(45)">'
        '<line x1="0" y1="0" x2="0" y2="6" stroke="#000" stroke-opacity="0.22" stroke-width="2"/></pattern>'
        f'<pattern id="finalizing-{name}" width="5" height="5" patternUnits="userSpaceOnUse">'
        '<circle cx="2.5" cy="2.5" r="1.1" fill="#000" fill-opacity="0.3"/></pattern>'
        "</defs>"
    )


def word_of(step: Step) -> str:
    """A word of at most six letters for an answer."""
    name, behind = step.answer[0], step.answer[1:]
    if name == "value":
        return behind[0] if len(behind[0]) <= 6 else "value"
    if name in ("round", "skipped"):
        return {"round": "round", "skipped": "skip"}[name] + (f" {behind[0]}" if len(behind[0]) == 1 else "")
    return {"read-guard": "reads", "err-guard": "reads", "write-guard": "writes", "running": "runs", "finalizing": "turn", "borrowed": "barred"}.get(name, name[:6])
