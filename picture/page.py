"""A page with the picture of a run: it needs no other file, and prints in bands."""

from html import escape

from drawing import Drawing
from texts import Run

# So many steps fit on the width of a printed page.
BAND = 40

STYLE = """
:root { color-scheme: light; }
body { font: 15px/1.5 system-ui, 'Segoe UI', Helvetica, Arial, sans-serif; color: #1a1a1a; background: #fff; margin: 1.5rem; }
h1 { font-size: 1.4rem; margin: 0 0 .3rem; } h2 { font-size: 1.05rem; margin: 1.6rem 0 .4rem; }
.strip { display: flex; overflow-x: auto; border: 1px solid #b5b5b5; }
.strip .labels { position: sticky; left: 0; background: #fff; border-right: 1px solid #b5b5b5; }
.strip svg, .bands svg { flex: none; display: block; }
.bands { display: none; }
table { border-collapse: collapse; } th, td { text-align: left; padding: .15rem .8rem .15rem 0; border-bottom: 1px solid #d8d8d8; }
td.n, th.n { text-align: right; font-variant-numeric: tabular-nums; } code { font-size: .95em; }
.legend { columns: 2 22rem; margin: 0; padding-left: 1.1rem; }
summary { cursor: pointer; font-weight: 600; }
@media print {
  @page { size: landscape; margin: 10mm; }
  body { margin: 0; } .strip { display: none; } .bands { display: block; }
  .bands svg { max-width: 100%; height: auto; margin-bottom: 6mm; break-inside: avoid; }
  * { print-color-adjust: exact; -webkit-print-color-adjust: exact; } tr, li { break-inside: avoid; } h2 { break-after: avoid; }
}
""".strip()

LEGEND = """
<ul class="legend">
<li>A lane is a party, a column a step; its number stands on top. The mouse on a column tells its line.</li>
<li>A bar is a hold, from the step that opens it to the step that ends it. It bears the number of its cell and what it is:
<b>read</b> (r), <b>write</b> (w, a thick edge), <b>generator</b> (g, stripes), <b>finalizer</b> (f, dots). The colour is the cell's.</li>
<li>A letter in a circle is a call that waits: <b>s</b> spins, <b>r</b> and <b>w</b> are parked to read and to write, <b>d</b> drains.
It waits along the dashed line. From where it is given a share, the line is whole.</li>
<li>An arrow goes from the step that gives a share to the party that gets it.</li>
<li>A number in a box, behind \u00d7, is a refused step, with the reason.</li>
<li>Each other step is a dot with its answer: a number is a value that was seen.</li>
</ul>
""".strip()


def table(head: list[str], rows: list[list[str]]) -> str:
    """A table. Columns whose name ends with a dot have numbers."""
    of = ['class="n"' if name.endswith(".") else "" for name in head]
    titles = "".join(f'<th scope="col" {kind}>{escape(name.rstrip("."))}</th>' for name, kind in zip(head, of))
    lines = "".join("<tr>" + "".join(f"<td {kind}>{escape(text)}</td>" for text, kind in zip(row, of)) + "</tr>\n" for row in rows)
    return f"<table><thead><tr>{titles}</tr></thead><tbody>\n{lines}</tbody></table>"


def counted(count: int, one: str, more: str) -> str:
    return f"{count} {one if count == 1 else more}"


def step_rows(run: Run) -> list[list[str]]:
    return [[str(s.number), str(s.party), " ".join(s.act), " ".join(s.answer), " ".join(s.given)] for s in run.steps]


def page(run: Run, drawing: Drawing) -> str:
    """The whole page."""
    count = len(run.steps)
    bands = "\n".join(drawing.svg(first, min(first + BAND, count)) for first in range(0, count, BAND))
    cells = [[str(number), cell.words, cell.phase, cell.value] for number, cell in enumerate(run.cells)]
    exits = [[str(number), *line.split(" ")] for number, line in enumerate(run.exits)]
    title = f"A transcript of {counted(count, 'step', 'steps')}"
    size = f"{counted(run.parties, 'party', 'parties')}, {counted(len(run.cells), 'cell', 'cells')}"
    log = table(["turn.", "cell.", "ended"], exits) if exits else "<p>No turn of the exit ended.</p>"
    picture = (
        f'<div class="strip" tabindex="0"><div class="labels">{drawing.label_svg()}</div>{drawing.svg(0, count, labelled=False)}</div>\n'
        f'<div class="bands" aria-hidden="true">\n{bands}\n</div>'
        if count
        else "<p>The schedule has no steps.</p>"
    )
    return (
        '<!DOCTYPE html>\n<html lang="en">\n<head>\n<meta charset="utf-8">\n<meta name="viewport" content="width=device-width">\n'
        f"<title>{title}</title>\n<style>\n{STYLE}\n</style>\n</head>\n<body>\n"
        f"<h1>{title}</h1>\n<p>{size}.</p>\n{picture}\n"
        f"<h2>How to read it</h2>\n{LEGEND}\n"
        f'<h2>What each cell is left with</h2>\n{table(["cell.", "plan", "phase", "value"], cells)}\n'
        f"<h2>The exit log</h2>\n{log}\n"
        f'<h2>The steps</h2>\n<details><summary>All lines as a table</summary>\n{table(["step.", "party.", "act", "answer", "gives"], step_rows(run))}\n</details>\n'
        "</body>\n</html>\n"
    )
