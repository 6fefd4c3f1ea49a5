"""Draws the table of `bench/run --folder` as an SVG: bars for each section, a line at the peer."""
from xml.sax.saxutils import escape

# What is drawn of a line of the table, and in which colour.
COLUMNS = {"check": "#3b6ea5", "rows": "#7fa7d1", "look-up": "#c98a2b", "normal": "#8a8a8a"}
LABELS = {
    "check": "check",
    "rows": "rows",
    "look-up": "a look-up",
    "normal": "normal, to the peer's check",
}
FONT = 'font-family="sans-serif" font-size="11"'
BAR = 10
GAP = 14
LEFT = 270
SCALE = 220
TOP = 40


def text(x, y, words, anchor="start"):
    return f'<text x="{x}" y="{y}" text-anchor="{anchor}">{escape(words)}</text>'


def legend():
    for i, (column, colour) in enumerate(COLUMNS.items()):
        x = 10 + 150 * i
        yield f'<rect x="{x}" y="10" width="12" height="12" fill="{colour}"/>'
        yield text(x + 18, 20, LABELS[column])


def bars(name, line, top):
    yield text(LEFT - 8, top + 2 * BAR + 4, name, "end")
    for i, (column, colour) in enumerate(COLUMNS.items()):
        if line[column] is None:
            continue
        width, y = SCALE * line[column], top + BAR * i
        yield f'<rect x="{LEFT}" y="{y}" width="{width:.1f}" height="{BAR - 2}" fill="{colour}"/>'
        yield text(round(LEFT + width + 4), y + BAR - 2, f"{line[column]:.2f}")


def plot(lines):
    """The picture of a table's lines, each with its section's label, in their order."""
    step = BAR * len(COLUMNS) + GAP
    height = TOP + step * len(lines) + 20
    widest = max([1.0, *(line[column] or 0 for _, line in lines for column in COLUMNS)])
    width = round(LEFT + SCALE * widest + 60)
    area = f'width="{width}" height="{height}"'
    yield f'<svg xmlns="http://www.w3.org/2000/svg" {area} {FONT}>'
    yield f'<rect {area} fill="white"/>'
    yield from legend()
    for i, (name, line) in enumerate(lines):
        yield from bars(name, line, TOP + step * i)
    peer = LEFT + SCALE
    ends = f'x1="{peer}" y1="{TOP - 6}" x2="{peer}" y2="{height - 16}"'
    yield f'<line {ends} stroke="black" stroke-dasharray="3,3"/>'
    yield text(peer, height - 4, "gimli-peer", "middle")
    yield "</svg>"
