"""Heat maps of the lost digits, order against argument, as SVG."""

from collections import Counter

import grid
from report import lost_digits

CLASSES = [  # (upper end of the lost digits, colour, words of the legend)
    (2.0, "#fff7d6", "up to 2"),
    (4.0, "#fedf8b", "2 to 4"),
    (6.0, "#fdb863", "4 to 6"),
    (9.0, "#f07f3c", "6 to 9"),
    (12.0, "#d73027", "9 to 12"),
    (15.35, "#8e0152", "12 to 15.3"),
    (99.0, "#2d004b", "all"),
]
OUTSIDE = ("#c8cdd3", "true value out of range")
LEFT, TOP, ACROSS, DOWN = 62, 82, 500, 88  # place of the first panel, step to the next, room below a panel
INK = 'stroke="#333"'
KINDS = ((0.0, "whole orders v"), (grid.FRACTION, "orders v = whole number + 0.3"))

# Where the source changes its method: (argument, lowest order, highest order), None for no end
EVERYWHERE, BELOW, ABOVE, TO_49 = (None, None), (None, 0), (0, None), (0, 49)
LINES = {
    "D": [(-5.8, *EVERYWHERE), (0.0, *BELOW), (2.0, *BELOW), (5.8, *EVERYWHERE)],
    "V": [(-10.0, *TO_49), (-7.5, *EVERYWHERE), (0.0, *ABOVE), (7.5, *EVERYWHERE), (10.0, *TO_49)],
    "E": [],
}
CURVES = {"V": [(-10.0, -2 ** 0.5), (7.5, 10.0)]}  # v + 1 = x²/2 between these arguments
NAMES = {"D": "the table call of D", "V": "the table call of V", "E": "d_expansion, D at large negative orders"}


class Panel:
    """Cells of whole pixels: x from left to right in steps, the rows low to high of v upwards."""

    def __init__(self, part, fraction, x_steps, v_steps, cell, ticks):
        self.part, self.fraction = part, fraction
        self.x_step, self.x_count = x_steps
        self.v_step, self.low, self.high = v_steps
        self.cell, self.ticks = cell, ticks
        self.width, self.height = (2 * self.x_count + 1) * cell[0], (self.high - self.low + 1) * cell[1]
        self.left = self.top = 0

    def x_at(self, x):
        return self.left + self.width / 2 + x / self.x_step * self.cell[0]

    def v_at(self, v):
        return self.top + self.height + (self.low - 0.5 - v / self.v_step) * self.cell[1]

    def rows(self):
        return range(self.low, self.high + 1)

    def columns(self):
        return range(-self.x_count, self.x_count + 1)


def panels(call, fraction):
    """The fine and the wide panel of a call."""
    near = (range(-20, 21, 5), range(-60, 61, 20))
    far = (range(-45, 46, 15), range(-300, 301, 100))
    fine_x, wide_x, step = (grid.X_STEP, 41), (grid.WIDE_X_STEP, 30), grid.WIDE_V_STEP
    if call == "E":
        return (Panel(grid.FINE, fraction, fine_x, (1, -60, -21), (5, 6), (near[0], range(-60, -20, 10))),
                Panel(grid.WIDE, fraction, wide_x, (step, -25, -2), (7, 10), (far[0], range(-300, -20, 60))))
    return (Panel(grid.FINE, fraction, fine_x, (1, -60, 60), (5, 3), near),
            Panel(grid.WIDE, fraction, wide_x, (step, -25, 25), (7, 7), far))


def class_of(point):
    """The number of a point's class, or None where the true value is out of range."""
    if point.value is None:
        return None
    lost = lost_digits(point)
    return next(number for number, (end, _, _) in enumerate(CLASSES) if lost <= end)


def classes(points, panel):
    """{(row, column): class} of the points that lie on the panel's cells."""
    found = {}
    for point in points:
        row, column = round((point.v - panel.fraction) / panel.v_step), round(point.x / panel.x_step)
        on_cell = point.v == row * panel.v_step + panel.fraction and point.x == column * panel.x_step
        if point.part == panel.part and on_cell and row in panel.rows():
            found[row, column] = class_of(point)
    return found


def area(panel, belongs):
    """A path over the cells that belong: a rectangle for each run of them in a row."""
    wide, high = panel.cell
    parts = []
    for row in panel.rows():
        start = None
        for column in range(-panel.x_count, panel.x_count + 2):
            here = column <= panel.x_count and belongs(row, column)
            if here and start is None:
                start = column
            if not here and start is not None:
                x, y = panel.left + (start + panel.x_count) * wide, panel.top + (panel.high - row) * high
                parts.append(f"M{x} {y}h{(column - start) * wide}v{high}h{(start - column) * wide}z")
                start = None
    return "".join(parts)


def cells(panel, found):
    """The cells of a panel. Each colour lies over the one before it, so that nothing shines through between cells."""
    lines = [f'<rect x="{panel.left}" y="{panel.top}" width="{panel.width}" height="{panel.height}" '
             f'fill="{OUTSIDE[0]}"/>']
    for number, (_, shade, _) in enumerate(CLASSES):
        path = area(panel, lambda *cell: found[cell] is not None and found[cell] >= number)
        lines += [f'<path fill="{shade}" d="{path}"/>'] if path else []
    return lines


def text(x, y, words, size=12, anchor="middle", extra=""):
    """A line of text."""
    return f'<text x="{x:g}" y="{y:g}" font-size="{size}" text-anchor="{anchor}"{extra}>{words}</text>'


def number(value):
    """A number with a minus sign."""
    return f"{value:g}".replace("-", "−")


def axes(panel, title):
    """Frame, ticks, names of the axes and title."""
    left, top, bottom = panel.left, panel.top, panel.top + panel.height
    lines = [f'<rect x="{left}" y="{top}" width="{panel.width}" height="{panel.height}" fill="none" {INK}/>']
    for x in panel.ticks[0]:
        at = round(panel.x_at(x), 1)
        lines.append(f'<path d="M{at:g} {bottom}v5" {INK}/>' + text(at, bottom + 18, number(x)))
    for v in panel.ticks[1]:
        at = round(panel.v_at(v), 1)
        lines.append(f'<path d="M{left} {at:g}h-5" {INK}/>' + text(left - 8, at + 4, number(v), anchor="end"))
    x, y = left - 46, top + panel.height / 2
    return [*lines, text(left + panel.width / 2, bottom + 36, "argument x"),
            text(x, y, "order v", extra=f' transform="rotate(-90 {x:g} {y:g})"'),
            text(left, top - 22, title, 13, "start")]


def dashed(path):
    """A dashed line that is seen on light and on dark cells."""
    return [f'<path d="{path}" stroke="{shade}" fill="none"/>' for shade in ("#fff", '#333" stroke-dasharray="3 3')]


def branch_lines(panel, call):
    """Lines where the source changes its method; fine panels have the argument above each."""
    top, bottom = panel.top, panel.top + panel.height
    lines = dashed(f"M{panel.left} {panel.v_at(0):g}h{panel.width}") if panel.low < 0 < panel.high else []
    for x, low, high in LINES[call]:
        at = round(panel.x_at(x), 1)
        start = top if high is None else panel.v_at(high)
        end = bottom if low is None else panel.v_at(low)
        lines += dashed(f"M{at:g} {start:g}V{end:g}")
        if panel.part == grid.FINE:
            lines.append(text(at, panel.top - 5, number(x), 9))
    for start, end in CURVES.get(call, []):
        places = [start + (end - start) * step / 40 for step in range(41)]
        lines += dashed("M" + " ".join(f"{panel.x_at(x):.1f} {panel.v_at(x * x / 2 - 1):.1f}" for x in places))
    return lines


def legend(left, top, lines_too):
    """The colours and their words."""
    lines, at = [text(left, top, "digits lost, of 15.7:", anchor="start")], left + 130
    for _, shade, words in [*CLASSES, (None, *OUTSIDE)]:
        lines.append(f'<rect x="{at:g}" y="{top - 11}" width="16" height="14" fill="{shade}" {INK}/>')
        lines.append(text(at + 21, top, words, anchor="start"))
        at += round(38 + 6.8 * len(words))
    if lines_too:
        words = "dashed lines: where the source changes its method, at the arguments named above the upper panels"
        lines.append(text(left, top + 20, words, anchor="start"))
    return lines


def shares(found):
    """What share of the cells has which loss, in words."""
    counts, total = Counter(found.values()), len(found)
    names = [(counts[k], words) for k, (_, _, words) in enumerate(CLASSES)] + [(counts[None], OUTSIDE[1])]
    return ", ".join(f"{words}: {100 * count / total:.1f} %" for count, words in names if count)


def head(call, wide, high, descriptions):
    """The opening of the picture, with title and description for those who do not see it."""
    name = f"accuracy-{call.lower()}"
    title = f"Digits lost by {NAMES[call]} (the larger loss of value and derivative)"
    return [
        f'<svg xmlns="http://www.w3.org/2000/svg" viewBox="0 0 {wide} {high}" width="{wide}" height="{high}" '
        f'font-family="sans-serif" role="img" aria-labelledby="{name}-title {name}-desc">',
        f'<title id="{name}-title">{title}</title>',
        f'<desc id="{name}-desc">Four maps of the order v against the argument x, coloured by the digits lost of 15.7. '
        f'{" ".join(descriptions)}</desc>',
        f'<rect width="{wide}" height="{high}" fill="#fff"/>',
        text(LEFT, 26, title, 16, "start"),
    ]


def picture(points, call):
    """The picture of one call: fine and wide grid, whole orders on the left and others on the right."""
    chosen, body, descriptions = [point for point in points if point.call == call], [], []
    for column, (fraction, words) in enumerate(KINDS):
        top = TOP
        for panel in panels(call, fraction):
            panel.left, panel.top = LEFT + column * ACROSS, top
            found = classes(chosen, panel)
            body += ['<g shape-rendering="crispEdges">', *cells(panel, found), "</g>",
                     *branch_lines(panel, call), *axes(panel, words)]
            reach = f"sizes of v to {-panel.low * panel.v_step}, of x to {panel.x_count * panel.x_step:.1f}"
            descriptions.append(f"Digits lost and share of the cells at {words}, {reach}: {shares(found)}.")
            top += panel.height + DOWN
    wide, high = LEFT + ACROSS + 460, top + 10
    lines = [*head(call, wide, high, descriptions), *body, *legend(LEFT, top - 24, bool(LINES[call])), "</svg>", ""]
    return "\n".join(lines)
