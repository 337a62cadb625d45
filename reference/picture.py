"""The pictures of `v91 plan`: a mask in a text, and as an SVG drawing of both signs."""

from collections import namedtuple

from table1 import value_of

# `ceiling` is the word that was given, `total` the sum of squares.
Picture = namedtuple("Picture", "k law spacing ceiling total mask")

LAW_NAMES = ("mu-law", "A-law")
COLUMNS = 56
HALF_WIDTH = 3900
STEPS = (20, 50, 100, 200, 500, 1000, 2000, 5000, 10000)
MOST_LINES = 6


def ucodes_in(picture):
    """The Ucodes of the mask, rising."""
    return [u for u in range(128) if picture.mask >> u & 1]


def values_in(picture):
    """The linear values of the points, rising."""
    return [value_of(picture.law, ucode) for ucode in ucodes_in(picture)]


def top_of(picture):
    """The largest linear value."""
    return values_in(picture)[-1]


def gaps_of(values):
    """The gap below each value; below the first it is the one between its two signs."""
    return [value - before for before, value in zip([-values[0], *values], values)]


def points_in(picture):
    """(Ucode, linear value, gap) of each point."""
    values = values_in(picture)
    return list(zip(ucodes_in(picture), values, gaps_of(values)))


# The lines that both begin with

def asked_line(picture):
    """What was asked for."""
    return (f"K {picture.k}, {LAW_NAMES[picture.law]}, spacing {picture.spacing}, "
            f"ceiling {picture.ceiling}")


def found_line(picture):
    """What was found."""
    return f"M {len(ucodes_in(picture))}, sum of squares {picture.total}"


def mask_line(picture):
    """The mask."""
    return f"mask {picture.mask:032x}, Ucode 127 in the top bit"


def head_lines(picture):
    """The three of them."""
    return [asked_line(picture), found_line(picture), mask_line(picture)]


# The text

def column_of(value, top):
    """The column of a value, 0 to 56: to scale, and rounded."""
    return (2 * COLUMNS * value + top) // (2 * top)


def bar(end):
    """A bar from column 0 to another."""
    return "".join("|" if column in (0, end) else "-" for column in range(end + 1))


def drawn_at(column, before, end):
    """What stands in a column: `end` is the column of the point, `before` that of the one before.

    For the first point `before` is None.
    """
    if column == end:
        return "o"
    if column == before:
        return "+"
    if column == 0:
        return "|"
    return "-" if column > (before or 0) else " "


def drawing(before, end):
    """The drawing of a point."""
    return "".join(drawn_at(column, before, end) for column in range(end + 1))


def point_lines(picture):
    """The line of each point."""
    lines, before, top = [], None, top_of(picture)
    for ucode, value, gap in points_in(picture):
        end = column_of(value, top)
        lines.append(f"{ucode:5}{value:8}{gap:7}  {drawing(before, end)}")
        before = end
    return lines


def text_lines(picture):
    """The lines of the text."""
    top = top_of(picture)
    spacing = picture.spacing
    return [*head_lines(picture),
            f"{'Ucode':>5}{'linear':>8}{'gap':>7}  0{top:{COLUMNS}}",
            f"{spacing:20}  {bar(column_of(spacing, top))} the spacing",
            *point_lines(picture),
            f"the gap of Ucode {ucodes_in(picture)[0]} is the one between its two signs"]


# The drawing. Lengths are tenths of the unit in which width and height are given.

def length_of(value, top):
    """The length of a value, 0 to 3900: to scale, and rounded down."""
    return HALF_WIDTH * value // top


def step_of(top):
    """The distance of the grid's lines: the least that makes 6 of them or fewer on a side."""
    return next(step for step in STEPS if top // step <= MOST_LINES)


def frame_lines(picture):
    """The beginning, with the lines that the text has too."""
    asked, found, mask = head_lines(picture)
    height = 2900 + 200 * len(ucodes_in(picture))
    return ['<svg xmlns="http://www.w3.org/2000/svg" width="1000" '
            f'height="{height // 10}" viewBox="0 0 10000 {height}" '
            'font-family="sans-serif" font-size="130">',
            f'<rect width="10000" height="{height}" fill="white"/>',
            f'<text x="300" y="400" font-size="200">{asked}</text>',
            f'<text x="300" y="680" font-size="160">{found}</text>',
            f'<text x="300" y="930" font-family="monospace">{mask}</text>']


def grid_line(x, t, bottom, labels):
    """The grid's lines of a value and of its negative, with the value above and below."""
    return (f'<path d="M{x} 0V{bottom}M-{x} 0V{bottom}" stroke="silver" stroke-width="8"/>'
            f'<text x="{x}" y="-70">{t}</text><text x="-{x}" y="-70">-{t}</text>'
            f'<text x="{x}" y="{labels}">{t}</text><text x="-{x}" y="{labels}">-{t}</text>')


def grid_lines(picture):
    """The grid: a line at 0, and at each multiple of the step up to the largest value."""
    top, below = top_of(picture), 200 * len(ucodes_in(picture))
    bottom, labels, step = 1000 + below, 1200 + below, step_of(top)
    return ['<g transform="translate(5800 1400)" text-anchor="middle">',
            f'<path d="M0 0V{bottom}" stroke="silver" stroke-width="8"/>'
            f'<text y="-70">0</text><text y="{labels}">0</text>',
            *(grid_line(length_of(t, top), t, bottom, labels) for t in range(step, top + 1, step)),
            "</g>"]


def strip_lines(picture):
    """All points of both signs on one line."""
    lengths = [length_of(value, top_of(picture)) for value in values_in(picture)]
    return ['<g transform="translate(5800 1700)" stroke="navy" stroke-width="20">',
            '<path d="M-3900 0H3900" stroke="black" stroke-width="10"/>',
            *(f'<path d="M{x} -150v300M-{x} -150v300"/>' for x in lengths),
            "</g>"]


def spacing_lines(picture):
    """The names of the columns, and the spacing about 0."""
    width = length_of(picture.spacing, top_of(picture))
    half = width // 2
    return ['<g transform="translate(5800 2250)" font-weight="bold">',
            '<text x="-5200" text-anchor="end">Ucode</text>'
            '<text x="-4650" text-anchor="end">linear</text>'
            '<text x="-4200" text-anchor="end">gap</text>',
            f'<path d="M-{half} -120h{width}v120h-{width}z" fill="orange"/>'
            f'<text x="{half + 100}">spacing {picture.spacing}</text>',
            "</g>"]


def row_line(y, point, x, before, width):
    """A point and its negative; the spacing reaches from the point before towards it."""
    ucode, value, gap = point
    return (f'<g transform="translate(5800 {y})"><text x="-5200">{ucode}</text>'
            f'<text x="-4650">{value}</text><text x="-4200">{gap}</text>'
            f'<path d="M{before} -120h{width}v120h-{width}z'
            f'M-{before} -120h-{width}v120h{width}z" fill="orange"/>'
            f'<path d="M{x} -150v170M-{x} -150v170" stroke="navy" stroke-width="20"/></g>')


def row_lines(picture):
    """A row for each point; for the first the spacing about 0 is halved."""
    top = top_of(picture)
    whole = length_of(picture.spacing, top)
    before, width, lines = 0, whole // 2, []
    for i, point in enumerate(points_in(picture)):
        x = length_of(point[1], top)
        lines.append(row_line(2450 + 200 * i, point, x, before, width))
        before, width = x, whole
    return ['<g text-anchor="end">', *lines, "</g>"]


def svg_lines(picture):
    """The lines of the drawing."""
    return [*frame_lines(picture), *grid_lines(picture), *strip_lines(picture),
            *spacing_lines(picture), *row_lines(picture), "</svg>"]
