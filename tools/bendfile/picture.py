"""An SVG of the rows' loads between their bounds.

One strip per row: its name and bounds on the left, its load against a common axis in the middle, its load and state in words on the right.
A state has a colour and a shape, so that the picture can be read without colours. What a reader must know before using the loads is in red.
"""

from xml.sax.saxutils import escape

from . import numbers, states, svg, tables
from .answers import row_sums
from .axis import Axis
from .svg import GREY, INK, RED, WIDTH, fitted, text

LEFT, EDGE = 12, WIDTH - 12
PLOT_LEFT, PLOT_RIGHT = 178, 570
WORDS = 584
STRIP = 42
BAND, PALE_RED = "#E3E6EA", "#FBE4E4"
COLOURS = {"I": "#0072B2", "L": "#C77700", "H": "#7B3294", "Z": "#9A9A9A", "S": "#4D4D4D"}
MARKS = {
    "I": "Inside its bounds",
    "L": "At its lower bound",
    "H": "At its upper bound",
    "Z": "Idle: cannot act",
    "S": "Where the solver stopped",
}


def draw(answer, problem):
    """The picture, as the text of an SVG file."""
    notes = tables.notes(answer, problem)
    body, y = _heading(answer, problem, bool(notes))
    axis = Axis(answer.loads, problem.lo + problem.hi, problem.scale, PLOT_LEFT, PLOT_RIGHT)
    words = strip_words(answer, problem)
    legend, y = _legend(y, answer, problem, axis)
    body += legend
    top = y + 24
    bottom = top + STRIP * problem.rows
    body += [_background(answer, i, top + STRIP * i) for i in range(problem.rows)] + _axis(axis, problem, top, bottom)
    for i in range(problem.rows):
        body.append(_strip(answer, problem, axis, i, top + STRIP * i, words[i]))
    if not problem.rows:
        body.append(text(LEFT, top + 4, "This file has no rows."))
        bottom = top + 10
    lines, last = written(notes, bottom + 10)
    return _document(body + lines, last + 16, answer, problem, words)


def written(notes, y):
    """Notes below a picture, in red."""
    lines = [line for note in notes for line in svg.wrapped(note, EDGE - LEFT, 12)]
    return [text(LEFT, y + 17 * i, line, size=12, fill=RED) for i, line in enumerate(lines, 1)], y + 17 * len(lines)


def strip_words(answer, problem):
    """Each row's state in words."""
    sums = row_sums(problem, answer)
    return [states.words(answer, problem, i, sums[i]) for i in range(problem.rows)]


def _document(body, height, answer, problem, words):
    title = problem.labels.title or "Loads of the rows between their bounds"
    rows = " ".join(_sentence(answer, problem, i, words[i]) for i in range(problem.rows))
    summary = f"{tables.headline(answer, problem)}; {tables.counts(answer)}. {rows} {' '.join(tables.notes(answer, problem))}".strip()
    return svg.document(title, summary, body, height)


def _with_unit(bits, problem):
    return f"{numbers.short(bits)} {problem.labels.load_unit}".strip()


def _bounds(problem, row):
    return f"{numbers.short(problem.lo[row])} to {_with_unit(problem.hi[row], problem)}"


def _sentence(answer, problem, row, words):
    """A strip in words, for a reader who hears the picture."""
    fights = ", fights" if row in answer.fights else ""
    return f"{problem.name(row)}: load {_with_unit(answer.loads[row], problem)}, bounds {_bounds(problem, row)}, {words}{fights}."


def _heading(answer, problem, doubtful):
    title = problem.labels.title or "Loads of the rows between their bounds"
    lines = svg.wrapped(title, EDGE - LEFT, 17, most=2)
    body = [text(LEFT, 28 + 22 * i, line, size=17, bold=True) for i, line in enumerate(lines)]
    y = 28 + 22 * len(lines)
    body.append(text(LEFT, y, fitted(tables.headline(answer, problem), EDGE - LEFT), fill=RED if doubtful else INK))
    body.append(text(LEFT, y + 18, tables.counts(answer), size=12))
    return body, y + 42


def _legend(y, answer, problem, axis):
    """The marks that the picture uses, with their meaning, as many on a line as fit."""
    used = {states.mark(answer, problem, i) for i in range(problem.rows) if i not in states.missing(answer)}
    entries = [(_mark_entry(letter), 20, words, INK) for letter, words in MARKS.items() if letter in used]
    entries += [(_both_bounds, 56, "from bound to bound", INK), (_one_bound, 48, "no bound on this side", INK)]
    entries += [(_far_bound, 42, "bound outside the picture", INK)] if axis.cut else []
    entries += [(_listed_row, 28, tables.listed_word(answer), RED)] if answer.fights else []
    return flowed(entries, y)


def _mark_entry(letter):
    return lambda x, y: [marker(x + 8, y - 4, letter)]


def _both_bounds(x, y):
    return [svg.rect(x + 2, y - 11, 44, 14, BAND), _bracket(x + 2, y - 4, 1, 7), _bracket(x + 46, y - 4, -1, 7)]


def _one_bound(x, y):
    return [svg.rect(x + 2, y - 11, 30, 14, BAND), _arrow(x + 32, y - 4, 1)]


def _far_bound(x, y):
    return [svg.rect(x + 2, y - 11, 24, 14, BAND), _arrow(x + 26, y - 4, 1, filled=True)]


def _listed_row(x, y):
    return [svg.rect(x, y - 12, 22, 16, PALE_RED), svg.rect(x, y - 12, 4, 16, RED)]


def flowed(entries, y):
    """Legend entries one after the other: each how it is drawn at a place, where its words begin, the words and their colour."""
    body, x = [], LEFT
    for drawn, at, words, ink in entries:
        wide = at + svg.width(words, 12)
        if x > LEFT and x + wide > EDGE:
            x, y = LEFT, y + 22
        body += [*drawn(x, y), text(x + at, y, words, size=12, fill=ink, bold=ink == RED)]
        x += wide + 14
    return body, y + 28


def _axis(axis, problem, top, bottom):
    """The axis with its ticks above the strips, the zero line and the grid behind them."""
    if not problem.rows:
        return []
    body = [text(LEFT, top - 8, fitted(tables.unit("load", problem.labels.load_unit), PLOT_LEFT - LEFT - 24, 12), size=12)]
    for x, label, zero in axis.ticks():
        body.append(svg.line(x, top - 2, x, bottom, "#555555" if zero else "#D4D4D4", 1.5 if zero else 1))
        body.append(text(x, top - 8, label, size=11, anchor="middle"))
    return body


def _background(answer, row, y):
    """Behind the grid: a row that fights is marked over its whole width."""
    if row in answer.fights:
        return svg.rect(0, y + 1, WIDTH, STRIP - 2, PALE_RED) + svg.rect(0, y + 1, 4, STRIP - 2, RED)
    return svg.line(LEFT, y, EDGE, y, "#E8E8E8")


def _strip(answer, problem, axis, row, y, words):
    """One row."""
    middle, idle = y + STRIP / 2, answer.states[row] == "Z"
    ink, small, listed = GREY if idle else INK, GREY if idle else "#444444", row in answer.fights
    parts = [f"<title>{escape(_sentence(answer, problem, row, words))}</title>"]
    parts.append(text(LEFT, middle - 3, fitted(problem.name(row), PLOT_LEFT - LEFT - 8), fill=ink, bold=True))
    parts.append(text(LEFT, middle + 13, fitted(_bounds(problem, row), PLOT_LEFT - LEFT - 8, 11), size=11, fill=small))
    parts += _box(problem, axis, row, middle)
    parts += _load(answer, problem, axis, row, middle)
    room = EDGE - WORDS - (54 if listed else 0)
    parts.append(text(WORDS, middle - 3, fitted(_with_unit(answer.loads[row], problem), room), fill=ink, bold=True))
    parts.append(text(WORDS, middle + 13, fitted(words, EDGE - WORDS, 11), size=11, fill=small))
    if listed:
        parts.append(text(EDGE, middle - 3, tables.listed_word(answer), fill=RED, anchor="end", bold=True))
    return "<g>\n" + "\n".join(parts) + "\n</g>"


def _box(problem, axis, row, y):
    """The band between the bounds, with a bracket at a bound and an arrow where the band goes on."""
    lo, hi = (numbers.to_float(part[row]) for part in (problem.lo, problem.hi))
    if lo != lo or hi != hi or lo > hi:
        sides = [(v, inward) for v, inward in ((lo, 1), (hi, -1)) if axis.holds(v)]
        return [_bracket(axis.place(v), y, inward, 13) for v, inward in sides]
    left = axis.place(lo) if axis.holds(lo) else PLOT_LEFT if lo < 0 else PLOT_RIGHT
    right = axis.place(hi) if axis.holds(hi) else PLOT_RIGHT if hi > 0 else PLOT_LEFT
    parts = [svg.rect(left, y - 10, right - left, 20, BAND)]
    for value, at, inward in ((lo, left, 1), (hi, right, -1)):
        if axis.holds(value):
            parts.append(_bracket(at, y, inward, 13))
        else:
            parts.append(_arrow(at, y, -1 if at == PLOT_LEFT else 1, filled=axis.outside(value)))
    return parts


def _load(answer, problem, axis, row, y):
    """The bar from zero to the load, and the mark at its end."""
    letter, load = states.mark(answer, problem, row), numbers.to_float(answer.loads[row])
    if load != load:
        return [text(axis.place(0.0) + 8, y + 5, "NaN: no load", fill=RED, bold=True)]
    zero = axis.place(0.0)
    end = axis.place(load) if axis.holds(load) else PLOT_RIGHT if load > 0 else PLOT_LEFT
    parts = [svg.rect(min(zero, end), y - 5, abs(end - zero), 10, COLOURS[letter])]
    return parts + [marker(end, y, letter)]


def marker(x, y, letter, size=6.0, lower=(-1, 0)):
    """A row's mark: a disc inside, a triangle that points to the bound it is on, a ring where it cannot act, a diamond where it only stopped.
    `lower` is the direction in which lower loads lie."""
    colour, place = COLOURS[letter], svg.place
    if letter in "IZ":
        fill, stroke, wide = (colour, "#FFFFFF", 1.5) if letter == "I" else ("#FFFFFF", colour, 2.5)
        radius = size if letter == "I" else size * 0.85
        return f'<circle cx="{place(x)}" cy="{place(y)}" r="{place(radius)}" fill="{fill}" stroke="{stroke}" stroke-width="{wide}"/>'
    if letter == "S":
        corners = [(0, -size), (size, 0), (0, size), (-size, 0)]
        return _polygon(x, y, corners, "#FFFFFF", colour, 2)
    (dx, dy), half = lower, size * 1.33
    tip = half if letter == "L" else -half
    back_x, back_y = -0.6 * dx * tip, -0.6 * dy * tip
    corners = [(dx * tip, dy * tip), (back_x - dy * half, back_y - dx * half), (back_x + dy * half, back_y + dx * half)]
    return _polygon(x, y, corners, colour, "#FFFFFF", 1.5)


def _polygon(x, y, corners, fill, stroke, wide):
    points = " L".join(f"{svg.place(x + dx)} {svg.place(y + dy)}" for dx, dy in corners)
    return svg.path(f"M{points} Z", stroke, fill=fill, width=wide)


def _bracket(x, y, inward, half):
    """A bound: a bracket open towards the inside of the box."""
    serif = 5 * inward
    points = [(x + serif, y - half), (x, y - half), (x, y + half), (x + serif, y + half)]
    return svg.path("M" + " L".join(f"{svg.place(px)} {svg.place(py)}" for px, py in points), INK)


def _arrow(x, y, side, filled=False):
    """No bound on this side: an open arrow. A filled one stands for a bound too far out to be drawn."""
    points = f"M{svg.place(x)} {svg.place(y - 8)} L{svg.place(x + 8 * side)} {svg.place(y)} L{svg.place(x)} {svg.place(y + 8)}"
    return svg.path(points + " Z" if filled else points, INK, fill=INK if filled else "none")
