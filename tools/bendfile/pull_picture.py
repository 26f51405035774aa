"""One SVG of the loads over a pull.

One strip per row, the steps from left to right, every strip on the same scale. A state has a colour and a shape, as in the picture of one step.
A step whose loads are no loads of the rig has a red column and no bars.
"""

from xml.sax.saxutils import escape

from . import numbers, states, svg, tables
from .axis import Axis
from .picture import BAND, COLOURS, EDGE, LEFT, MARKS, PALE_RED, PLOT_LEFT, PLOT_RIGHT, WORDS, flowed, marker, written
from .pull_tables import notes
from .states import usable
from .svg import GREY, INK, RED, WIDTH, fitted, text

STRIP, MARGIN = 66, 6
WIDEST_BAR = 26
DOWN = (0, 1)


def draw(pull, answers):
    """The picture, as the text of an SVG file."""
    names, told = pull.names(), notes(pull, answers)
    title, ended = f"Loads over a pull of {tables.counted(len(answers), 'step')}", _ended(pull, answers)
    body = [text(LEFT, 28, title, size=17, bold=True)]
    lines = svg.wrapped(ended, EDGE - LEFT, 13)
    body += [text(LEFT, 50 + 18 * i, line, fill=RED if told else INK) for i, line in enumerate(lines)]
    legend, y = _legend(pull, answers, 58 + 18 * len(lines))
    top = y + 12
    bottom = top + STRIP * len(names)
    body += [*legend, text(LEFT, top - 8, fitted(f"{tables.unit('load', pull.unit('load_unit'))} at step", PLOT_LEFT - LEFT - 12, 12), size=12)]
    body += _steps(answers, top, bottom)
    scale = _scale(pull, answers)
    for i, name in enumerate(names):
        body.append(_strip(pull, answers, scale, name, top + STRIP * i))
    if not names:
        body.append(text(LEFT, top, "These steps have no rows."))
    titles, last = _titles(pull, answers, bottom + 10)
    below, last = written(told, last)
    rows = " ".join(_sentence(pull, answers, name) for name in names)
    return svg.document(title, f"{ended}. {rows} {' '.join(told)}".strip(), body + titles + below, last + 16)


def _scale(pull, answers):
    """The loads' axis, from 0 at a strip's foot to 1 at its head."""
    loads = [load for answer in answers if usable(answer) for load in answer.loads]
    bounds = [bound for problem in pull.problems for bound in problem.lo + problem.hi]
    return Axis(loads, bounds, [scale for problem in pull.problems for scale in problem.scale], 0.0, 1.0)


def _ended(pull, answers):
    """How many steps ended in which way."""
    ways = [_way(problem, answer) for problem, answer in zip(pull.problems, answers)]
    return "; ".join(f"{tables.counted(ways.count(way), 'step')} {way}" for way in dict.fromkeys(ways))


def _way(problem, answer):
    if answer.outcome == "solved":
        return tables.headline(answer, problem)
    return f"refused {answer.number}" if answer.outcome == "refused" else f"infeasible ({answer.cause})"


def _legend(pull, answers, y):
    shown = [(p, a) for p, a in zip(pull.problems, answers) if usable(a)]
    used = {states.mark(a, p, i) for p, a in shown for i in range(p.rows) if not numbers.is_nan(a.loads[i])}
    entries = [(_mark_entry(letter), 20, words, INK) for letter, words in MARKS.items() if letter in used]
    return flowed([*entries, (lambda x, y: [svg.rect(x, y - 11, 22, 14, BAND)], 30, "between its bounds", INK)], y)


def _mark_entry(letter):
    return lambda x, y: [marker(x + 8, y - 4, letter, 5, DOWN)]


def _middle(step, many):
    return PLOT_LEFT + (PLOT_RIGHT - PLOT_LEFT) * (step + 0.5) / many


def _steps(answers, top, bottom):
    """The steps' numbers above the strips, and a column behind each step that has no loads to show."""
    many, body = len(answers), []
    wide = (PLOT_RIGHT - PLOT_LEFT) / many
    bad = [not usable(answer) for answer in answers]
    for step in range(many):
        x = _middle(step, many)
        # Where the numbers would run into each other every fifth is written, and that of each step without loads.
        near = any(bad[max(0, step - 2) : step + 3])
        if bad[step]:
            body.append(svg.rect(x - wide / 2, top, wide, bottom - top, PALE_RED))
        if bad[step] or many <= 20 or (not near and (step == 0 or (step + 1) % 5 == 0)):
            body.append(text(x, top - 8, str(step + 1), size=11, fill=RED if bad[step] else INK, anchor="middle", bold=bad[step]))
    return body


def _strip(pull, answers, scale, name, y):
    """One row over the steps."""
    rows, unit = pull.rows(name), pull.unit("load_unit")
    parts = [f"<title>{escape(_sentence(pull, answers, name))}</title>", svg.line(LEFT, y, EDGE, y, "#E8E8E8")]
    parts.append(text(LEFT, y + 19, fitted(name, PLOT_LEFT - LEFT - 36), bold=True))
    parts += _ticks(scale, y)
    for step, (problem, answer, row) in enumerate(zip(pull.problems, answers, rows)):
        if row is not None:
            parts += _one(problem, answer, row, _Cell(scale, y, _middle(step, len(answers)), len(answers)))
    first, *more = _words(pull, answers, rows, unit)
    parts.append(text(WORDS, y + 19, fitted(first, EDGE - WORDS), bold=True))
    parts += [text(WORDS, y + 34 + 13 * i, fitted(line, EDGE - WORDS, 11), size=11) for i, line in enumerate(more)]
    return "<g>\n" + "\n".join(parts) + "\n</g>"


class _Cell:
    """Where one step of one row is drawn."""

    def __init__(self, scale, y, middle, many):
        self.scale, self.y, self.middle = scale, y, middle
        self.wide = (PLOT_RIGHT - PLOT_LEFT) / many
        self.bar = min(WIDEST_BAR, self.wide * 0.6)

    def height(self, value):
        """A load's place; one beyond the axis is held at its end."""
        part = self.scale.place(value) if self.scale.holds(value) else float(value > 0)
        return self.y + STRIP - MARGIN - part * (STRIP - 2 * MARGIN)


def _ticks(scale, y):
    """The zero line, and the axis' round values at the strip's left edge."""
    cell, parts = _Cell(scale, y, 0, 1), []
    ticks = scale.ticks()
    for part, label, zero in ticks:
        at = y + STRIP - MARGIN - part * (STRIP - 2 * MARGIN)
        parts.append(svg.line(PLOT_LEFT, at, PLOT_RIGHT, at, "#555555" if zero else "#E3E3E3"))
        if zero or label in (ticks[0][1], ticks[-1][1]):
            parts.append(text(PLOT_LEFT - 5, at + 3, label, size=9, fill=GREY, anchor="end"))
    return parts if parts else [svg.line(PLOT_LEFT, cell.height(0.0), PLOT_RIGHT, cell.height(0.0), "#555555")]


def _one(problem, answer, row, cell):
    """The band between the bounds of one step, and its bar with the state's mark."""
    if not usable(answer):
        return []
    lo, hi = (numbers.to_float(part[row]) for part in (problem.lo, problem.hi))
    parts = []
    if lo <= hi:
        top, foot = cell.height(hi), cell.height(lo)
        parts.append(svg.rect(cell.middle - cell.bar / 2 - 1, top, cell.bar + 2, foot - top, BAND))
    load, letter = numbers.to_float(answer.loads[row]), states.mark(answer, problem, row)
    if load != load:
        return [*parts, text(cell.middle, cell.height(0.0) - 3, "NaN" if cell.wide > 24 else "×", size=9, fill=RED, anchor="middle", bold=True)]
    zero, end = cell.height(0.0), cell.height(load)
    parts.append(svg.rect(cell.middle - cell.bar / 3, min(zero, end), cell.bar / 1.5, abs(end - zero), COLOURS[letter]))
    return [*parts, marker(cell.middle, end, letter, min(5.0, cell.wide * 0.3), DOWN)]


def _words(pull, answers, rows, unit):
    """A row's largest load and the steps at which it was on a bound."""
    steps = [(i, p, a, row) for i, (p, a, row) in enumerate(zip(pull.problems, answers, rows), 1) if row is not None and usable(a)]
    loads = [(i, a.loads[row]) for i, _, a, row in steps if not numbers.is_nan(a.loads[row])]
    if not loads:
        return ["no load"]
    largest, load = max(loads, key=lambda pair: abs(numbers.to_float(pair[1])))
    words = [f"{numbers.short(load)} {unit}".strip()]
    if any(other != load for _, other in loads):
        words.append(f"largest, at step {largest}")
    else:
        words.append("at every step" if len(loads) == len(answers) else f"at steps {spans([i for i, _ in loads])}")
    for letter, side in (("L", "lower"), ("H", "upper")):
        at = [i for i, p, a, row in steps if states.mark(a, p, row) == letter]
        if at:
            words.append(f"at its {side} bound: {'step' if len(at) == 1 else 'steps'} {spans(at)}")
    return words


def spans(steps):
    """Rising numbers with their runs drawn together: 1-3, 7."""
    runs = []
    for step in steps:
        if runs and runs[-1][1] == step - 1:
            runs[-1][1] = step
        else:
            runs.append([step, step])
    return ", ".join(f"{a}" if a == b else f"{a}-{b}" for a, b in runs)


def _titles(pull, answers, y):
    """The steps' titles below the strips, in two columns: a number alone does not say how the ram stood."""
    if not any(pull.titles()):
        return [], y
    half, body = (len(answers) + 1) // 2, []
    for i, title in enumerate(pull.titles()):
        x, line = (LEFT, i) if i < half else (WIDTH / 2, i - half)
        body.append(text(x, y + 16 * (line + 1), fitted(f"{i + 1}  {title or '-'}", WIDTH / 2 - 24, 11), size=11))
    return body, y + 16 * half + 4


def _sentence(pull, answers, name):
    """A strip in words, for a reader who hears the picture."""
    unit, told = pull.unit("load_unit"), []
    for step, (answer, row) in enumerate(zip(answers, pull.rows(name)), 1):
        if row is not None and usable(answer):
            told.append(f"step {step} {numbers.short(answer.loads[row])} {unit}".strip() + f" {states.words(answer, None, row)}")
    return f"{name}: {', '.join(told) or 'no load'}."
