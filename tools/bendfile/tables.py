"""Tables of plain text."""

import unicodedata

from . import input_warnings, numbers, states
from .answers import CAUSES, REFUSALS, row_sums

MATRIX_COLUMNS = 8


def width(text):
    """How many columns a text takes: the wide letters of East Asian scripts take two."""
    return sum(2 if unicodedata.east_asian_width(c) in "WF" else 1 for c in text)


def table(header, lines):
    """Columns under their headings: names to the left, numbers to the right. A heading that begins with < is a column of names."""
    left = [h.startswith("<") for h in header]
    cells = [[h.lstrip("<") for h in header]] + lines
    widths = [max(width(line[i]) for line in cells) for i in range(len(header))]
    shown = []
    for line in cells:
        spaces = [" " * (w - width(c)) for c, w in zip(line, widths)]
        aligned = [c + space if l else space + c for c, space, l in zip(line, spaces, left)]
        shown.append("  ".join(aligned).rstrip())
    return "\n".join(shown) + "\n"


def counted(many, what):
    return f"{many} {what}" if many == 1 else f"{many} {what}es" if what.endswith("s") else f"{many} {what}s"


def unit(text, of):
    return f"{text} ({of})" if of else text


def show(problem, size, text=numbers.short, highlight=str):
    """A bend file as tables."""
    labels = problem.labels
    out = [f"{labels.title}\n" if labels.title else ""]
    size_line = f"{counted(problem.rows, 'row')}, {counted(len(problem.motion), 'coordinate')}, {size} bytes"
    out.append(f"{size_line}, {len(problem.before)} of them before the numbers\n\n")
    header = ["row", "<name", "<kind", unit("lo", labels.load_unit), unit("hi", labels.load_unit)]
    header += [unit("scale", labels.load_unit), unit("start", labels.load_unit), unit("free motion", labels.motion_unit)]
    parts = (problem.lo, problem.hi, problem.scale, problem.start, problem.free_motion)
    lines = [[str(i), problem.name(i), problem.kind(i), *(text(p[i]) for p in parts)] for i in range(problem.rows)]
    out.append(table(header, lines))
    per = f"{labels.motion_unit}/{labels.load_unit}" if labels.motion_unit and labels.load_unit else ""
    names = [problem.name(i) for i in range(problem.rows)]
    out.append(f"\n{unit('matrix', per)}: motion of the line's row for a load of 1 on the column's row\n")
    out.append(_blocks(names, problem.matrix, text))
    coordinates = [problem.coordinate(i) for i in range(len(problem.motion))]
    out.append(f"\n{unit('motion', per)}: motion of the line's coordinate for a load of 1 on the column's row\n")
    out.append(_blocks(coordinates, problem.motion, text))
    out.append(f"\n{unit('tolerance', labels.motion_unit)} {text(problem.tolerance)}\n")
    out.extend(f"\n{highlight(f'Input, {doubt}.')}\n" for doubt in input_warnings.of_input(problem))
    return "".join(out)


def _blocks(names, lines, text):
    """A matrix, a few columns at a time, so that a line fits a screen."""
    if not lines or not lines[0]:
        return "(none)\n"
    shown = []
    for at in range(0, len(lines[0]), MATRIX_COLUMNS):
        columns = range(at, min(at + MATRIX_COLUMNS, len(lines[0])))
        header = ["<name", *(f"row {j}" for j in columns)]
        shown.append(table(header, [[n, *(text(line[j]) for j in columns)] for n, line in zip(names, lines)]))
    return "\n".join(shown)


def headline(answer, problem=None):
    """How a solve ended, in one line. Solved is said plainly only where every row has a load and the input leaves no doubt."""
    if answer.outcome == "refused":
        reason = REFUSALS.get(answer.number, "not a number of document 01's table")
        return f"refused {answer.number}: {reason}"
    if answer.outcome == "infeasible":
        return f"infeasible ({answer.cause}): {CAUSES[answer.cause]}"
    ended = "solved, exact" if answer.exact else "solved by sweeps, converged" if answer.converged else "solved by sweeps, not converged"
    if states.missing(answer):
        return f"{ended}, but {counted(len(states.missing(answer)), 'row')} without a load: do not use"
    if not answer.converged:
        return f"{ended}: do not use"
    doubtful = answer.idle or _far(answer) or (problem is not None and input_warnings.serious(problem))
    return f"{ended}, but see the notes below" if doubtful else ended


def listed_word(answer):
    """What a listed row did: the rows of a ray fight each other, and a row that grew may be alone."""
    return "grew" if answer.cause == "growth" else "fights"


def counts(answer):
    parts = [counted(answer.sweeps, "sweep"), counted(answer.passes, "exact pass"), f"{answer.idle} idle"]
    return ", ".join(parts) + f", residual {numbers.short(answer.residual)}"


def answer_table(answer, problem=None, text=numbers.short, highlight=str):
    """An answer as a table, with names, bounds and motions where the bend file is known. `highlight` is how the notes are written."""
    title = problem.labels.title if problem is not None else ""
    told = notes(answer, problem) if answer.outcome != "refused" else []
    first = headline(answer, problem)
    out = [f"{title}\n" if title and answer.outcome != "refused" else "", (highlight(first) if told else first) + "\n"]
    if answer.outcome == "refused":
        return "".join(out)
    out.append(counts(answer) + "\n\n")
    header, lines = _rows_alone(answer, text) if problem is None else _rows_with_bounds(answer, problem, text)
    if answer.outcome == "infeasible":
        header = [*header, "<"]
        lines = [[*line, listed_word(answer) if i in answer.fights else ""] for i, line in enumerate(lines)]
    out.append(table(header, lines))
    out.extend(f"\n{highlight(note)}\n" for note in told)
    return "".join(out)


def _rows_alone(answer, text):
    lines = [[str(i), states.words(answer, None, i), text(load)] for i, load in enumerate(answer.loads)]
    return ["row", "<state", "load"], lines


def _rows_with_bounds(answer, problem, text):
    load, motion = problem.labels.load_unit, problem.labels.motion_unit
    header = ["row", "<name", "<state", unit("load", load), unit("lo", load), unit("hi", load), unit("motion left", motion)]
    lines = []
    for i, sum_ in enumerate(row_sums(problem, answer)):
        shown = [text(bits) for bits in (answer.loads[i], problem.lo[i], problem.hi[i], numbers.to_bits(sum_))]
        lines.append([str(i), problem.name(i), states.words(answer, problem, i, sum_), *shown])
    return header, lines


def notes(answer, problem=None):
    """What a reader must know before using the numbers."""
    found = _of_infeasible(answer, problem) if answer.outcome == "infeasible" else _of_solved(answer, problem)
    if problem is not None:
        return found + [f"Input, {doubt}." for doubt in input_warnings.of_input(problem)]
    idle = [f"row {i}" for i, letter in enumerate(answer.states) if letter == "Z"]
    return found + ([f"Cannot act (Idle): {', '.join(idle)}. Their own entries of the matrix are NaN or not above 0."] if idle else [])


def _of_infeasible(answer, problem):
    who = ", ".join(problem.name(i) if problem is not None else f"row {i}" for i in answer.fights)
    if answer.cause == "growth":
        why = "That may be because no position of the shaft meets every row, or because a scale is too small for the loads of this rig."
        told = f"Rows whose load grew past a million times its scale: {who}. {why}"
    elif problem is not None and not input_warnings.of_input(problem):
        told = f"Rows that fight: {who}. No position of a shaft with this matrix meets every row."
    else:
        told = f"Rows that fight: {who}."
    return [told, "The loads and states are where the solver stopped; they are not loads of the rig."]


def _of_solved(answer, problem):
    found, missing = [], states.missing(answer)
    if missing:
        who = ", ".join(problem.name(i) if problem is not None else f"row {i}" for i in missing)
        found.append(f"No load was found for {who}: {_why_missing(problem)}. The residual does not count such rows. Do not use this answer.")
    if not answer.converged:
        found.append("The sweeps ended at their cap before the loads settled. Do not use this answer.")
    if _far(answer):
        found.append("The residual is above 1e-9: some row is off by more than a part in a thousand million of its scale.")
    return found


def _far(answer):
    """Whether the worst row is off by more than the solver takes for nothing."""
    return numbers.to_float(answer.residual) > states.NOTHING


def _why_missing(problem):
    if problem is None:
        return "a number behind it is NaN or went out of range"
    if input_warnings.serious(problem):
        return "the input has the doubtful numbers named below"
    return "a sum went out of range, though every number of the input is finite"
