"""Numbers of an input that the solver takes and nobody means: told wherever the input or its answer is shown."""

from . import numbers
from .problem import place

MOST_NAMED = 3


def of_input(problem):
    """Every doubt, each as a sentence that names the input's place and its value."""
    return [*serious(problem), *asymmetry(problem)]


def serious(problem):
    """Doubts that forbid to call an answer simply solved."""
    rows = [doubt for row in range(problem.rows) for doubt in _row(problem, row)]
    return [*rows, *_entries(problem), *_coordinates(problem), *_tolerance(problem)]


def _row(problem, row):
    where, lo, hi = place(problem, row), problem.lo[row], problem.hi[row]
    found = []
    if problem.idle(row):
        own = numbers.exact(problem.matrix[row][row])
        found.append(f"{where}: its own entry of the matrix is {own}, not a number above 0, so the row cannot act (Idle)")
    for what, bits in (("lo", lo), ("hi", hi)):
        if numbers.is_nan(bits):
            found.append(f"{where}: {what} is {numbers.exact(bits)}, which limits nothing")
    if numbers.to_float(lo) > numbers.to_float(hi):
        found.append(f"{where}: lo {numbers.exact(lo)} is above hi {numbers.exact(hi)}, so no load lies between them")
    elif lo == numbers.PLUS_INFINITY or hi == numbers.MINUS_INFINITY:
        found.append(f"{where}: lo {numbers.exact(lo)} and hi {numbers.exact(hi)} leave no finite load")
    if not numbers.is_finite(problem.scale[row]) or not numbers.to_float(problem.scale[row]) > 0:
        found.append(f"{where}: scale is {numbers.exact(problem.scale[row])}, which the solver refuses (number 8)")
    for what, bits in (("free_motion", problem.free_motion[row]), ("start", problem.start[row])):
        if not numbers.is_finite(bits):
            found.append(f"{where}: {what} is {numbers.exact(bits)}")
    return found


def _entries(problem):
    """Entries of the matrix off its diagonal; one on it is told with its row, unless it is infinite and the row so can act."""
    return _listed("matrix: entry", [(i, j, v) for i, j, v in _not_finite(problem.matrix) if i != j or not problem.idle(i)])


def _coordinates(problem):
    return _listed("motion: value", _not_finite(problem.motion))


def _not_finite(lines):
    return [(i, j, v) for i, line in enumerate(lines) for j, v in enumerate(line) if not numbers.is_finite(v)]


def _listed(what, bad):
    """The first few places by name, and how many more there are."""
    named = ", ".join(f"({i}, {j}) is {numbers.exact(v)}" for i, j, v in bad[:MOST_NAMED])
    more = f", and {len(bad) - MOST_NAMED} more are NaN or infinite" if len(bad) > MOST_NAMED else ""
    return [f"{what} {named}{more}"] if bad else []


def _tolerance(problem):
    return [f"tolerance is {numbers.exact(problem.tolerance)}, so the sweeps cannot stop by it"] if numbers.is_nan(problem.tolerance) else []


def asymmetry(problem):
    """The first pair of entries that differ: the conditions that an answer meets are then those of no shaft. A NaN pair is told elsewhere."""
    for i in range(problem.rows):
        for j in range(i):
            one, other = problem.matrix[i][j], problem.matrix[j][i]
            if numbers.to_float(one) != numbers.to_float(other) and not (numbers.is_nan(one) and numbers.is_nan(other)):
                return [
                    f"matrix: entry ({i}, {j}) is {numbers.exact(one)}, entry ({j}, {i}) is {numbers.exact(other)}; "
                    "the solver expects a symmetric matrix"
                ]
    return []
