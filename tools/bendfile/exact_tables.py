"""A table of the motions left, rounded as the solver adds them and exact."""

from . import exact, numbers
from .answers import row_sums
from .problem import place
from .states import STATES
from .tables import headline, notes, table, unit

WORDS = """
The motion left of each row is its free motion + W · load.
rounded: every product and every sum is rounded, as in the solver.
exact:   added without rounding; the f64 nearest to the sum.
off by:  exact minus rounded.
"""


def show(answer, problem, text=numbers.short, highlight=str):
    """The exact motion left of each row beside the rounded one."""
    labels = problem.labels
    out = [f"{labels.title}\n" if labels.title else "", headline(answer, problem) + "\n"]
    if answer.outcome == "refused":
        return "".join(out)
    sums = exact.row_sums(problem, answer)
    rounded = [numbers.to_bits(v) for v in row_sums(problem, answer)]
    header = ["row", "<name", "<state", unit("load", labels.load_unit), *(unit(h, labels.motion_unit) for h in ("rounded", "exact", "off by"))]
    lines = []
    for i, (sum_, near) in enumerate(zip(sums, rounded)):
        cells = ["-", "-"] if isinstance(sum_, str) else _cells(sum_, near, text)
        lines.append([str(i), problem.name(i), STATES[answer.states[i]], text(answer.loads[i]), text(near), *cells])
    out.append("\n" + table(header, lines))
    out.append(WORDS)
    out += [f"\n{place(problem, i)} has no exact motion: {sum_}\n" for i, sum_ in enumerate(sums) if isinstance(sum_, str)]
    out += [f"\n{highlight(note)}\n" for note in notes(answer, problem)]
    return "".join(out)


def _cells(sum_, rounded, text):
    """The exact sum and what it is off by. A sum that is not zero and rounds to zero is told by its sign."""
    near, off = exact.nearest(sum_), exact.off_by(sum_, rounded)
    shown = text(near) if near or not sum_ else "above 0" if sum_ > 0 else "below 0"
    return [shown, "-" if off is None else text(off)]
