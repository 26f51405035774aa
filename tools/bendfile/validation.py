"""Whether an answer can be bendsolve's answer to a bend file.

Much of an answer follows from the file and the loads: Idle rows, the residual, the passes that so many sweeps make, the states that such loads
show, the rows that growth lists. An answer in which one of them is otherwise is refused.
"""

from . import numbers
from .answers import clamp, own_residual, residual, row_sums
from .problem import BadInput, place
from .states import NOTHING

CHECKPOINTS = (1, 2, 4, 8, 16, 32, 64, 128, 200)
MOST_SWEEPS = 200
FURTHEST = 1e6


def check(answer, problem):
    """Refuses an answer to another file, or one that was changed."""
    if answer.outcome == "refused":
        return
    _rows(answer, problem)
    _counts(answer)
    _flags(answer)
    _residual(answer, problem)
    for row, motion in enumerate(row_sums(problem, answer)):
        _load(answer, problem, row)
        _state(answer, problem, row, motion)
    _listed(answer, problem)


def _refuse(wrong):
    raise BadInput(f"{wrong}; expected the answer to this file")


def _rows(answer, problem):
    if len(answer.states) != problem.rows:
        raise BadInput(f"the answer has {len(answer.states)} rows, the bend file {problem.rows}; expected the answer to this file, whole")
    if any(not numbers.to_float(bits) > 0 or not numbers.is_finite(bits) for bits in problem.scale):
        _refuse("the bend file has a scale that the solver refuses (number 8)")
    for i, state in enumerate(answer.states):
        if (state == "Z") != problem.idle(i):
            _refuse(f"{place(problem, i)} has state {state}, and its own entry of the file's matrix is {numbers.exact(problem.matrix[i][i])}")


def _counts(answer):
    """Passes against sweeps: one for each checkpoint not above the sweeps, or below them where growth ended the solve."""
    acting = answer.idle < len(answer.states)
    if not (1 <= answer.sweeps <= MOST_SWEEPS if acting else answer.sweeps == 0):
        _refuse(f"the answer has {answer.sweeps} sweeps, and {'1 to 200 are made' if acting else 'none is made where no row acts'}")
    made = sum(point < answer.sweeps if answer.cause == "growth" else point <= answer.sweeps for point in CHECKPOINTS)
    if answer.passes != made:
        _refuse(f"the answer has {answer.passes} exact passes, and {answer.sweeps} sweeps make {made}")
    if acting and (answer.exact or answer.cause == "pass") and answer.sweeps not in CHECKPOINTS:
        _refuse(f"an exact pass ended the solve after {answer.sweeps} sweeps, and none is made there")


def _flags(answer):
    """Converged and exact against the outcome and the sweeps."""
    if answer.outcome == "infeasible" and (answer.converged or answer.exact):
        _refuse("the answer is infeasible and says converged or exact")
    if answer.exact and not answer.converged:
        _refuse("the answer says exact and not converged")
    if answer.outcome == "solved" and not answer.converged and answer.sweeps != MOST_SWEEPS:
        _refuse(f"the answer is solved and not converged after {answer.sweeps} sweeps, and only 200 end so")


def _residual(answer, problem):
    found = residual(problem, answer)
    if numbers.to_bits(found) != answer.residual:
        _refuse(f"the answer's residual is {numbers.exact(answer.residual)}, and its loads in the bend file give {found!r}")
    if answer.converged and not answer.exact and found > NOTHING:
        _refuse(f"the answer says converged, not exact, and its residual is {found!r}, above 1e-9")


def _load(answer, problem, row):
    """Loads left by sweeps are NaN or in their boxes; that of an Idle row is 0, held within its box."""
    bits, lo, hi = answer.loads[row], numbers.to_float(problem.lo[row]), numbers.to_float(problem.hi[row])
    load = numbers.to_float(bits)
    if answer.states[row] == "Z":
        if bits != numbers.to_bits(clamp(0.0, lo, hi)):
            _refuse(f"{place(problem, row)} is Idle with the load {numbers.exact(bits)}, and it starts and stays at {clamp(0.0, lo, hi)!r}")
    elif not answer.exact and lo <= hi and (load < lo or load > hi):
        _refuse(f"{place(problem, row)} has the load {numbers.exact(bits)} outside its bounds")


def _state(answer, problem, row, motion):
    """The state against load and bounds: of an exact answer the bound itself, of one by sweeps the state that the load shows."""
    letter, where = answer.states[row], place(problem, row)
    lo, hi, load = (numbers.to_float(part[row]) for part in (problem.lo, problem.hi, answer.loads))
    bits, none = {"L": (problem.lo[row], numbers.MINUS_INFINITY), "H": (problem.hi[row], numbers.PLUS_INFINITY)}.get(letter, (None, None))
    if bits is not None and (bits == none or numbers.is_nan(bits)):
        _refuse(f"{where} has state {letter}, and that bound is {numbers.exact(bits)}")
    if answer.exact and bits is not None:
        if load != numbers.to_float(bits):
            _refuse(f"{where} has state {letter} and the load {numbers.exact(answer.loads[row])}, and that bound is {numbers.exact(bits)}")
        _held(answer, problem, row, motion)
    elif answer.outcome == "solved" and not answer.exact and letter != "Z":
        shown = state_of(load, lo, hi, numbers.to_float(problem.scale[row]))
        if letter != shown:
            _refuse(f"{where} has state {letter}, and its load {numbers.exact(answer.loads[row])} shows {shown}")
    elif answer.cause == "growth" and answer.sweeps == 1 and letter in "LH":
        _refuse(f"{where} has state {letter}, and no exact pass was made that could hold it there")


def state_of(load, lo, hi, scale):
    """The state that a load shows: on a bound if within 1e-9 of its scale of it."""
    if _finite(lo) and load - lo <= NOTHING * scale:
        return "L"
    return "H" if _finite(hi) and hi - load <= NOTHING * scale else "I"


def _finite(value):
    return value - value == 0


def _held(answer, problem, row, motion):
    """A row that an exact answer holds on a bound is not pushed inside by more than 1e-9 of its scale."""
    wrong = motion < 0 if answer.states[row] == "L" else motion > 0
    if wrong and own_residual(problem, answer, row, motion) > NOTHING:
        _refuse(f"{place(problem, row)} has state {answer.states[row]}, and its motion {motion!r} pushes it inside")


def _listed(answer, problem):
    """Growth lists exactly the rows past a million scales; nothing else ends with such a load unless exact. A ray's rows have no limit."""
    past = [i for i, load in enumerate(answer.loads) if abs(numbers.to_float(load)) > FURTHEST * numbers.to_float(problem.scale[i])]
    if answer.cause == "growth" and past != answer.fights:
        _refuse(f"growth lists the rows {answer.fights}, and those past a million scales are {past}")
    if not answer.exact and answer.cause != "growth" and past and answer.sweeps:
        _refuse(f"{place(problem, past[0])} has a load past a million scales, which ends a solve by growth")
    for row in answer.fights if answer.cause in ("pass", "sweep") else []:
        limits = (problem.lo[row] == numbers.MINUS_INFINITY, problem.hi[row] == numbers.PLUS_INFINITY)
        if answer.states[row] == "Z" or not any(limits):
            _refuse(f"{place(problem, row)} is listed, and it {'is Idle' if answer.states[row] == 'Z' else 'has a limit on both sides'}")
