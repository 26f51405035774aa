"""What a row's state says of it, and where it says nothing.

Only a solved answer that converged has states to rely on. Elsewhere they are where the solver stopped. After sweeps alone a row is given the
state of a bound that its load is only near, by 1e-9 of its scale; it then bears no mark of that bound.
"""

from . import numbers

STATES = {"I": "Inside", "L": "AtLo", "H": "AtHi", "Z": "Idle"}
STOPPED = "S"
# The largest part of a row's scale that counts as nothing, as in the solver.
NOTHING = 1e-9

# By the row's kind and where it stands: what that means for a pad or a stop. `u` and `d` are moved up and down, `s` still.
MEANINGS = {
    "contact": {"I": "closed, pushes", "Lu": "open", "Ls": "just touches"},
    "friction": {"I": "holds still", "Lu": "slides up", "Hd": "slides down", "Ls": "still, at its limit", "Hs": "still, at its limit"},
    "custom": {
        "I": "between its bounds",
        "Lu": "on its lower bound",
        "Ls": "on its lower bound",
        "Hd": "on its upper bound",
        "Hs": "on its upper bound",
    },
}
# Where both bounds are one, the state is AtLo whichever way the row moves.
BOTH = {"u": "slides up", "d": "slides down", "s": "still"}


def usable(answer):
    """Whether an answer's loads are loads of the rig, as far as the answer itself tells."""
    return answer.outcome == "solved" and answer.converged


def missing(answer):
    """The rows whose load is NaN."""
    return [i for i, load in enumerate(answer.loads) if numbers.is_nan(load)]


def mark(answer, problem, row):
    """The letter of the row's mark: its state's where the load bears it out, else that of a row that stopped somewhere."""
    letter = answer.states[row]
    if letter == "Z":
        return letter
    if not usable(answer) or numbers.is_nan(answer.loads[row]):
        return STOPPED
    return letter if letter == "I" or problem is None or _equals_bound(answer, problem, row) else STOPPED


def _equals_bound(answer, problem, row):
    bound = problem.lo[row] if answer.states[row] == "L" else problem.hi[row]
    return numbers.to_float(answer.loads[row]) == numbers.to_float(bound)


def words(answer, problem, row, motion=None):
    """The state as a table shows it, with what it means for this kind of row where a load was found. `motion` is the row's motion left."""
    letter = answer.states[row]
    if letter == "Z":
        return f"{STATES[letter]}: cannot act" if problem is not None else STATES[letter]
    if numbers.is_nan(answer.loads[row]):
        return "no load"
    if not usable(answer):
        return f"stopped ({STATES[letter]})"
    word = STATES[letter] if mark(answer, problem, row) == letter else "near lo" if letter == "L" else "near hi"
    meaning = _meaning(answer, problem, row, _moved(problem, row, motion)) if problem is not None else ""
    return f"{word}: {meaning}" if meaning else word


def _meaning(answer, problem, row, moved):
    """What the state means, or nothing where the numbers do not bear it out."""
    letter, kind = answer.states[row], problem.kind(row)
    lo, hi = numbers.to_float(problem.lo[row]), numbers.to_float(problem.hi[row])
    if not lo <= hi or moved == "":
        return ""
    if lo == hi and letter in "LH":
        return BOTH[moved] if kind == "friction" else "on both its bounds"
    if letter == "I":
        pushes = kind != "contact" or numbers.to_float(answer.loads[row]) > 0
        return (MEANINGS[kind]["I"] if pushes else "closed") if moved == "s" else ""
    return MEANINGS[kind].get(letter + moved, "")


def _moved(problem, row, motion):
    """Which way the row has moved, if by more than rounding: the solver's own measure, its motion as a load over its scale."""
    size = abs(motion / numbers.to_float(problem.matrix[row][row])) / numbers.to_float(problem.scale[row])
    return "s" if size <= NOTHING else "u" if motion > 0 else "d" if motion < 0 else ""
