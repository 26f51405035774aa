"""Piskorlu from Python: box-bounded pad loads. Standard library alone.

The calls are those of include/piskorlu.h, with lists of numbers in and records out; docs/SPECIFICATION.md defines every answer. The
shared object is made once by bindings/python/build.sh. It is looked for at the path that PISKORLU_LIBRARY names, else beside this file,
else as target/python/libpiskorlu.so of the repository.

    import piskorlu

    answer = piskorlu.solve(w=[[2, 1], [1, 2]], u_free=[-3, 1], lo=[0, 0], hi=[math.inf, math.inf], scale=[1, 1])
    if answer.usable():
        print(answer.nu)

A call that cannot be taken raises Refused, which has the number and its meaning.
"""

import ctypes
import math
import os
from array import array
from dataclasses import dataclass, field, replace
from enum import Enum, IntEnum

__all__ = [
    "Answer",
    "Cause",
    "ExactSum",
    "LeastNorm",
    "Refused",
    "Report",
    "State",
    "bend",
    "environment_ok",
    "least_norm",
    "solve",
    "solve_triangle",
    "sqrt",
    "tallied",
    "tallied_triangle",
    "VERSION",
]

VERSION = "3.0.5"

MOST = 32
SOLVE_WORKSPACE = 2304
LEAST_NORM_WORKSPACE = 1056
SOLVE_COUNTS = 8
BEND_ROOM = 2048
EXACT_WORDS = 67

NUMBERS = {
    1: "bend file: too few or too many bytes, or a link of 1 to 15",
    2: "bend file: its last four bytes are not the mark",
    3: "bend file: more than 32 rows or 2,048 motion values",
    4: "bend file: count or length does not fit",
    5: "solve: more than 32 rows or 2,048 motion values",
    6: "solve: w is not n by n",
    7: "solve: lo, hi, scale or nu has not one value for each row",
    8: "solve: a scale that is not finite and above 0",
    9: "solve: motion is no whole number of rows",
    10: "a buffer that was lent is too short",
    11: "tallied solve: the tally might not hold one solve more",
    12: "least norm: lengths that do not agree, or too large or too small",
    13: "joins: a count's sum too large, or a buffer too short",
    14: "chained bend file: no link before a step's numbers, or one too high",
    15: "chained bend file: more than 40 steps, or none to write",
    16: "triangle solve: the lower triangle has not n(n + 1)/2 values",
    17: "exact sum: a value that is NaN or infinite",
    18: "exact sum: more than 32 products, or a second free motion",
}


class Refused(ValueError):
    """A call that cannot be taken; `number` says why."""

    def __init__(self, number):
        super().__init__(f"refused {number}: {NUMBERS.get(number, 'not a number of this library')}")
        self.number = number


class State(IntEnum):
    """Where a row stands."""

    INSIDE = 0
    AT_LO = 1
    AT_HI = 2
    IDLE = 3


class Cause(Enum):
    """How an infeasible answer was found."""

    GROWTH = 1
    PASS = 2
    SWEEP = 3


@dataclass(frozen=True)
class Report:
    """What one or many solves report, joined. Report() is that of no solve."""

    increments: int = 0
    iterations: int = 0
    most_iterations: int = 0
    rejected: int = 0
    anchors: int = 0
    sweeps: int = 0
    exact_passes: int = 0
    converged: bool = True
    exact: bool = True
    residual: float = 0.0
    stopped: int = 0

    def both(self, other):
        """This report and another, as one procedure's: `and`."""
        return _joined(_library().piskorlu_and, self, other)

    def continued(self, other):
        """One increment begun as this reports and gone on as the other reports."""
        return _joined(_library().piskorlu_continued, self, other)


@dataclass(frozen=True)
class Answer:
    """What a solve answers. `cause` and `rows` are those of an infeasible answer; a solved one has None and no rows."""

    cause: Cause
    rows: list
    nu: list
    states: list
    sweeps: int
    exact_passes: int
    converged: bool
    exact: bool
    idle: int
    residual: float
    stopped: int

    @property
    def solved(self):
        return self.cause is None

    def usable(self, most_residual=1e-9):
        """Whether nu may be used as loads: solved, converged, a small residual, and every multiplier finite."""
        return self.solved and self.converged and self.residual <= most_residual and all(map(math.isfinite, self.nu))


@dataclass(frozen=True)
class LeastNorm:
    """The solution of least norm, the rank, and what the decomposition left in a (by rows) and b."""

    x: list
    rank: int
    a: list = field(repr=False)
    b: list = field(repr=False)


# ---- the library

_DOUBLES = ctypes.POINTER(ctypes.c_double)
_COUNTS = ctypes.POINTER(ctypes.c_uint32)
_SIZES = ctypes.POINTER(ctypes.c_size_t)
_BYTES = ctypes.POINTER(ctypes.c_uint8)
_WORDS = ctypes.POINTER(ctypes.c_uint64)
_SIGNS = ctypes.POINTER(ctypes.c_int8)
_SIZE = ctypes.c_size_t
_DOUBLE = ctypes.c_double

_SOLVE = [_DOUBLES, _SIZE] * 6 + [_DOUBLE] + [_DOUBLES, _SIZE, _BYTES, _SIZE, _SIZES, _SIZE, _DOUBLES, _SIZE, _SIZES, _SIZE, _DOUBLES, _SIZE]
_JOIN = [_COUNTS, _SIZE, _DOUBLE, _COUNTS, _SIZE, _DOUBLE, _COUNTS, _SIZE, _DOUBLES, _SIZE]
_LEAST_NORM = [_DOUBLES, _SIZE, _SIZE, _SIZE, _DOUBLES, _SIZE, _DOUBLES, _SIZE, _DOUBLES, _SIZE, _COUNTS, _SIZE]

_ACCUMULATOR = [_WORDS, _SIZE, _COUNTS, _SIZE]

_CALLS = {
    "piskorlu_sqrt": ([_DOUBLE], _DOUBLE),
    "piskorlu_least_norm": (_LEAST_NORM, ctypes.c_uint32),
    "piskorlu_solve": (_SOLVE, ctypes.c_uint32),
    "piskorlu_solve_triangle": (_SOLVE, ctypes.c_uint32),
    "piskorlu_and": (_JOIN, ctypes.c_uint32),
    "piskorlu_continued": (_JOIN, ctypes.c_uint32),
    "piskorlu_tallied": ([_COUNTS, _SIZE, _DOUBLES, _SIZE] + _SOLVE, ctypes.c_uint32),
    "piskorlu_tallied_triangle": ([_COUNTS, _SIZE, _DOUBLES, _SIZE] + _SOLVE, ctypes.c_uint32),
    "piskorlu_bend": ([_BYTES, _SIZE, _BYTES, _SIZE], _SIZE),
    "piskorlu_exact_free": ([_DOUBLE] + _ACCUMULATOR, ctypes.c_uint32),
    "piskorlu_exact_product": ([_DOUBLE, _DOUBLE] + _ACCUMULATOR, ctypes.c_uint32),
    "piskorlu_exact_row": ([_DOUBLE, _DOUBLES, _SIZE, _DOUBLES, _SIZE] + _ACCUMULATOR, ctypes.c_uint32),
    "piskorlu_exact_join": (_ACCUMULATOR + _ACCUMULATOR, ctypes.c_uint32),
    "piskorlu_exact_sign": ([_WORDS, _SIZE, _SIGNS, _SIZE], ctypes.c_uint32),
    "piskorlu_exact_nearest": ([_WORDS, _SIZE, _DOUBLES, _SIZE], ctypes.c_uint32),
}

_loaded = None


def _places():
    here = os.path.dirname(os.path.abspath(__file__))
    named = os.environ.get("PISKORLU_LIBRARY")
    if named:
        return [named]
    return [os.path.join(here, "libpiskorlu.so"), os.path.join(here, "..", "..", "target", "python", "libpiskorlu.so")]


def _library():
    """The shared object, loaded at the first call."""
    global _loaded
    if _loaded is None:
        places = _places()
        path = next((p for p in places if os.path.exists(p)), None)
        if path is None:
            raise OSError(f"libpiskorlu.so is not there (looked for {', '.join(places)}); bindings/python/build.sh makes it")
        library = ctypes.CDLL(path)
        for name, (arguments, result) in _CALLS.items():
            getattr(library, name).argtypes = arguments
            getattr(library, name).restype = result
        _loaded = library
    return _loaded


def _doubles(values):
    """A new buffer of these numbers."""
    values = array("d", values)
    return (ctypes.c_double * len(values)).from_buffer(values)


def _lent(*buffers):
    """Each buffer as C takes it: a pointer and a length."""
    for buffer in buffers:
        yield from (ctypes.cast(buffer, ctypes.POINTER(buffer._type_)), len(buffer))


def _flat(matrix, n, number):
    """Rows of n values each as one list; a flat list stays as it is. Rows of other lengths are refused with the number, and not taken for a flat list."""
    rows = list(matrix)
    if not any(hasattr(row, "__len__") for row in rows):
        return rows
    if not all(hasattr(row, "__len__") and len(row) == n for row in rows):
        raise Refused(number)
    return [v for row in rows for v in row]


def _lower(triangle):
    """The lines of a lower triangle as one list, line i with i + 1 values; a flat list stays as it is."""
    lines = list(triangle)
    if not any(hasattr(line, "__len__") for line in lines):
        return lines
    if not all(hasattr(line, "__len__") and len(line) == i + 1 for i, line in enumerate(lines)):
        raise Refused(16)
    return [v for line in lines for v in line]


# ---- the calls


def sqrt(v):
    """The square root, rounded to nearest; NaN for a negative number."""
    return _library().piskorlu_sqrt(v)


def least_norm(a, b):
    """The x of least norm among those that minimize |A x - b|. `a` is a list of rows of one length."""
    rows = [list(row) for row in a]
    m, n = len(rows), len(rows[0]) if rows else 0
    left, side, x, workspace = _doubles(_flat(rows, n, 12)), _doubles(b), _doubles([0.0] * n), _doubles([0.0] * LEAST_NORM_WORKSPACE)
    rank = (ctypes.c_uint32 * 1)()
    pointer, length = _lent(left)
    number = _library().piskorlu_least_norm(pointer, length, m, n, *_lent(side, x, workspace, rank))
    if number:
        raise Refused(number)
    return LeastNorm(list(x), rank[0], list(left), list(side))


def _solve(call, before, matrix, u_free, lo, hi, scale, nu, motion, tolerance):
    u_free = list(u_free)
    n = len(u_free)
    multipliers = _doubles([0.0] * n if nu is None else nu)
    states, rows = (ctypes.c_uint8 * n)(), (ctypes.c_size_t * n)()
    counts, residual = (ctypes.c_size_t * SOLVE_COUNTS)(), (ctypes.c_double * 1)()
    given = [_doubles(v) for v in (matrix(n), u_free, lo, hi, scale, _flat(motion, n, 9))]
    workspace = _doubles([0.0] * SOLVE_WORKSPACE)
    number = call(*before, *_lent(*given), tolerance, *_lent(multipliers, states, rows, workspace, counts, residual))
    if number:
        raise Refused(number)
    outcome, sweeps, passes, converged, exact, idle, listed, stopped = counts
    return Answer(
        cause=Cause(outcome) if outcome else None,
        rows=list(rows[:listed]),
        nu=list(multipliers),
        states=[State(s) for s in states],
        sweeps=sweeps,
        exact_passes=passes,
        converged=bool(converged),
        exact=bool(exact),
        idle=idle,
        residual=residual[0],
        stopped=stopped,
    )


def solve(w, u_free, lo, hi, scale, nu=None, motion=(), tolerance=0.0):
    """The multipliers for which W nu + u_free is the motion at each row. `w` and `motion` are lists of rows, or flat; `nu` is where to start."""
    return _solve(_library().piskorlu_solve, (), lambda n: _flat(w, n, 6), u_free, lo, hi, scale, nu, motion, tolerance)


def solve_triangle(t, u_free, lo, hi, scale, nu=None, motion=(), tolerance=0.0):
    """`solve` of the symmetric matrix whose lower triangle is `t`: lines with 1, 2, .. n values, each up to its row's own entry, or these as one list."""
    return _solve(_library().piskorlu_solve_triangle, (), lambda n: _lower(t), u_free, lo, hi, scale, nu, motion, tolerance)


def tallied(tally, w, u_free, lo, hi, scale, nu=None, motion=(), tolerance=0.0):
    """A solve, and the tally joined with its report: (answer, tally). Begin with Report()."""
    return _tallied(_library().piskorlu_tallied, tally, lambda n: _flat(w, n, 6), u_free, lo, hi, scale, nu, motion, tolerance)


def tallied_triangle(tally, t, u_free, lo, hi, scale, nu=None, motion=(), tolerance=0.0):
    """`tallied` of the symmetric matrix whose lower triangle is `t`, as `solve_triangle` takes it."""
    return _tallied(_library().piskorlu_tallied_triangle, tally, lambda n: _lower(t), u_free, lo, hi, scale, nu, motion, tolerance)


def _tallied(call, tally, *given):
    counts, residual = _report(tally)
    answer = _solve(call, tuple(_lent(counts, residual)), *given)
    return answer, _read(counts, residual[0])


def bend(file):
    """The lines, as bytes, that bendsolve writes for a bend file's bytes."""
    given = (ctypes.c_uint8 * len(file)).from_buffer_copy(file) if len(file) else (ctypes.c_uint8 * 0)()
    out = (ctypes.c_uint8 * BEND_ROOM)()
    length = _library().piskorlu_bend(*_lent(given, out))
    return bytes(out[:length])


# ---- reports

_FIELDS = ("increments", "iterations", "most_iterations", "rejected", "anchors", "sweeps", "exact_passes", "converged", "exact", "stopped")


def _report(report):
    values = [int(getattr(report, name)) for name in _FIELDS]
    if not all(0 <= v <= 0xFFFFFFFF for v in values):
        raise Refused(13)
    return (ctypes.c_uint32 * len(_FIELDS))(*values), (ctypes.c_double * 1)(report.residual)


def _read(counts, residual):
    report = Report(**dict(zip(_FIELDS, counts)), residual=residual)
    return replace(report, converged=bool(report.converged), exact=bool(report.exact))


def _joined(call, a, b):
    (counts_a, residual_a), (counts_b, residual_b) = _report(a), _report(b)
    counts, residual = _report(Report())
    number = call(*_lent(counts_a), residual_a[0], *_lent(counts_b), residual_b[0], *_lent(counts, residual))
    if number:
        raise Refused(number)
    return _read(counts, residual[0])


# ---- row sums without rounding


class ExactSum:
    """A free motion and up to 32 products W_ij * nu_j, added without rounding. Any order and grouping of the same terms, added or joined,
    gives the same sum. What is refused changes nothing."""

    def __init__(self):
        self._words, self._counts = (ctypes.c_uint64 * EXACT_WORDS)(), (ctypes.c_uint32 * 2)()

    def _add(self, call, *given):
        number = call(*given, *_lent(self._words, self._counts))
        if number:
            raise Refused(number)

    @classmethod
    def row(cls, u, w, nu):
        """A whole row: u, and the products of w and nu over the shorter of the two."""
        self = cls()
        self._add(_library().piskorlu_exact_row, u, *_lent(_doubles(w), _doubles(nu)))
        return self

    def add_free(self, u):
        """Adds a free motion."""
        self._add(_library().piskorlu_exact_free, u)

    def add_product(self, w, nu):
        """Adds a product."""
        self._add(_library().piskorlu_exact_product, w, nu)

    def copy(self):
        """The same sum, with words of its own."""
        other = ExactSum()
        other._words[:], other._counts[:] = self._words[:], self._counts[:]
        return other

    def join(self, other):
        """Joins another sum to this one, which receives the total."""
        if other is self:
            other = self.copy()  # the library's buffers may not overlap
        number = _library().piskorlu_exact_join(*_lent(self._words, self._counts, other._words, other._counts))
        if number:
            raise Refused(number)

    @property
    def sign(self):
        """The sign of the sum: -1, 0 or 1."""
        sign = (ctypes.c_int8 * 1)()
        _library().piskorlu_exact_sign(*_lent(self._words, sign))
        return sign[0]

    @property
    def nearest(self):
        """The float nearest to the sum."""
        result = (ctypes.c_double * 1)()
        _library().piskorlu_exact_nearest(*_lent(self._words, result))
        return result[0]

    @property
    def words(self):
        """The sum in units of 2^-2148, two's complement, the lowest word first."""
        return list(self._words)

    @property
    def products(self):
        """How many products it holds."""
        return self._counts[0]

    @property
    def has_free(self):
        """Whether it holds a free motion."""
        return self._counts[1] != 0

    def __eq__(self, other):
        if not isinstance(other, ExactSum):
            return NotImplemented
        return (self.words, self.products, self.has_free) == (other.words, other.products, other.has_free)

    __hash__ = None


def environment_ok():
    """Whether this thread's floating-point operations are those that the proofs are about (see piskorlu.h)."""
    eps, least = 2.0**-52, 2.0**-1022
    one = float("1")
    return one + eps / 2 == one and one + eps * 0.75 == one + eps and least / 2 * 2 == least
