"""Row sums without rounding, in Python's whole numbers of any size.

Every finite f64 is a whole number of 2^-1074, so a product of two is a whole number of 2^-2148, the unit here. A row's motion,
u_free + W nu, is then a sum of whole numbers, and only the f64 that is shown at the end is rounded.
"""

from . import numbers
from .problem import BadInput

# The last digit of an f64 is 2^-LAST, that of a product 2^-(2 LAST).
LAST = 1074
HIDDEN = 1 << 52


def units(bits):
    """A finite f64 as a whole number of 2^-1074."""
    exponent, digits = (bits & ~numbers.SIGN) >> 52, bits & (HIDDEN - 1)
    size = (digits | HIDDEN) << (exponent - 1) if exponent else digits
    return -size if bits & numbers.SIGN else size


def row_sum(free, entries, loads):
    """A row's motion in units of 2^-2148. No number stands for a NaN or an infinity, and the library refuses them with 17."""
    for what, values in (("free motion", [free]), ("entry of the matrix", entries), ("load", loads)):
        for i, bits in enumerate(values):
            if not numbers.is_finite(bits):
                which = what if what == "free motion" else f"{what} {i}"
                raise BadInput(f"its {which} is {numbers.exact(bits)}; expected finite numbers (refused 17)")
    return (units(free) << LAST) + sum(units(entry) * units(load) for entry, load in zip(entries, loads))


def row_sums(problem, answer):
    """Each row's motion left in units of 2^-2148, or a text that says why there is none."""
    found = []
    for free, entries in zip(problem.free_motion, problem.matrix):
        try:
            found.append(row_sum(free, entries, answer.loads))
        except BadInput as wrong:
            found.append(str(wrong))
    return found


def nearest(sum_):
    """The bits of the f64 nearest to a number of units, ties to even. A result of zero is +0, and one too large an infinity."""
    size = abs(sum_)
    # Digits that no f64 of this size has; those below 2^-1074 are never there.
    dropped = max(size.bit_length() - 53, LAST)
    kept, rest = size >> dropped, size & ((1 << dropped) - 1)
    half = 1 << (dropped - 1)
    if rest > half or (rest == half and kept & 1):
        kept += 1
    # The hidden digit of `kept` adds 1 to the exponent's place, and a carry out of 53 digits one more, as the pattern wants it.
    bits = min(kept + ((dropped - LAST) << 52), numbers.PLUS_INFINITY)
    return bits | numbers.SIGN if sum_ < 0 and bits else bits


def off_by(sum_, rounded):
    """How far the exact sum is from a rounded one, as the nearest f64; None where the rounded one is no number."""
    return nearest(sum_ - (units(rounded) << LAST)) if numbers.is_finite(rounded) else None
