"""The load axis of a picture.

Places are reckoned as parts of the largest load or bound shown, never from differences of loads, so that the largest and the smallest f64
can be drawn without an overflow.
"""

from . import numbers

# A bound further out than this many times the largest load would press the loads together around zero; it is drawn as an arrow.
FURTHEST_BOUND = 4.0
MARGIN = 0.05
TICKS = 6


class Axis:
    """From the least to the greatest value shown, zero always among them. All numbers are given as bits."""

    def __init__(self, loads, bounds, scales, left, right):
        loads = [v for v in map(numbers.to_float, loads) if _finite(v)]
        bounds = [v for v in map(numbers.to_float, bounds) if _finite(v)]
        largest = max(map(abs, loads), default=0.0)
        within = [v for v in bounds if largest == 0 or abs(v) <= FURTHEST_BOUND * largest]
        values = loads + within
        if not any(values):
            scales = [v for v in map(numbers.to_float, scales) if _finite(v) and v > 0]
            values = [max(scales, default=1.0)]
        self.low, self.high = min(0.0, *values), max(0.0, *values)
        self.unit = max(-self.low, self.high)
        self.cut = any(self.outside(v) for v in bounds)
        self.left, self.right = left, right
        first, last = self.low / self.unit, self.high / self.unit
        span = last - first
        # Room beyond the values: for a mark at the end, and for the side of zero that nothing reaches.
        self.first = first - MARGIN * span
        self.span = span * (1 + 2 * MARGIN)

    def holds(self, value):
        return self.low <= value <= self.high

    def outside(self, value):
        """Whether a value is a finite one that the axis does not reach."""
        return _finite(value) and not self.holds(value)

    def place(self, value):
        return self.left + (value / self.unit - self.first) / self.span * (self.right - self.left)

    def ticks(self):
        """Place, label and whether it is zero, for round values across the axis."""
        digits, exponent = f"{self.unit:.17e}".split("e")
        mantissa, exponent = float(digits), int(exponent)
        step = next(s for s in (1, 2, 5, 10, 20, 50, 100) if s * TICKS >= self.span * mantissa * 10)
        values = {float(f"{k * step}e{exponent - 1}") for k in range(-TICKS, TICKS + 1)}
        found = []
        for value in sorted(values):
            # At the ends of the f64 range a round value may not exist, and the nearest f64 or an infinity stands in its place.
            x = self.place(value)
            if self.left <= x <= self.right:
                found.append((x, f"{value + 0.0:.6g}", value == 0))
        return found


def _finite(value):
    return value - value == 0
