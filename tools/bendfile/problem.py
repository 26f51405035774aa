"""One load step: the record that every form is read into and written from."""

from dataclasses import dataclass, field

from . import numbers

MOST_ROWS = 32
MOST_MOTION = 2048
MOST_COORDINATES = 65535
LARGEST_FILE = 65536
TRAILER = 16


class BadInput(Exception):
    """Input that cannot be taken. Its text says which field, what is wrong and what is expected; `main` puts the file's name in front."""


@dataclass
class Labels:
    """What a bend file has no numbers for. Empty texts and lists where nothing is known."""

    title: str = ""
    load_unit: str = ""
    motion_unit: str = ""
    names: list = field(default_factory=list)
    coordinates: list = field(default_factory=list)


@dataclass
class Problem:
    """Document 01's problem, each number as its bits; `before` is the bytes in front of the numbers."""

    matrix: list
    free_motion: list
    lo: list
    hi: list
    scale: list
    start: list
    motion: list
    tolerance: int
    labels: Labels = field(default_factory=Labels)
    before: bytes = b""

    @property
    def rows(self):
        return len(self.free_motion)

    def name(self, row):
        return self.labels.names[row] if self.labels.names else f"row {row}"

    def coordinate(self, index):
        return self.labels.coordinates[index] if self.labels.coordinates else f"coordinate {index}"

    def kind(self, row):
        """How a description writes this row's bounds; the bounds alone decide it, since a bend file has no kinds."""
        lo, hi = self.lo[row], self.hi[row]
        if lo == numbers.ZERO and hi == numbers.PLUS_INFINITY:
            return "contact"
        if hi < numbers.PLUS_INFINITY and lo == hi | numbers.SIGN:
            return "friction"
        return "custom"

    def idle(self, row):
        """Whether the row cannot act: document 01's rule."""
        diagonal = numbers.to_float(self.matrix[row][row])
        return not diagonal > 0


def is_name(value):
    """Whether a value can stand in a table, a CSV cell and a picture as it is: one line that can be printed, with no space around it."""
    return isinstance(value, str) and value != "" and value.isprintable() and value == value.strip()


def check_size(rows, coordinates):
    """Document 01's number 3, and what the trailer's 16 bits can hold."""
    if rows > MOST_ROWS:
        raise BadInput(f"rows: found {rows}; expected at most {MOST_ROWS}")
    if rows * coordinates > MOST_MOTION:
        raise BadInput(f"motion: {coordinates} coordinates of {rows} values are {rows * coordinates} values; expected at most {MOST_MOTION}")
    if coordinates > MOST_COORDINATES:
        raise BadInput(f"motion: found {coordinates} coordinates; expected at most {MOST_COORDINATES}")


def check_scales(problem):
    """Document 01's number 8, before the solver says it."""
    for row, bits in enumerate(problem.scale):
        if not numbers.is_finite(bits) or not numbers.to_float(bits) > 0:
            raise BadInput(
                f"{place(problem, row)}, scale: found {numbers.exact(bits)}; expected a finite number above 0 "
                "(the solver refuses any other, number 8; --any-scale writes it all the same)"
            )


def place(problem, row):
    """How a message names a row."""
    return f"row {row} ({numbers.quoted(problem.name(row))})" if problem.labels.names else f"row {row}"
