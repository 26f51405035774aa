"""A whole pull in one file: document 02's chained bend file.

The four bytes before a step's numbers are its link: the offset at which the previous step's trailer ends, 0 for the first step. A step is the
part of the file from the linked offset to its own end, and its start and its length count from there. What lies before the link is free.

Without its link a step is a bend file of its own. Such files are what is handed out here and taken in, so that a pull that is put together and
cut apart again gives back its files byte for byte.
"""

import struct
from dataclasses import dataclass

from . import binary
from .problem import LARGEST_FILE, TRAILER, BadInput

MOST_STEPS = 40
LARGEST_PULL = 1 << 20
LINK = 4


@dataclass
class Step:
    """Where a step lies: its part of the file begins at the linked offset, its numbers at `numbers`, and it ends at `end`."""

    linked: int
    numbers: int
    end: int

    @property
    def free(self):
        """How many bytes before the link are free."""
        return self.numbers - LINK - self.linked


def steps(data):
    """The steps of a chained file, oldest first. They are read newest first, and a refusal at any step is the whole file's."""
    found, end = [], len(data)
    while not found or end != 0:
        found.append(_named(len(found), end, _step, data, end, len(found)))
        end = found[-1].linked
    return found[::-1]


def _named(newer, end, call, *arguments):
    """Calls with the step in front of what goes wrong."""
    try:
        return call(*arguments)
    except BadInput as wrong:
        where = f"step {newer + 1} counted from the newest, which ends at byte {end}" if newer else "the newest step"
        raise BadInput(f"{where}: {wrong}") from None


def _step(data, end, newer):
    """The step that ends at `end`, with `newer` steps read before it: 15, 1, 2, 3, 4 by its count, 14, and 4 by its length."""
    if newer == MOST_STEPS:
        raise BadInput(f"there are {MOST_STEPS} newer ones; expected at most {MOST_STEPS} steps in a pull (refused 15)")
    if not TRAILER <= end <= LARGEST_PULL:
        found = f"over {LARGEST_PULL} bytes" if end > LARGEST_PULL else f"{end} bytes"
        raise BadInput(f"length: found {found}; expected {TRAILER} to {LARGEST_PULL} (refused 1)")
    start, _, _, count = binary.trailer(data, end)
    numbers = end - TRAILER - 8 * count
    linked = _link(data, numbers, count)
    if start + 8 * count + TRAILER != end - linked:
        made = f"start {start} and count {count} make {start + 8 * count + TRAILER} bytes"
        raise BadInput(f"length: {made}; from the linked offset {linked} to {end} there are {end - linked} (refused 4)")
    return Step(linked, numbers, end)


def _link(data, numbers, count):
    """The link before the numbers, refused with 14 where there is none or where it points past itself."""
    own = numbers - LINK
    if own < 0:
        raise BadInput(f"link: count {count} leaves {max(numbers, 0)} bytes before the numbers; expected at least {LINK} (refused 14)")
    (linked,) = struct.unpack_from("<I", data, own)
    if linked > own:
        raise BadInput(f"link: found {linked}; expected at most {own}, its own offset (refused 14)")
    return linked


def cut(data, free=True):
    """The steps as bend files, oldest first, each without its link. `free` says whether the free bytes go along."""
    return [_alone(data, step, number, free) for number, step in enumerate(steps(data), 1)]


def _alone(data, step, number, free):
    before = data[step.linked : step.numbers - LINK] if free else b""
    made = before + data[step.numbers : step.end - TRAILER] + struct.pack("<I", len(before)) + data[step.end - TRAILER + 4 : step.end]
    if len(made) > LARGEST_FILE:
        raise BadInput(
            f"step {number}: its {step.free} free bytes make a bend file of {len(made)} bytes; "
            f"expected at most {LARGEST_FILE} (--no-free leaves free bytes out)"
        )
    return made


def joined(files, free=True):
    """The chained file of bend files that were read before, oldest first."""
    check_number(len(files))
    made = b""
    for data in files:
        start, _, _, _ = binary.trailer(data, len(data))
        before = data[:start] if free else b""
        link = struct.pack("<I", len(made))
        made += before + link + data[start:-TRAILER] + struct.pack("<I", len(before) + LINK) + data[-TRAILER + 4 :]
    if len(made) > LARGEST_PULL:
        raise BadInput(f"the pull has {len(made)} bytes; expected at most {LARGEST_PULL} (--no-free leaves free bytes out)")
    return made


def check_number(many):
    """15, which is told before anything of the steps."""
    if not 1 <= many <= MOST_STEPS:
        raise BadInput(f"found {many} steps; expected 1 to {MOST_STEPS} in a pull (refused 15)")
