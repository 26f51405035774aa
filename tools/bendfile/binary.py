"""The bend file itself: bytes to a problem and back, as document 01 defines them."""

import json
import struct

from .problem import LARGEST_FILE, MOST_MOTION, MOST_ROWS, TRAILER, BadInput, Labels, Problem, check_size, is_name

MARK = b"BEND"
LABELS_MARK = b"bend labels 1\n"


def encode(problem):
    """The whole file."""
    check_size(problem.rows, len(problem.motion))
    values = [v for row in problem.matrix for v in row]
    for part in (problem.free_motion, problem.lo, problem.hi, problem.scale, problem.start, *problem.motion):
        values += part
    values.append(problem.tolerance)
    start = len(problem.before)
    length = start + 8 * len(values) + TRAILER
    if length > LARGEST_FILE:
        room = LARGEST_FILE - (length - start)
        raise BadInput(f"before_start: {start} bytes make a file of {length}; expected at most {LARGEST_FILE} in all, so at most {room} here")
    trailer = struct.pack("<IHHI", start, problem.rows, len(problem.motion), len(values)) + MARK
    return problem.before + struct.pack(f"<{len(values)}Q", *values) + trailer


def trailer(data, end):
    """Start, rows, coordinates and count of the trailer that ends at `end`: 2, 3 and the count rule of 4, in this order."""
    start, rows, coordinates, count = struct.unpack("<IHHI", data[end - TRAILER : end - 4])
    mark = data[end - 4 : end]
    if mark != MARK:
        raise BadInput(f"mark: the last four bytes are {mark.hex(' ').upper()}; expected 42 45 4E 44 (refused 2)")
    if rows > MOST_ROWS or rows * coordinates > MOST_MOTION:
        raise BadInput(
            f"trailer: found {rows} rows and {coordinates} coordinates, {rows * coordinates} motion values; "
            f"expected at most {MOST_ROWS} rows and {MOST_MOTION} motion values (refused 3)"
        )
    wanted = rows * rows + 5 * rows + coordinates * rows + 1
    if count != wanted:
        raise BadInput(f"count: found {count}; {rows} rows and {coordinates} coordinates make {wanted} (refused 4)")
    return start, rows, coordinates, count


def decode(data):
    """The problem in a file. A file that bendsolve refuses is refused here for the same reason, with the same number."""
    if not TRAILER <= len(data) <= LARGEST_FILE:
        found = f"over {LARGEST_FILE} bytes" if len(data) > LARGEST_FILE else f"{len(data)} bytes"
        raise BadInput(f"length: found {found}; expected {TRAILER} to {LARGEST_FILE} (refused 1)")
    start, rows, coordinates, count = trailer(data, len(data))
    if start + 8 * count + TRAILER != len(data):
        raise BadInput(f"length: start {start} and count {count} make {start + 8 * count + TRAILER} bytes; the file has {len(data)} (refused 4)")
    return _split(struct.unpack(f"<{count}Q", data[start:-TRAILER]), rows, coordinates, data[:start])


def _split(values, rows, coordinates, before):
    """The numbers in document 01's order, cut into their parts."""
    at = 0

    def take(many):
        nonlocal at
        at += many
        return list(values[at - many : at])

    matrix = [take(rows) for _ in range(rows)]
    free_motion, lo, hi, scale, start = (take(rows) for _ in range(5))
    motion = [take(rows) for _ in range(coordinates)]
    labels = read_labels(before, rows, coordinates)
    return Problem(matrix, free_motion, lo, hi, scale, start, motion, take(1)[0], labels or Labels(), before)


def label_bytes(labels):
    """The labels as bytes to put before the numbers, where document 01 leaves the bytes free. bendsolve does not read them."""
    record = {
        "title": labels.title,
        "load_unit": labels.load_unit,
        "motion_unit": labels.motion_unit,
        "names": labels.names,
        "coordinates": labels.coordinates,
    }
    return LABELS_MARK + json.dumps(record, sort_keys=True, separators=(",", ":")).encode("ascii")


def read_labels(before, rows, coordinates):
    """The labels in the bytes before the numbers, or None: those bytes are free, so whatever is not exactly labels is left alone.

    A chain of one step is a bend file whose free bytes end with the link, 0."""
    before = before.removesuffix(bytes(4))
    if not before.startswith(LABELS_MARK):
        return None
    try:
        record = json.loads(before[len(LABELS_MARK) :].decode("ascii"))
        labels = Labels(**record)
    except (ValueError, TypeError, RecursionError):
        return None
    texts = (labels.title, labels.load_unit, labels.motion_unit)
    lists = ((labels.names, rows), (labels.coordinates, coordinates))
    if not all(t == "" or is_name(t) for t in texts):
        return None
    if not all(isinstance(part, list) and len(part) in (0, many) and all(map(is_name, part)) for part, many in lists):
        return None
    return labels if len(set(labels.names)) == len(labels.names) else None
