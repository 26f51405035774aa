"""What the JSON and the CSV description have in common: a description as texts, turned into a problem.

Both readers hand over texts, so that a number means the same in both and a message can show what was written.
"""

from dataclasses import dataclass, field

from . import numbers
from .binary import label_bytes
from .problem import BadInput, Labels, Problem, check_size, is_name

KINDS = ("contact", "friction", "custom")
ROW_FIELDS = ("name", "kind", "lo", "hi", "bound", "scale", "start", "free_motion")
LABELS_BEFORE = "labels"


@dataclass
class Description:
    """A description whose shape is right and whose numbers are still texts."""

    rows: list
    matrix: list
    motion: list
    tolerance: str
    labels: Labels = field(default_factory=Labels)
    before_start: str = ""


def number(text, where):
    try:
        return numbers.parse(text)
    except ValueError as wrong:
        raise BadInput(f"{where}: {wrong}") from None


def name(text, where):
    if not is_name(text):
        raise BadInput(f"{where}: found {numbers.quoted(text)}; expected a text of one line, not empty, with no space around it")
    return text


def build(description):
    """The problem that a description means."""
    d = description
    check_size(len(d.rows), len(d.motion))
    names = [name(_field(row, i, "name"), f"row {i}, name") for i, row in enumerate(d.rows)]
    for i, this in enumerate(names):
        if this in names[:i]:
            raise BadInput(f"row {i}, name: {numbers.quoted(this)} is also the name of row {names.index(this)}; expected a name of its own")
    places = [f"row {i} ({numbers.quoted(n)})" for i, n in enumerate(names)]
    boxes = [_bounds(row, where) for row, where in zip(d.rows, places)]
    d.labels.names = names
    problem = Problem(
        matrix=_block(d.matrix, "matrix", len(names), len(names)),
        free_motion=[number(_field(row, where, "free_motion"), f"{where}, free_motion") for row, where in zip(d.rows, places)],
        lo=[lo for lo, _ in boxes],
        hi=[hi for _, hi in boxes],
        scale=[_scale(row, where, box) for row, where, box in zip(d.rows, places, boxes)],
        start=[number(row.get("start", "0"), f"{where}, start") for row, where in zip(d.rows, places)],
        motion=_block(d.motion, "motion", len(d.motion), len(names)),
        tolerance=number(d.tolerance, "tolerance"),
        labels=d.labels,
    )
    problem.before = _before(d)
    return problem


def _field(row, where, key):
    if key not in row:
        where = f"row {where}" if isinstance(where, int) else where
        raise BadInput(f"{where}, {key}: missing; a row needs name, kind, scale and free_motion")
    return row[key]


def _bounds(row, where):
    """A row's bounds by its kind. A bound that the kind already says may be repeated, and must then agree."""
    kind = _field(row, where, "kind")
    if kind not in KINDS:
        raise BadInput(f"{where}, kind: found {numbers.quoted(kind)}; expected contact (0 to inf), friction (-bound to bound) or custom (lo to hi)")
    given = {key: number(row[key], f"{where}, {key}") for key in ("lo", "hi", "bound") if key in row}
    if "bound" in given and kind != "friction":
        raise BadInput(f"{where}, bound: a {kind} row has none; expected lo and hi, or kind friction")
    if kind == "contact":
        implied = (numbers.ZERO, numbers.PLUS_INFINITY)
    elif kind == "friction":
        implied = _friction_bounds(given, where)
    else:
        for key in ("lo", "hi"):
            if key not in given:
                raise BadInput(f"{where}, {key}: missing; a custom row needs lo and hi")
        return given["lo"], given["hi"]
    for key, bits in zip(("lo", "hi"), implied):
        if given.get(key, bits) != bits:
            found, wanted = numbers.exact(given[key]), numbers.exact(bits)
            raise BadInput(f"{where}, {key}: found {found}; a {kind} row has {wanted} here; expected that, or kind custom")
    return implied


def _friction_bounds(given, where):
    """From -bound to bound; hi says the bound where none is written."""
    key = "bound" if "bound" in given else "hi"
    if key not in given:
        raise BadInput(f"{where}, bound: missing; a friction row needs the largest load it can hold")
    bits = given[key]
    if not numbers.is_finite(bits) or bits & numbers.SIGN:
        raise BadInput(f"{where}, {key}: found {numbers.exact(bits)}; expected a finite number not below 0, the largest load the friction can hold")
    return bits | numbers.SIGN, bits


def _scale(row, where, box):
    """A friction row's scale is its bound unless something else is written, as in the original."""
    if "scale" not in row and row["kind"] == "friction":
        return box[1]
    return number(_field(row, where, "scale"), f"{where}, scale")


def _block(lines, what, many, width):
    """A block of numbers, `many` lines of `width`."""
    if len(lines) != many:
        raise BadInput(f"{what}: found {len(lines)} lines; expected {many}, one per row")
    for i, line in enumerate(lines):
        if len(line) != width:
            raise BadInput(f"{what}, line {i}: found {len(line)} values; expected {width}, one per row")
    return [[number(text, f"{what}, line {i}, value {j}") for j, text in enumerate(line)] for i, line in enumerate(lines)]


def mirrored(lines):
    """The symmetric matrix of a lower triangle by rows: entry (i, j) with j above i is entry (j, i)."""
    for i, line in enumerate(lines):
        if len(line) != i + 1:
            raise BadInput(f"triangle, line {i}: found {len(line)} values; expected {i + 1}, up to the row's own entry")
    return [line + [below[i] for below in lines[i + 1 :]] for i, line in enumerate(lines)]


def _before(description):
    """The bytes before the numbers that a description asks for."""
    text = description.before_start
    if text == LABELS_BEFORE:
        return label_bytes(description.labels)
    if text.startswith("hex:"):
        try:
            return bytes.fromhex(text[4:])
        except ValueError:
            raise BadInput(f"before_start: {numbers.quoted(text)} has a character that is no hexadecimal digit, or an odd number of digits") from None
    if text:
        raise BadInput(f'before_start: found {numbers.quoted(text)}; expected "labels" or "hex:" and the bytes in hexadecimal digits')
    return b""


def texts(problem):
    """The description of a problem: what `build` turns back into the same problem."""
    rows = []
    for i in range(problem.rows):
        kind = problem.kind(i)
        row = {"name": problem.name(i), "kind": kind}
        if kind == "friction":
            row["bound"] = numbers.exact(problem.hi[i])
        elif kind == "custom":
            row["lo"], row["hi"] = numbers.exact(problem.lo[i]), numbers.exact(problem.hi[i])
        row["scale"] = numbers.exact(problem.scale[i])
        row["start"] = numbers.exact(problem.start[i])
        row["free_motion"] = numbers.exact(problem.free_motion[i])
        rows.append(row)
    labels = problem.labels
    # A coordinate that is named as one without a name would be counts as unnamed: the CSV form cannot tell the two apart.
    default = [f"coordinate {i}" for i in range(len(problem.motion))]
    coordinates = [] if labels.coordinates == default else labels.coordinates
    shown = Labels(labels.title, labels.load_unit, labels.motion_unit, [r["name"] for r in rows], coordinates)
    before = "hex:" + problem.before.hex() if problem.before else ""
    if problem.before == label_bytes(shown):
        before = LABELS_BEFORE
    exact = [[numbers.exact(v) for v in line] for line in problem.matrix]
    motion = [[numbers.exact(v) for v in line] for line in problem.motion]
    return Description(rows, exact, motion, numbers.exact(problem.tolerance), shown, before)
