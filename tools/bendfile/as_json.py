"""The JSON description."""

import json

from . import numbers
from .describe import ROW_FIELDS, Description, mirrored, name
from .problem import BadInput, Labels

TOP_FIELDS = ("title", "note", "units", "rows", "matrix", "triangle", "motion", "tolerance", "before_start")

# What `matrix` says where the matrix is symmetric and its lower triangle stands in `triangle`.
LOWER = "lower"
UNIT_FIELDS = ("load", "motion")
MOTION_FIELDS = ("coordinate", "values")


class Literal(str):
    """A number as it stands in the JSON text. Read as a float it would lose the sign of -0 and turn 1e999 into an infinity unseen."""


def read(data):
    """The description in the bytes of a JSON file."""
    try:
        text = data.decode("utf-8-sig")
        top = json.loads(text, parse_float=Literal, parse_int=Literal, parse_constant=Literal, object_pairs_hook=_object)
    except UnicodeDecodeError as wrong:
        raise BadInput(f"byte {wrong.start} is not UTF-8; expected JSON text in UTF-8") from None
    except json.JSONDecodeError as wrong:
        raise BadInput(f"line {wrong.lineno}, column {wrong.colno}: not JSON: {wrong.msg}") from None
    except RecursionError:
        raise BadInput("not a description: lists or objects nested too deeply") from None
    _keys(top, "the file", TOP_FIELDS)
    for key in ("rows", "matrix", "tolerance"):
        if key not in top:
            raise BadInput(f"{key}: missing; a description needs rows, matrix and tolerance")
    units = top.get("units", {})
    _keys(units, "units", UNIT_FIELDS)
    labels = Labels(_label(top, "title", ""), _label(units, "load", "units, "), _label(units, "motion", "units, "))
    motion, labels.coordinates = _motion(_list(top.get("motion", []), "motion"))
    return Description(
        rows=[_row(row, i) for i, row in enumerate(_list(top["rows"], "rows"))],
        matrix=_matrix(top),
        motion=motion,
        tolerance=_number(top["tolerance"], "tolerance"),
        labels=labels,
        before_start=_text(top.get("before_start", ""), "before_start"),
    )


def _object(pairs):
    """An object, refused if a key stands twice: JSON readers silently take the last."""
    found = {}
    for key, value in pairs:
        if key in found:
            raise BadInput(f"{numbers.quoted(key)} stands twice in one object; expected once")
        found[key] = value
    return found


def _shown(value):
    """A value of the wrong type, as a message names it."""
    if isinstance(value, Literal):
        return str(value)[:40]
    if isinstance(value, str):
        return numbers.quoted(value)
    return {dict: "an object", list: "a list"}.get(type(value)) or json.dumps(value)


def _keys(value, where, allowed):
    if not isinstance(value, dict):
        raise BadInput(f"{where}: found {_shown(value)}; expected an object with {', '.join(allowed)}")
    for key in value:
        if key not in allowed:
            raise BadInput(f"{where}: {numbers.quoted(key)} is not a field here; expected {', '.join(allowed)}")


def _list(value, where):
    if not isinstance(value, list):
        raise BadInput(f"{where}: found {_shown(value)}; expected a list")
    return value


def _text(value, where):
    if not isinstance(value, str) or isinstance(value, Literal):
        raise BadInput(f"{where}: found {_shown(value)}; expected a text in quotes")
    return value


def _label(values, key, where):
    value = _text(values.get(key, ""), where + key)
    return name(value, where + key) if value else ""


def _number(value, where):
    if not isinstance(value, str):
        raise BadInput(f"{where}: found {_shown(value)}; {numbers.EXPECTED}")
    return str(value)


def _numbers(value, where):
    return [_number(v, f"{where}, value {j}") for j, v in enumerate(_list(value, where))]


def _row(value, index):
    where = f"row {index}"
    _keys(value, where, ROW_FIELDS)
    read_one = {"name": _text, "kind": _text}
    return {key: read_one.get(key, _number)(v, f"{where}, {key}") for key, v in value.items()}


def _matrix(top):
    """The matrix's lines. Where `matrix` is "lower", `triangle` has the line of row i up to its own entry, i + 1 values, and the rest is mirrored."""
    value = top["matrix"]
    if value != LOWER or isinstance(value, Literal):
        if "triangle" in top:
            raise BadInput(f'triangle: stands beside a matrix; expected it only with "matrix": "{LOWER}"')
        return _lines_of(value, "matrix")
    if "triangle" not in top:
        raise BadInput(f'triangle: missing; "matrix": "{LOWER}" needs it, line i with i + 1 values')
    return mirrored(_lines_of(top["triangle"], "triangle"))


def _lines_of(value, what):
    return [_numbers(line, f"{what}, line {i}") for i, line in enumerate(_list(value, what))]


def _motion(lines):
    """The motion's lines and their coordinates' names. A line is a list, or an object that also names its coordinate: all one or all the other."""
    if not any(isinstance(line, dict) for line in lines):
        return [_numbers(line, f"motion, line {i}") for i, line in enumerate(lines)], []
    values, names = [], []
    for i, line in enumerate(lines):
        _keys(line, f"motion, line {i}", MOTION_FIELDS)
        for key in MOTION_FIELDS:
            if key not in line:
                raise BadInput(f"motion, line {i}, {key}: missing; expected coordinate and values")
        names.append(name(_text(line["coordinate"], f"motion, line {i}, coordinate"), f"motion, line {i}, coordinate"))
        values.append(_numbers(line["values"], f"motion, line {i}"))
    return values, names


def write(description, note=""):
    """The JSON text of a description, one row and one line of the matrix on a line each."""
    d, labels = description, description.labels
    units = {k: v for k, v in (("load", labels.load_unit), ("motion", labels.motion_unit)) if v}
    parts = [f'"{key}": {_quote(value)}' for key, value in (("title", labels.title), ("note", note)) if value]
    if units:
        parts.append('"units": ' + _object_text(units, ()))
    parts.append('"rows": ' + _lines([_object_text(row, ("name", "kind")) for row in d.rows]))
    parts.append('"matrix": ' + _lines([_values(line) for line in d.matrix]))
    if labels.coordinates:
        named = zip(labels.coordinates, d.motion)
        parts.append('"motion": ' + _lines([f'{{"coordinate": {_quote(c)}, "values": {_values(line)}}}' for c, line in named]))
    else:
        parts.append('"motion": ' + _lines([_values(line) for line in d.motion]))
    parts.append('"tolerance": ' + _value(d.tolerance))
    if d.before_start:
        parts.append('"before_start": ' + _quote(d.before_start))
    return "{\n  " + ",\n  ".join(parts) + "\n}\n"


def _quote(text):
    return json.dumps(text, ensure_ascii=False)


def _value(text):
    """A number's text as JSON: bare where JSON has such numbers, in quotes where it has none."""
    return text if text[-1] in "0123456789" and not text.startswith("bits:") else _quote(text)


def _values(line):
    return "[" + ", ".join(map(_value, line)) + "]"


def _object_text(record, quoted):
    texts = quoted or record.keys()
    return "{" + ", ".join(f'"{k}": ' + (_quote(v) if k in texts else _value(v)) for k, v in record.items()) + "}"


def _lines(items):
    return "[\n    " + ",\n    ".join(items) + "\n  ]" if items else "[]"
