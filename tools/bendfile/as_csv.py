"""The CSV description, which a spreadsheet can open and write.

The first line is `bend,1`; `bend;1` or a tab between the two says that all cells are parted so. Lines of a key and a value follow, and three
blocks, each ended by an empty line: `rows`, one line per pad or stop under the names of the fields; `matrix`, one line per row of W under the
rows' names; `motion`, one line per coordinate, likewise. Where semicolons part the cells, a comma may be the decimal mark, over the whole table.
"""

import csv
import io
import itertools
import re

from . import numbers
from .describe import ROW_FIELDS, Description, name
from .problem import BadInput, Labels

FIRST = ["bend", "1"]
KEYS = ("title", "note", "load unit", "motion unit", "tolerance", "before_start")
BLOCKS = ("rows", "matrix", "motion")

_PARTED = re.compile(r'[ ]*"?bend"?[ ]*([,;\t])')


def read(data):
    """The description in the bytes of a CSV file."""
    lines, parted = _cells(data)
    keys, blocks = _parts(lines)
    for key in ("rows", "matrix"):
        if key not in blocks:
            raise BadInput(f"{key}: missing; expected a block that begins with a line {key},... and ends with an empty line")
    if "tolerance" not in keys:
        raise BadInput("tolerance: missing; expected a line such as tolerance,1e-6")
    labels = Labels(*(name(keys[k], k) if keys.get(k) else "" for k in ("title", "load unit", "motion unit")))
    rows = _rows(*blocks["rows"])
    names = [row["name"] for row in rows]
    matrix, _ = _block("matrix", *blocks["matrix"], names, names)
    motion, labels.coordinates = _block("motion", *blocks.get("motion", (0, [["motion", *names]])), names, None)
    if all(c == f"coordinate {i}" for i, c in enumerate(labels.coordinates)):
        labels.coordinates = []
    description = Description(rows, matrix, motion, keys["tolerance"], labels, keys.get("before_start", ""))
    return _with_points(description) if parted == ";" else description


def _with_points(description):
    """The decimal commas of a table made points. Both marks in one table are refused: 1.234 beside 0,5 may mean a thousand and more."""
    d = description
    numeric = [row for row in ROW_FIELDS if row not in ("name", "kind")]
    texts = [d.tolerance, *(row[key] for row in d.rows for key in numeric if key in row), *(v for line in d.matrix + d.motion for v in line)]
    comma, point = (next((t for t in texts if mark in t), None) for mark in (",", "."))
    if comma is None:
        return d
    if point is not None:
        raise BadInput(f"found the numbers {numbers.quoted(comma)} and {numbers.quoted(point)}; expected one decimal mark over the whole table")
    d.tolerance = _with_point(d.tolerance)
    d.rows = [{key: _with_point(text) if key in numeric else text for key, text in row.items()} for row in d.rows]
    d.matrix, d.motion = ([[_with_point(text) for text in line] for line in block] for block in (d.matrix, d.motion))
    return d


def _with_point(text):
    """One comma between digits is a decimal mark; a text with more is left, and then is no number."""
    return text.replace(",", ".") if text.count(",") == 1 else text


def _cells(data):
    """The lines as lists of cells, and what parts them: spaces around a cell and empty cells at a line's end dropped, as spreadsheets add both."""
    try:
        text = data.decode("utf-8-sig")
        first = _PARTED.match(text)
        parted = first.group(1) if first else ","
        reader = csv.reader(io.StringIO(text, newline=""), delimiter=parted, strict=True)
        lines = []
        for cells in reader:
            cells = [c.strip() for c in cells]
            while cells and cells[-1] == "":
                cells.pop()
            lines.append((reader.line_num, cells))
    except UnicodeDecodeError as wrong:
        raise BadInput(f"byte {wrong.start} is not UTF-8; expected CSV text in UTF-8") from None
    except csv.Error as wrong:
        raise BadInput(f"line {reader.line_num}: not CSV: {wrong}") from None
    if not lines or lines[0][1] != FIRST:
        found = ",".join(lines[0][1]) if lines else ""
        raise BadInput(f"line 1: found {numbers.quoted(found)}; expected bend,1 (or bend;1, or a tab between the two)")
    return lines[1:], parted


def _parts(lines):
    """The lines of a key and a value, and the blocks with the line numbers they begin at."""
    keys, blocks, block = {}, {}, None
    for at, cells in lines:
        if not cells:
            block = None
        elif block is not None:
            block.append(cells)
        elif cells[0] in keys or cells[0] in blocks:
            raise BadInput(f"line {at}: {cells[0]} stands twice; expected once")
        elif cells[0] in BLOCKS:
            block = [cells]
            blocks[cells[0]] = (at, block)
        elif cells[0] in KEYS and len(cells) <= 2:
            keys[cells[0]] = cells[1] if len(cells) == 2 else ""
        elif cells[0] in KEYS:
            raise BadInput(f"line {at}: {cells[0]} has {len(cells) - 1} values; expected one (a value with a separator in it needs quotes)")
        else:
            raise BadInput(f"line {at}: found {numbers.quoted(cells[0])}; expected {', '.join(KEYS)}, or a block {', '.join(BLOCKS)}")
    return keys, blocks


def _rows(at, block):
    """The rows' fields. An empty cell is a field that is not given."""
    fields = ["name", *block[0][1:]]
    for i, key in enumerate(fields):
        if key not in ROW_FIELDS or key in fields[:i]:
            raise BadInput(f"line {at}: found the column {numbers.quoted(key)}; expected each once of {', '.join(ROW_FIELDS[1:])}")
    rows = []
    for i, cells in enumerate(block[1:]):
        if len(cells) > len(fields):
            raise BadInput(f"line {at + 1 + i}: found {len(cells)} cells; expected at most {len(fields)}, one per column")
        if cells[0] == "":
            raise BadInput(f"line {at + 1 + i}: the first cell is empty; expected the name of a pad or stop")
        rows.append({key: cell for key, cell in zip(fields, cells) if cell != ""})
    return rows


def _block(what, at, block, columns, lines):
    """A block's values and its lines' names. The names of columns and lines must be the rows' in their order: values in a wrong order would
    still be numbers."""
    _same(block[0][1:], columns, f"line {at}: the columns of {what}")
    found = [cells[0] for cells in block[1:]]
    if lines is not None:
        _same(found, lines, f"line {at}: the lines of {what}")
    return [cells[1:] for cells in block[1:]], [name(c, f"{what}, line {i}") for i, c in enumerate(found)]


def _same(found, names, where):
    for i, (ours, wanted) in enumerate(itertools.zip_longest(found, names)):
        if ours != wanted:
            shown = ["missing" if n is None else numbers.quoted(n) for n in (ours, wanted)]
            expected = "no more" if wanted is None else f"{shown[1]}, as in the block rows"
            raise BadInput(f"{where}: number {i} is {shown[0]}; expected {expected}")


def write(description, note=""):
    """The CSV text of a description."""
    d, labels = description, description.labels
    out = io.StringIO()
    put = csv.writer(out, lineterminator="\n").writerow
    put(FIRST)
    for key, value in (("title", labels.title), ("note", note), ("load unit", labels.load_unit), ("motion unit", labels.motion_unit)):
        if value:
            put([key, value])
    put(["tolerance", d.tolerance])
    if d.before_start:
        put(["before_start", d.before_start])
    put([])
    put(["rows", *ROW_FIELDS[1:]])
    for row in d.rows:
        put([row.get(key, "") for key in ROW_FIELDS])
    names = [row["name"] for row in d.rows]
    put([])
    put(["matrix", *names])
    for this, line in zip(names, d.matrix):
        put([this, *line])
    put([])
    put(["motion", *names])
    coordinates = labels.coordinates or [f"coordinate {i}" for i in range(len(d.motion))]
    for this, line in zip(coordinates, d.motion):
        put([this, *line])
    return out.getvalue()
