"""What bendsolve prints: read, checked, and held against the bend file it answers."""

import re
from dataclasses import dataclass, field

from . import numbers
from .problem import MOST_ROWS, BadInput

CAUSES = {
    "growth": "a load grew past a million times its row's scale",
    "pass": "an exact pass found loads that can grow together without end",
    "sweep": "after a sweep, loads were found that can grow together without end",
}

# Document 01's table and document 02's additions. bendsolve itself answers 1 to 4 and 8; the others come from the library's calls.
REFUSALS = {
    1: "bend file: it has under 16 or over 65,536 bytes",
    2: "bend file: its last four bytes are not the mark 42 45 4E 44, so it is no bend file or is cut short",
    3: "bend file: more than 32 rows, or more than 2,048 motion values (coordinates times rows)",
    4: "bend file: its count of numbers does not fit its rows and coordinates, or its length does not fit its start and count",
    5: "solve: more than 32 rows, or more than 2,048 motion values",
    6: "solve: the matrix does not have rows times rows values",
    7: "solve: lower bounds, upper bounds, scales or multipliers are not one per row",
    8: "solve: a scale is NaN, infinite, zero or below zero",
    9: "solve: the motion values are not a whole number of lines of one value per row",
    10: "solve: the workspace has under 2,304 places, or the states or the row list have fewer places than rows",
    11: "tallied solve: the tally's increments, sweeps or passes have no room for one more solve",
    12: "least norm: more than 32 rows or columns, a matrix, right side or solution of the wrong length, or a workspace under 1,056 places",
    13: "joining reports: the sum of a count is above 4,294,967,295",
    14: "chained bend file: fewer than four bytes before a step's numbers, or a link above its own offset",
    15: "chained bend file: more than 40 steps, or none to write",
    16: "triangle solve: the lower triangle does not have rows times (rows + 1) / 2 values",
    17: "exact row sum: a number is NaN or infinite",
    18: "exact row sum: more than 32 products, or a second free motion",
}

_COUNT = "(0|[1-9][0-9]{0,9})"
_REPORT = re.compile(f"sweeps {_COUNT} passes {_COUNT} converged ([01]) exact ([01]) idle {_COUNT} residual ([0-9A-F]{{16}})")
_ROW = re.compile(f"row {_COUNT} ([ILHZ]) ([0-9A-F]{{16}})")
_FIRST = re.compile(rb"^(?:solved|infeasible|refused)\b", re.MULTILINE)
_FIGHTS = re.compile(f"fights( {_COUNT})+")


@dataclass
class Answer:
    """An answer. `outcome` is solved, infeasible or refused; a refusal has its number and nothing else."""

    outcome: str
    cause: str = ""
    number: int = 0
    sweeps: int = 0
    passes: int = 0
    converged: bool = False
    exact: bool = False
    idle: int = 0
    residual: int = 0
    states: list = field(default_factory=list)
    loads: list = field(default_factory=list)
    fights: list = field(default_factory=list)


def read(data):
    """The answer in bendsolve's output. Taken only whole and in document 01's form: a part of an answer is no answer."""
    lines = _lines(data)
    first = lines[0].split(" ")
    if first[0] == "refused" and len(first) == 2 and re.fullmatch(_COUNT, first[1]):
        if len(lines) > 1:
            raise BadInput(f"line 2: found {numbers.quoted(lines[1])}; expected nothing after a refusal")
        return Answer("refused", number=int(first[1]))
    answer = Answer("solved")
    if first[0] == "infeasible" and len(first) == 2 and first[1] in CAUSES:
        answer = Answer("infeasible", cause=first[1])
    elif lines[0] != "solved":
        known = ", ".join(f"infeasible {cause}" for cause in CAUSES)
        raise BadInput(f"line 1: found {numbers.quoted(lines[0])}; expected solved, {known} or refused and a number")
    _read_report(answer, lines)
    rows = lines[2:]
    if answer.outcome == "infeasible":
        _read_fights(answer, rows.pop() if rows else "", len(lines), len(rows))
    _read_rows(answer, rows)
    return answer


def read_all(data):
    """The answers in what several runs of bendsolve have printed, one after the other. No line within an answer looks like a first one."""
    starts = [m.start() for m in _FIRST.finditer(data)]
    if not starts or starts[0] != 0:
        return [read(data)]
    parts = [data[at:end] for at, end in zip(starts, [*starts[1:], len(data)])]
    return [_numbered(i, part) for i, part in enumerate(parts, 1)] if len(parts) > 1 else [read(data)]


def _numbered(number, data):
    try:
        return read(data)
    except BadInput as wrong:
        raise BadInput(f"answer {number}: {wrong}") from None


def _lines(data):
    if not data:
        raise BadInput("the answer is empty; expected what bendsolve prints")
    if b"\r" in data:
        raise BadInput("a line ends with the bytes 0D 0A; expected 0A alone, as bendsolve writes it")
    if not data.endswith(b"\n"):
        raise BadInput("the last line has no end; expected the byte 0A after it (is the answer cut short?)")
    return data.decode("ascii", errors="replace").split("\n")[:-1]


def _read_report(answer, lines):
    found = lines[1] if len(lines) > 1 else ""
    report = _REPORT.fullmatch(found)
    if not report:
        wanted = "sweeps, passes, converged, exact, idle and residual, each followed by its value"
        raise BadInput(f"line 2: found {numbers.quoted(found)}; expected {wanted}")
    answer.sweeps, answer.passes, answer.idle = (int(report.group(i)) for i in (1, 2, 5))
    answer.converged, answer.exact = report.group(3) == "1", report.group(4) == "1"
    answer.residual = int(report.group(6), 16)


def _read_fights(answer, line, at, rows):
    if not _FIGHTS.fullmatch(line):
        raise BadInput(f"line {at}: found {numbers.quoted(line)}; expected fights and at least one row number (is the answer cut short?)")
    answer.fights = [int(text) for text in line.split(" ")[1:]]
    for before, row in zip([-1] + answer.fights, answer.fights):
        if not before < row < rows:
            raise BadInput(f"line {at}: row {row} is out of place; expected rising row numbers below {rows}")


def _read_rows(answer, lines):
    for i, line in enumerate(lines):
        row = _ROW.fullmatch(line)
        if not row or int(row.group(1)) != i:
            raise BadInput(f"line {i + 3}: found {numbers.quoted(line)}; expected row {i}, a state I, L, H or Z, and 16 digits 0 to 9 and A to F")
        answer.states.append(row.group(2))
        answer.loads.append(int(row.group(3), 16))
    if len(lines) > MOST_ROWS:
        raise BadInput(f"found {len(lines)} rows; expected at most {MOST_ROWS}")
    if answer.states.count("Z") != answer.idle:
        raise BadInput(f"line 2 says {answer.idle} idle, and {answer.states.count('Z')} rows have state Z; expected the same number")


def row_sums(problem, answer):
    """Each row's motion under the answer's loads, u = u_free + W nu, added in document 01's order."""
    loads = [numbers.to_float(bits) for bits in answer.loads]
    sums = []
    for free, line in zip(problem.free_motion, problem.matrix):
        total = numbers.to_float(free)
        for entry, load in zip(line, loads):
            total += numbers.to_float(entry) * load
        sums.append(total)
    return sums


def clamp(value, lo, hi):
    return lo if value < lo else hi if value > hi else value


def own_residual(problem, answer, row, total):
    """A row's natural residual, where `total` is its motion."""
    load, lo, hi, scale = (numbers.to_float(part[row]) for part in (answer.loads, problem.lo, problem.hi, problem.scale))
    return abs(load - clamp(load - total / numbers.to_float(problem.matrix[row][row]), lo, hi)) / scale


def residual(problem, answer):
    """The largest natural residual over the rows that can act, by document 01's rule; a row whose residual is NaN adds nothing."""
    worst = 0.0
    for row, total in enumerate(row_sums(problem, answer)):
        if answer.states[row] != "Z":
            own = own_residual(problem, answer, row, total)
            worst = own if own > worst else worst
    return worst
