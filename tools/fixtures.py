"""What the tests of bend.py share."""

import contextlib
import io
import json
import os
import sys
import tempfile
import unittest
from unittest import mock

HERE = os.path.dirname(os.path.abspath(__file__))
ROOT = os.path.dirname(HERE)
sys.path[:0] = [HERE, os.path.join(ROOT, "examples")]

import bend  # noqa: E402
from bendfile import numbers, problem  # noqa: E402

NAN, INF, MINUS_INF = numbers.NAN, numbers.PLUS_INFINITY, numbers.MINUS_INFINITY

# Zeros, infinities, the least and the greatest subnormal and normal numbers, one and its neighbours, and NaNs of several patterns.
BOUNDARY = [0, 1, 1 << 63, (1 << 63) | 1, INF, MINUS_INF, NAN, 0xFFF8000000000000, 0x7FF0000000000001, 0x7FFFFFFFFFFFFFFF, 0xFFF123456789ABCD]
BOUNDARY += [0x000FFFFFFFFFFFFF, 0x0010000000000000, 0x7FEFFFFFFFFFFFFF, 0xFFEFFFFFFFFFFFFF, 0x3FEFFFFFFFFFFFFF, 0x3FF0000000000000, 0x3FF0000000000001]

# Document 01's example: n = 1, W 2, u_free -4, lo 0, hi +inf, scale 1, nu 0, motion 1, tolerance 0.
EXAMPLE = {"rows": [{"name": "pad", "kind": "contact", "scale": 1, "free_motion": -4}], "matrix": [[2]], "motion": [[1]], "tolerance": 0}
EXAMPLE_BYTES = bytes.fromhex(
    "0000000000000040 00000000000010C0 0000000000000000 000000000000F07F 000000000000F03F 0000000000000000 000000000000F03F 0000000000000000"
    "00000000 0100 0100 08000000 42454E44"
)
EXAMPLE_ANSWER = b"solved\nsweeps 1 passes 1 converged 1 exact 1 idle 0 residual 0000000000000000\nrow 0 I 4000000000000000\n"
FIGHT_ANSWER = (
    b"infeasible pass\nsweeps 1 passes 1 converged 0 exact 0 idle 0 residual 4000000000000000\n"
    b"row 0 I 3FF0000000000000\nrow 1 I 4000000000000000\nfights 0 1\n"
)


class Stream(io.TextIOWrapper):
    """A standard stream that keeps its bytes."""

    def __init__(self, data=b""):
        super().__init__(io.BytesIO(data), encoding="utf-8")

    def bytes(self):
        self.flush()
        return self.buffer.getvalue()


def run(*arguments, stdin=b""):
    """Exit status, standard output and standard error of one call."""
    out, err, before = Stream(), Stream(), sys.stdin
    sys.stdin = Stream(stdin)
    try:
        with contextlib.redirect_stdout(out), contextlib.redirect_stderr(err):
            try:
                status = bend.main([str(a) for a in arguments])
            except SystemExit as ended:
                status = ended.code
    finally:
        sys.stdin = before
    return status, out.bytes(), err.bytes().decode("utf-8")


def some_bits(source):
    """A number: often one of the boundary values, else any pattern or an ordinary value."""
    choice = source.random()
    if choice < 0.3:
        return source.choice(BOUNDARY)
    return source.getrandbits(64) if choice < 0.7 else numbers.to_bits(source.uniform(-100, 100))


def some_problem(source, rows, coordinates, before=b""):
    def line():
        return [some_bits(source) for _ in range(rows)]

    parts = [line() for _ in range(5)]
    for i in range(rows):
        # Contact and friction boxes by chance are rare; the descriptions write them in forms of their own.
        kind = source.randrange(4)
        if kind == 0:
            parts[1][i], parts[2][i] = 0, INF
        elif kind == 1:
            parts[2][i] = source.choice([0, 1, numbers.to_bits(12.5), 0x7FEFFFFFFFFFFFFF])
            parts[1][i] = parts[2][i] | numbers.SIGN
    matrix, motion = [line() for _ in range(rows)], [line() for _ in range(coordinates)]
    return problem.Problem(matrix, *parts, motion, some_bits(source), before=before)


def rig_problem(source, rows):
    """A problem as a rig sets it up, symmetric, sometimes with less rank than rows, with pads, stops and rows without limit; and now and then
    one number that nobody means."""
    rank = source.choice([1, 2, rows + 1])
    places = [[source.uniform(-1, 1) for _ in range(rank)] for _ in range(rows)]
    matrix = [[numbers.to_bits(sum(a * b for a, b in zip(one, other))) for other in places] for one in places]
    bounds = [source.choice([(0.0, float("inf")), (-2.0, 2.0), (-0.0, 0.0), (float("-inf"), float("inf")), (0.0, 1e-3)]) for _ in range(rows)]
    lo, hi = ([numbers.to_bits(pair[side]) for pair in bounds] for side in (0, 1))
    free_motion = [numbers.to_bits(source.uniform(-3, 3)) for _ in range(rows)]
    scale = [numbers.to_bits(source.choice([1.0, 100.0, 1e-3, 1e-9])) for _ in range(rows)]
    made = problem.Problem(matrix, free_motion, lo, hi, scale, [0] * rows, [], numbers.to_bits(source.choice([0.0, 1e-6, 1e9])))
    if rows and source.random() < 0.3:
        part = source.choice([*made.matrix, made.free_motion, made.lo, made.hi, made.start])
        part[source.randrange(rows)] = source.choice(BOUNDARY)
    return made


class Folder(unittest.TestCase):
    """Tests that write files."""

    def setUp(self):
        kept = tempfile.TemporaryDirectory()
        self.addCleanup(kept.cleanup)
        self.folder = kept.name
        # Waiting for the disk after each of some hundred files would take most of the tests' time.
        quick = mock.patch("os.fsync")
        self.fsync = quick.start()
        self.addCleanup(quick.stop)

    def path(self, name):
        return os.path.join(self.folder, name)

    def put(self, name, data):
        with open(self.path(name), "wb") as out:
            out.write(data if isinstance(data, bytes) else json.dumps(data).encode())
        return self.path(name)

    def get(self, name):
        with open(self.path(name), "rb") as file:
            return file.read()
