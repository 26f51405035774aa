#!/usr/bin/env python3
"""The Python binding: marked cases, every refusal, what may be used as loads, and the page's examples of a W that is not as it should be.

    python3 -m unittest bindings/python/test_piskorlu.py

Needs cc and target/staticlib/libpiskorlu.a (or the archive that PISKORLU_STATICLIB names): the shared object is linked anew, by build.sh, in a
temporary folder.
"""

import ctypes
import json
import math
import os
import re
import subprocess
import sys
import tempfile
import threading
import unittest
from dataclasses import replace

HERE = os.path.dirname(os.path.abspath(__file__))
ROOT = os.path.dirname(os.path.dirname(HERE))
ARCHIVE = os.environ.get("PISKORLU_STATICLIB", os.path.join(ROOT, "target", "staticlib", "libpiskorlu.a"))

sys.dont_write_bytecode = True
sys.path.insert(0, HERE)
import piskorlu  # noqa: E402
from piskorlu import Cause, ExactSum, Refused, Report, State, bend, least_norm, solve, solve_triangle, sqrt, tallied, tallied_triangle  # noqa: E402

INF, NAN = math.inf, math.nan

_scratch = tempfile.TemporaryDirectory()


def setUpModule():
    shared = os.path.join(_scratch.name, "libpiskorlu.so")
    built = subprocess.run([os.path.join(HERE, "build.sh"), ARCHIVE, shared], capture_output=True, text=True)
    if built.returncode:
        raise AssertionError(built.stderr)
    os.environ["PISKORLU_LIBRARY"] = shared


def tearDownModule():
    _scratch.cleanup()


def pads(w, u_free, **other):
    """lo 0, hi infinite, scale 1, unless said."""
    n = len(u_free)
    return solve(w, u_free, **{"lo": [0] * n, "hi": [INF] * n, "scale": [1] * n, **other})


class Solve(unittest.TestCase):
    def test_marked_cases(self):
        none = pads([], [])
        self.assertEqual((none.solved, none.sweeps, none.nu), (True, 0, []))
        one = pads([2], [-4], motion=[1])
        self.assertEqual((one.nu, one.states, one.sweeps, one.exact_passes, one.exact, one.residual), ([2.0], [State.INSIDE], 1, 1, True, 0.0))
        grown = pads([2**-24], [-1])
        self.assertEqual((grown.cause, grown.rows, grown.sweeps, grown.exact_passes, grown.nu), (Cause.GROWTH, [0], 1, 0, [16777216.0]))
        self.assertEqual(pads([1], [-1000000]).nu, [1000000.0])
        self.assertEqual(pads([1], [4], hi=[1], nu=[0.5]).states, [State.AT_LO])
        idle = pads([0], [0], lo=[3], hi=[5])
        self.assertEqual((idle.states, idle.nu, idle.idle), ([State.IDLE], [3.0], 1))
        split = pads([[1, 1], [1, 1]], [-2, -2])
        self.assertEqual((split.nu, split.states), ([2.0, 0.0], [State.INSIDE, State.AT_LO]))
        stops = pads([[1, -1], [-1, 1]], [-1, -1])
        self.assertEqual((stops.solved, stops.cause, stops.rows), (False, Cause.PASS, [0, 1]))
        near = -(1 - 1e-8)
        self.assertEqual(pads([[1, near], [near, 1]], [-1, -1]).cause, Cause.SWEEP)

    def test_rows_stopped(self):
        """A row may stand on its bound without being stopped, and one that was stopped may end elsewhere."""
        rests = pads([1], [0])
        self.assertEqual((rests.states, rests.stopped), ([State.AT_LO], 0))
        grown = pads([[2**-24, 0], [0, 1]], [-1, 4])
        self.assertEqual((grown.cause, grown.states, grown.stopped), (Cause.GROWTH, [State.INSIDE, State.INSIDE], 1))
        self.assertEqual(pads([1], [4], hi=[1], nu=[0.5]).stopped, 1)

    def test_triangle(self):
        """Three rows: of two the lower and the upper triangle by rows are one list."""
        rest = {"u_free": [-7, -9, -11], "lo": [0] * 3, "hi": [INF] * 3, "scale": [1] * 3}
        full = solve([[4, 1, 2], [1, 5, 3], [2, 3, 6]], **rest)
        self.assertEqual([round(v, 9) for v in full.nu], [1, 1, 1])
        lines = [[4], [1, 5], [2, 3, 6]]
        self.assertEqual([solve_triangle(lines, **rest), solve_triangle(sum(lines, []), **rest)], [full, full])
        self.assertEqual(tallied_triangle(Report(), lines, **rest), tallied(Report(), [[4, 1, 2], [1, 5, 3], [2, 3, 6]], **rest))

    def test_w_that_is_not_as_it_should_be(self):
        """docs/SPECIFICATION.md's table."""
        w = [[1, -2], [-2, 1]]
        self.assertEqual([(a.exact, a.nu) for a in (pads(w, [1, 1]), pads(w, [1, 1], nu=[10, 10]))], [(True, [0, 0]), (True, [1, 1])])
        far = pads(w, [1, 1], nu=[1e6, 1e6])
        self.assertEqual((far.cause, far.rows), (Cause.GROWTH, [0, 1]))
        turned = pads([[1, -2], [2, 1]], [-0.5, 0], lo=[-1, -1], hi=[1, 1])
        self.assertEqual((turned.solved, turned.converged, turned.sweeps, turned.residual), (True, False, 200, 2.0))
        self.assertFalse(turned.usable(most_residual=10))

    def test_usable(self):
        self.assertTrue(pads([2], [-4]).usable())
        torn = pads([1], [NAN])
        self.assertEqual((torn.solved, torn.converged, torn.exact, torn.residual), (True, True, True, 0.0))
        self.assertFalse(torn.usable())
        self.assertFalse(pads([1], [-1], lo=[1], hi=[-1]).usable())
        ill = pads([[4.00001474754891, 2], [2, 1.0000294950978197]], [6, -0.9999852524510902], lo=[-INF] * 2, scale=[0.001] * 2)
        self.assertEqual((ill.exact, ill.usable(), ill.usable(1e-8)), (True, False, True))
        self.assertFalse(pads([2**-24], [-1]).usable())

    def test_inputs_are_kept(self):
        start, free = [0.5, 0.5], [-3.0, 1.0]
        pads([[2, 1], [1, 2]], free, nu=start)
        self.assertEqual((start, free), ([0.5, 0.5], [-3.0, 1.0]))

    def test_the_example(self):
        """examples/shaft-six-pads, from its description and as a bend file."""
        folder = os.path.join(ROOT, "examples", "shaft-six-pads")
        with open(os.path.join(folder, "shaft-six-pads.json"), encoding="utf-8") as file:
            rig = json.load(file)
        rows = rig["rows"]
        bounds = [(0, INF) if row["kind"] == "contact" else (-row["bound"], row["bound"]) for row in rows]
        answer = solve(
            rig["matrix"],
            [row["free_motion"] for row in rows],
            [lo for lo, _ in bounds],
            [hi for _, hi in bounds],
            [row["scale"] for row in rows],
            [row["start"] for row in rows],
            [line["values"] for line in rig["motion"]],
            rig["tolerance"],
        )
        with open(os.path.join(folder, "shaft-six-pads.answer.txt"), "rb") as file:
            lines = file.read()
        with open(os.path.join(folder, "shaft-six-pads.bend"), "rb") as file:
            self.assertEqual(bend(file.read()), lines)
        printed = [(int(i), "ILHZ".index(s), b) for i, s, b in re.findall(r"row (\d+) ([ILHZ]) (\w+)", lines.decode())]
        bits = [f"{ctypes.c_uint64.from_buffer(ctypes.c_double(v)).value:016X}" for v in answer.nu]
        self.assertEqual(printed, list(zip(range(8), answer.states, bits)))

    def test_threads(self):
        """ctypes lets other threads run during a call."""
        wanted, wrong = pads([[2, 1], [1, 2]], [-3, 1]), []

        def many():
            wrong.extend(1 for _ in range(200) if pads([[2, 1], [1, 2]], [-3, 1]) != wanted)

        threads = [threading.Thread(target=many) for _ in range(4)]
        for thread in threads:
            thread.start()
        for thread in threads:
            thread.join()
        self.assertEqual(wrong, [])


class Refusals(unittest.TestCase):
    def refused(self, number, call, *arguments, **named):
        with self.assertRaises(Refused) as caught:
            call(*arguments, **named)
        self.assertEqual(caught.exception.number, number)
        self.assertIn(f"refused {number}: {piskorlu.NUMBERS[number]}", str(caught.exception))

    def test_solve(self):
        self.refused(5, pads, [], [0] * 33)
        self.refused(6, pads, [1, 2], [0])
        self.refused(6, pads, [[1, 2, 3], [4]], [0, 0])
        self.refused(7, pads, [1], [0], lo=[])
        self.refused(8, pads, [1], [0], scale=[0])
        self.refused(9, pads, [[1, 0], [0, 1]], [0, 0], motion=[1])
        self.refused(9, pads, [[1, 0], [0, 1]], [0, 0], motion=[[1], [1, 2, 3]])
        self.refused(11, tallied, Report(increments=2**32 - 1), [1], [0], [0], [1], [1])

    def test_triangle(self):
        self.refused(16, solve_triangle, [1, 0, 0, 1], [0, 0], [0, 0], [1, 1], [1, 1])
        self.refused(16, solve_triangle, [[1, 0], [1]], [0, 0], [0, 0], [1, 1], [1, 1])
        self.refused(16, solve_triangle, [], [0], [], [1], [1])
        self.refused(5, solve_triangle, [], [0] * 33, [], [], [])
        self.refused(7, solve_triangle, [1], [0], [], [1], [1])
        self.refused(16, tallied_triangle, Report(increments=2**32 - 1), [1, 2], [0], [0], [1], [1])
        self.refused(11, tallied_triangle, Report(increments=2**32 - 1), [1], [0], [0], [1], [1])

    def test_others(self):
        self.refused(12, least_norm, [[1, 2], [3]], [1, 2])
        self.refused(12, least_norm, [[1, 2]], [1, 2])
        self.refused(13, Report(sweeps=2**32 - 1).both, Report(sweeps=1))
        self.refused(13, Report().both, Report(sweeps=-1))
        self.assertEqual(bend(b""), b"refused 1\n")

    def test_exact_sums(self):
        full = ExactSum.row(0.0, [0.1] * 32, [0.1] * 32)
        kept = full.copy()
        self.refused(18, full.add_product, 1.0, 1.0)
        self.refused(18, full.add_free, NAN)
        self.refused(18, full.join, ExactSum.row(0.0, [], []))
        self.refused(18, full.join, full)
        self.refused(18, ExactSum.row, 0.0, [0.0] * 33, [0.0] * 33)
        self.assertEqual(full, kept)
        self.refused(17, ExactSum().add_product, INF, 0.0)

    def test_words_are_the_headers(self):
        with open(os.path.join(ROOT, "include", "piskorlu.h"), encoding="utf-8") as file:
            header = file.read()
        numbers = dict(re.findall(r"#define (PISKORLU_REFUSED_\w+) (\d+)u", header))
        words = dict(re.findall(r'case (PISKORLU_REFUSED_\w+):\s+return "(.*)";', header))
        self.assertEqual({int(number): words[name] for name, number in numbers.items()}, piskorlu.NUMBERS)

    def test_no_library(self):
        code = "import piskorlu\ntry:\n    piskorlu.sqrt(2.0)\nexcept OSError as error:\n    print(error)"
        ran = subprocess.run(
            [sys.executable, "-B", "-c", code], cwd=HERE, env={**os.environ, "PISKORLU_LIBRARY": "/nowhere.so"}, capture_output=True, text=True
        )
        self.assertIn("/nowhere.so", ran.stdout)
        self.assertIn("build.sh makes it", ran.stdout)


class Others(unittest.TestCase):
    def test_least_norm(self):
        found = least_norm([[3, 4]], [5])
        self.assertEqual((found.rank, found.a, found.b), (1, [5.0, 0.0], [-5.0]))
        self.assertEqual([v.hex() for v in found.x], ["0x1.3333333333334p-1", "0x1.999999999999ap-1"])
        self.assertEqual((least_norm([[0]], [7]).rank, least_norm([], []).x), (0, []))

    def test_square_root(self):
        self.assertEqual(sqrt(2.0**-1074), 2.0**-537)
        self.assertTrue(math.isnan(sqrt(-1)))

    def test_reports(self):
        a, b = Report(1, 2, 3, 4, 5, 6, 7, True, True, 0.5, 8), Report(10, 20, 30, 40, 50, 60, 70, True, False, 0.25, 80)
        self.assertEqual(a.both(b), Report(11, 22, 30, 44, 55, 66, 77, True, False, 0.5, 88))
        self.assertEqual(a.continued(b), Report(10, 22, 22, 44, 55, 66, 77, True, False, 0.25, 88))
        with self.assertRaises(Refused) as refused:
            Report(stopped=0xFFFFFFFF).both(Report(stopped=1))
        self.assertEqual(refused.exception.number, 13)

    def test_a_day(self):
        day = Report()
        for _ in range(3):
            answer, day = tallied(day, [2], [-4], [0], [INF], [1])
            self.assertEqual(answer.nu, [2.0])
        self.assertEqual(day, Report(increments=3, sweeps=3, exact_passes=3))
        for _ in range(2):
            answer, day = tallied(day, [1], [4], [0], [INF], [1])
            self.assertEqual((answer.nu, answer.stopped), ([0.0], 1))
        self.assertEqual(day, Report(increments=5, sweeps=5, exact_passes=5, stopped=2))
        full = Report(stopped=0xFFFFFFFF - 31)
        with self.assertRaises(Refused) as refused:
            tallied(full, [2], [-4], [0], [INF], [1])
        self.assertEqual(refused.exception.number, 11)
        self.assertEqual(tallied(replace(full, stopped=0xFFFFFFFF - 32), [1], [4], [0], [INF], [1])[1].stopped, 0xFFFFFFFF - 31)

    def test_exact_sums(self):
        third = 1 / 3
        whole = ExactSum.row(-1, [3], [third])
        self.assertEqual((3 * third - 1, whole.sign, whole.nearest), (0.0, -1, -(2.0**-54)))
        self.assertEqual((whole.products, whole.has_free, whole.words[32]), (1, True, 0xFFFFC00000000000))
        first, second = ExactSum(), ExactSum()
        first.add_free(-1)
        second.add_product(3, third)
        for total, other in ((first.copy(), second), (second.copy(), first)):
            total.join(other)
            self.assertEqual(total, whole)
        second.join(second)
        self.assertEqual((second.nearest, second.products, second.has_free), (2.0, 2, False))

    def test_version(self):
        with open(os.path.join(ROOT, "include", "piskorlu.h"), encoding="utf-8") as file:
            self.assertIn(f'#define PISKORLU_VERSION "{piskorlu.VERSION}"', file.read())
        with open(os.path.join(ROOT, "bindings", "rust", "Cargo.toml"), encoding="utf-8") as file:
            self.assertIn(f'\nversion = "{piskorlu.VERSION}"', file.read())

    def test_environment(self):
        self.assertTrue(piskorlu.environment_ok())
        libm = ctypes.CDLL("libm.so.6")
        try:
            for mode in (0x400, 0x800, 0xC00):  # downward, upward, toward zero
                libm.fesetround(mode)
                self.assertFalse(piskorlu.environment_ok())
        finally:
            libm.fesetround(0)
        self.assertTrue(piskorlu.environment_ok())


if __name__ == "__main__":
    unittest.main()
