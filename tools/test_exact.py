"""Tests of exact row sums, and the library's against the tool's. From the repository's folder: python3 -m unittest tools/test_exact.py"""

import os
import random
import struct
import subprocess
import sys
import tempfile
import unittest
from fractions import Fraction

sys.path.insert(0, os.path.dirname(os.path.abspath(__file__)))

from fixtures import BOUNDARY, EXAMPLE_ANSWER, EXAMPLE_BYTES, HERE, INF, NAN, ROOT, Folder, run  # noqa: E402

from bendfile import exact, numbers  # noqa: E402
from bendfile.problem import BadInput  # noqa: E402

LIBRARY = os.path.join(ROOT, "target", "staticlib", "libpiskorlu.a")
HEADER = os.path.join(ROOT, "include", "piskorlu.h")

ONE, HALF, LEAST, LARGEST = 0x3FF0000000000000, 0x3FE0000000000000, 1, 0x7FEFFFFFFFFFFFFF
MINUS = numbers.SIGN
TWO_53 = 0x4340000000000000

# What each shows, the free motion, the products, and the nearest f64 of the sum.
WORKED = [
    ("nothing", 0, [], 0),
    ("a free motion of 1", ONE, [], ONE),
    ("a product of 1", 0, [(ONE, ONE)], ONE),
    ("the smallest product rounds to +0", 0, [(LEAST, LEAST)], 0),
    ("its negative too", 0, [(LEAST | MINUS, LEAST)], 0),
    ("the smallest f64", LEAST, [], LEAST),
    ("half of it: a tie, to even", 0, [(LEAST, HALF)], 0),
    ("half of it and one unit: above the tie", 0, [(LEAST, HALF), (LEAST, LEAST)], LEAST),
    ("minus half of it: +0", 0, [(LEAST | MINUS, HALF)], 0),
    ("one and a half of it: a tie, to even", LEAST, [(LEAST, HALF)], 2),
    ("largest subnormal and half of the smallest: the smallest normal", 0x000FFFFFFFFFFFFF, [(LEAST, HALF)], 0x0010000000000000),
    ("2^53 + 1: a tie, to even", TWO_53, [(ONE, ONE)], TWO_53),
    ("2^53 + 1 and one unit: a digit 2,201 places lower decides", TWO_53, [(ONE, ONE), (LEAST, LEAST)], TWO_53 + 1),
    ("2^53 + 3: a tie, up to even", TWO_53 + 1, [(ONE, ONE)], TWO_53 + 2),
    ("2^53 + 1 - 2^53, where rounded sums give 0", TWO_53, [(ONE, ONE), (ONE, TWO_53 | MINUS)], ONE),
    ("x - x", 0xC00C000000000000, [(0x400C000000000000, ONE)], 0),
    ("-0 and -0 * 1: +0", MINUS, [(MINUS, ONE)], 0),
    ("the largest f64 squared", 0, [(LARGEST, LARGEST)], INF),
    ("32 of its negative", 0, [(LARGEST | MINUS, LARGEST)] * 32, INF | MINUS),
    ("largest f64 and half its last place: a tie, to infinity", LARGEST, [(0x7C90000000000000, ONE)], INF),
    ("one unit less: the largest f64", LARGEST, [(0x7C90000000000000, ONE), (LEAST | MINUS, LEAST)], LARGEST),
    ("too large between, and back", 0, [(LARGEST, LARGEST), (ONE, ONE), (LARGEST | MINUS, LARGEST)], ONE),
    ("0.1 * 0.1", 0, [(0x3FB999999999999A, 0x3FB999999999999A)], 0x3F847AE147AE147C),
    ("1 less one unit", ONE, [(LEAST | MINUS, LEAST)], ONE),
    ("smallest normal less one unit", 0x0010000000000000, [(LEAST | MINUS, LEAST)], 0x0010000000000000),
    ("W 3, u_free -1, load a third: the rounded sum is 0", ONE | MINUS, [(0x4008000000000000, 0x3FD5555555555555)], 0xBC90000000000000),
]


def split(free, products):
    return free, [w for w, _ in products], [nu for _, nu in products]


def some_row(source):
    """A row that is hard on rounding: any exponents, cancellation down to a few digits, ties, subnormals, the far ends."""
    way = source.randrange(4)
    if way == 0:
        values = [source.choice(BOUNDARY) if source.random() < 0.3 else source.getrandbits(64) for _ in range(2 * source.randrange(33))]
        return source.getrandbits(64), list(zip(values[::2], values[1::2]))
    if way == 1:
        products = [(numbers.to_bits(source.uniform(-100, 100)), numbers.to_bits(source.uniform(-1, 1))) for _ in range(source.randrange(1, 32))]
        total = sum(numbers.to_float(a) * numbers.to_float(b) for a, b in products)
        return numbers.to_bits(-total), products
    if way == 2:
        # A few digits far apart: ties, near ties, and one unit that breaks them.
        signs = [source.choice([0, MINUS]) for _ in range(source.randrange(5))]
        products = [(source.choice([ONE, HALF, LEAST, TWO_53]) | sign, source.choice([ONE, HALF, LEAST, 2, 3])) for sign in signs]
        return source.choice([TWO_53, TWO_53 + 1, LARGEST, LEAST, 0, 0x000FFFFFFFFFFFFF]) | source.choice([0, MINUS]), products
    exponent = source.randrange(2046)
    signs = [source.choice([0, MINUS]) for _ in range(source.randrange(33))]
    products = [(exponent << 52 | source.getrandbits(52), (2046 - exponent) << 52 | source.getrandbits(52) | sign) for sign in signs]
    return source.getrandbits(62), products


def by_fractions(free, products):
    """The nearest f64 by Python's fractions, whose division is rounded correctly; None for a NaN or an infinity."""
    if not all(map(numbers.is_finite, [free, *(v for pair in products for v in pair)])):
        return None
    total = Fraction(numbers.to_float(free)) + sum(Fraction(numbers.to_float(w)) * Fraction(numbers.to_float(nu)) for w, nu in products)
    try:
        return numbers.to_bits(float(total) + 0.0)
    except OverflowError:
        return INF | MINUS if total < 0 else INF


class Sums(unittest.TestCase):
    def test_worked_examples(self):
        for words, free, products, wanted in WORKED:
            self.assertEqual(exact.nearest(exact.row_sum(*split(free, products))), wanted, words)

    def test_refused(self):
        """17 for a NaN or an infinity, also times 0, and it is said which number."""
        for free, products, words in (
            (NAN, [], "its free motion is nan; expected finite numbers (refused 17)"),
            (0, [(0, 0), (0, INF)], "its load 1 is inf"),
            (0, [(INF | MINUS, 0)], "its entry of the matrix 0 is -inf"),
        ):
            with self.assertRaises(BadInput) as caught:
                exact.row_sum(*split(free, products))
            self.assertIn(words, str(caught.exception))

    def test_fractions(self):
        """20,000 rows by whole numbers and by fractions: the same f64."""
        source, seen = random.Random(21), 0
        for _ in range(20000):
            free, products = some_row(source)
            wanted = by_fractions(free, products)
            if wanted is None:
                with self.assertRaises(BadInput):
                    exact.row_sum(*split(free, products))
            else:
                self.assertEqual(exact.nearest(exact.row_sum(*split(free, products))), wanted, (free, products))
                seen += 1
        self.assertGreater(seen, 15000)

    def test_off_by(self):
        sum_ = exact.row_sum(ONE | MINUS, [0x4008000000000000], [0x3FD5555555555555])
        self.assertEqual([exact.off_by(sum_, bits) for bits in (0, 0xBC90000000000000, INF, NAN)], [0xBC90000000000000, 0, None, None])


class Shown(Folder):
    def shown(self, name, *options):
        path = os.path.join(ROOT, "examples", name, name)
        return run("exact", *options, path + ".bend", path + ".answer.txt")[1].decode()

    def test_examples(self):
        """What is stored and what the walkthrough shows is what the command prints."""
        with open(os.path.join(ROOT, "docs", "WALKTHROUGH.md"), encoding="utf-8") as file:
            page = file.read()
        for name in ("shaft-six-pads", "rounded-sum"):
            with open(os.path.join(ROOT, "examples", name, name + ".exact.txt"), encoding="utf-8") as file:
                self.assertEqual(self.shown(name), file.read())
            self.assertIn("\n```\n" + self.shown(name) + "```\n", page)

    def test_request(self):
        """A rounded motion of 0 whose exact one is -2^-54."""
        line = self.shown("rounded-sum", "--full").splitlines()[4].split()
        self.assertEqual(line[-3:], ["0", repr(-(2.0**-54)), repr(-(2.0**-54))])

    def test_tiny(self):
        """A sum that is not zero and whose nearest f64 is shows its sign."""
        data = struct.pack("<7QIHHI4s", 1, MINUS | 1, MINUS | INF, INF, ONE, 0, 0, 0, 1, 0, 7, b"BEND")
        answer = b"solved\nsweeps 1 passes 1 converged 1 exact 1 idle 0 residual 0000000000000000\nrow 0 I 3FF0000000000001\n"
        shown = run("exact", self.put("a.bend", data), self.put("a.txt", answer))[1].decode()
        self.assertIn("  above 0  ", shown)

    def test_no_sum(self):
        nan = EXAMPLE_ANSWER.replace(b"I 4000000000000000", b"I 7FF8000000000000")
        status, out, _ = run("exact", self.put("a.bend", EXAMPLE_BYTES), self.put("a.txt", nan))
        self.assertEqual(status, 0)
        self.assertIn("row 0 has no exact motion: its load 0 is nan; expected finite numbers (refused 17)", out.decode())

    def test_refused(self):
        """An answer to another file, or a refusal: a message and no table."""
        other = EXAMPLE_ANSWER.replace(b"I 4000", b"I 4004")
        for answer, words in ((other, "expected the answer to this file"), (b"refused 4\n", "there are no loads to add")):
            status, out, err = run("exact", self.put("a.bend", EXAMPLE_BYTES), self.put("a.txt", answer))
            self.assertEqual((status, out), (1, b""))
            self.assertIn(words, err)

    def test_pull(self):
        """A pull: one table per step."""
        folder = os.path.join(ROOT, "examples", "pull")
        found = [os.path.join(folder, f"step-{i}.answer.txt") for i in range(1, 7)]
        out = run("exact", os.path.join(folder, "pull.chain"), *found)[1].decode()
        titles = [f"Pull, step {i} of 6, ram {ram} N" for i, ram in enumerate((40, 80, 120, 160, 80, 0), 1)]
        self.assertEqual([line for line in out.splitlines() if line.startswith("Pull, ")], titles)


class Library(unittest.TestCase):
    """The library's calls piskorlu_exact_row and piskorlu_exact_nearest, in a small program, against the tool."""

    @classmethod
    def setUpClass(cls):
        if not os.path.exists(LIBRARY):
            raise AssertionError(f"{LIBRARY} is missing; `tools/archive.sh` makes it")
        with open(HEADER, encoding="utf-8") as header:
            text = header.read()
        for call in ("piskorlu_exact_row", "piskorlu_exact_nearest"):
            if call not in text:
                raise AssertionError(f"{HEADER} does not declare {call}")
        kept = tempfile.TemporaryDirectory()
        cls.addClassCleanup(kept.cleanup)
        cls.program = os.path.join(kept.name, "exact_rows")
        compiler = ["cc", "-std=c99", "-O1", "-Wall", "-Wextra", "-Werror", "-I", os.path.dirname(HEADER)]
        made = subprocess.run([*compiler, os.path.join(HERE, "exact_rows.c"), LIBRARY, "-o", cls.program], stderr=subprocess.PIPE, text=True)
        if made.returncode:
            raise AssertionError(f"tools/exact_rows.c cannot be built with {LIBRARY}:\n{made.stderr}")

    def answered(self, rows):
        """What the library says of each row: a number and a nearest f64."""
        packed = []
        for free, products in rows:
            _, entries, loads = split(free, products)
            packed.append(struct.pack(f"<dQ{2 * len(products)}Q", len(products), free, *entries, *loads))
        lines = subprocess.run([self.program], input=b"".join(packed), stdout=subprocess.PIPE, check=True).stdout.decode().splitlines()
        self.assertEqual(len(lines), len(rows))
        return [(int(number), int(bits, 16)) for number, bits in (line.split() for line in lines)]

    def test_rows(self):
        """Worked examples and 100,000 rows: the same number, and where it is 0 the same f64."""
        source = random.Random(22)
        rows = [(free, products) for _, free, products, _ in WORKED] + [some_row(source) for _ in range(100000)]
        for (free, products), found in zip(rows, self.answered(rows)):
            try:
                wanted = (0, exact.nearest(exact.row_sum(*split(free, products))))
            except BadInput:
                wanted = (17, 0)
            self.assertEqual(found, wanted, (free, products))

    def test_too_many(self):
        """33 products get 18, also where one of them is NaN."""
        rows = [(0, [(ONE, ONE)] * 33), (NAN, [(NAN, ONE)] * 33), (0, [(ONE, ONE)] * 32)]
        self.assertEqual([number for number, _ in self.answered(rows)], [18, 18, 0])


if __name__ == "__main__":
    unittest.main()
