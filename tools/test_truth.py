"""Tests that bend.py shows nothing untrue, and takes no answer that does not fit. From the repository's folder:
python3 -m unittest tools/test_truth.py"""

import json
import os
import re
import sys
import unittest
import xml.etree.ElementTree as ElementTree
from unittest import mock

sys.path.insert(0, os.path.dirname(os.path.abspath(__file__)))

from fixtures import EXAMPLE_ANSWER, ROOT, Folder, run  # noqa: E402

from bendfile import answers, as_json, binary, describe, numbers, picture, pull, pull_picture, states, svg, validation  # noqa: E402
from bendfile.problem import BadInput, Labels  # noqa: E402

REPORT = "sweeps 1 passes 1 converged 1 exact 1 idle 0 residual 0000000000000000\n"


def described(rows, matrix, motion=(), tolerance=0):
    """A problem; a row is document 01's example with some fields changed."""
    usual = {"kind": "custom", "lo": 0, "hi": "inf", "scale": 1, "free_motion": -4}
    rows = [{"name": f"pad {i}", **(row if row.get("kind") == "friction" else {**usual, **row})} for i, row in enumerate(rows)]
    text = json.dumps({"rows": rows, "matrix": matrix, "motion": list(motion), "tolerance": tolerance})
    return describe.build(as_json.read(text.encode()))


def answered(*rows, report=REPORT, first="solved", last=""):
    """An answer's text; a row is its state and its load's bits or value."""
    lines = [f"row {i} {state} {load if isinstance(load, int) else numbers.to_bits(load):016X}\n" for i, (state, load) in enumerate(rows)]
    return (first + "\n" + report + "".join(lines) + last).encode()


IDLE = "sweeps 0 passes 0 converged 1 exact 1 idle 1 residual 0000000000000000\n"
NAN = numbers.NAN
# An input that the solver takes, bendsolve's answer to it, and what must be said.
DOUBTFUL = [
    (described([{}], [[0]]), answered(("Z", 0), report=IDLE), 'row 0 ("pad 0"): its own entry of the matrix is 0, not a number above 0, so'),
    (described([{}], [["nan"]]), answered(("Z", 0), report=IDLE), 'row 0 ("pad 0"): its own entry of the matrix is nan, not a number above 0'),
    (described([{"lo": "nan"}], [[2]]), answered(("I", 2.0)), 'row 0 ("pad 0"): lo is nan, which limits nothing'),
    (described([{"hi": "nan"}], [[2]]), answered(("I", 2.0)), 'row 0 ("pad 0"): hi is nan, which limits nothing'),
    (described([{"lo": 3, "hi": 1}], [[2]]), answered(("L", 3.0)), 'row 0 ("pad 0"): lo 3 is above hi 1, so no load lies between them'),
    (described([{"lo": "inf"}], [[2]]), answered(("I", NAN)), 'row 0 ("pad 0"): lo inf and hi inf leave no finite load'),
    (described([{"free_motion": "nan"}], [[2]]), answered(("I", NAN)), 'row 0 ("pad 0"): free_motion is nan'),
    (described([{"free_motion": "inf"}], [[2]]), answered(("L", 0.0)), 'row 0 ("pad 0"): free_motion is inf'),
    (described([{"start": "nan"}], [[2]]), answered(("I", NAN)), 'row 0 ("pad 0"): start is nan'),
    (described([{}], [[2]], [["nan"]]), answered(("I", 2.0)), "motion: value (0, 0) is nan"),
    (described([{}], [[2]], [], "nan"), answered(("I", 2.0)), "tolerance is nan, so the sweeps cannot stop by it"),
    (described([{}], [["inf"]]), answered(("I", NAN)), "matrix: entry (0, 0) is inf"),
    (described([{}, {}], [[2, "nan"], [0, 2]]), answered(("I", NAN), ("I", NAN)), "matrix: entry (0, 1) is nan"),
]


class Doubts(Folder):
    def test_named_everywhere(self):
        """Below the table and in the picture, in red, and the first line is not a plain one; the file was not made by `make`."""
        for made, data, words in DOUBTFUL:
            with self.subTest(words):
                file, answer = self.put("a.bend", binary.encode(made)), self.put("a.txt", data)
                words = words.replace('row 0 ("pad 0")', "row 0")
                shown = run("answer", answer, file)[1].decode()
                self.assertIn(f"\nInput, {words}", shown)
                self.assertRegex(shown.splitlines()[0], "^solved, exact, but (see the notes below|[12] rows? without a load: do not use)$")
                self.assertEqual(run("picture", answer, file, "-o", self.path("a.svg"))[0], 0)
                red = [t.text for t in ElementTree.fromstring(self.get("a.svg")).iter("{http://www.w3.org/2000/svg}text") if t.get("fill") == svg.RED]
                self.assertIn(f"Input, {words}", " ".join(red))
                self.assertIn(shown.splitlines()[0], red)
                self.assertIn(f"\nInput, {words}", run("show", file)[1].decode())

    def test_make_warns(self):
        for made, _, words in DOUBTFUL:
            run("show", "--json", self.put("a.bend", binary.encode(made)), "-o", self.path("a.json"))
            text = self.get("a.json").decode().replace("row ", "pad ")
            self.assertIn(words.split('"): ')[-1], run("make", self.put("b.json", text.encode()), "-o", self.path("b.bend"))[2])

    def test_walkthrough(self):
        """The page's example of a doubtful input is what the tool prints."""
        made = described([{"free_motion": -1}, {"free_motion": "nan"}], [[1, 0], [0, 1]])
        made.labels.names = ["pad 1", "pad 2"]
        made.before = binary.label_bytes(made.labels)
        shown = run("answer", self.put("a.txt", answered(("I", NAN), ("I", NAN))), self.put("a.bend", binary.encode(made)))[1].decode()
        with open(os.path.join(ROOT, "docs", "WALKTHROUGH.md"), encoding="utf-8") as file:
            self.assertIn("\n```\n" + shown + "```\n", file.read())

    def test_scale(self):
        """A scale that the solver refuses is told by `show`, and by `make` where it writes it."""
        made = binary.encode(described([{"scale": 0}], [[2]]))
        self.assertIn(b"Input, row 0: scale is 0, which the solver refuses (number 8).", run("show", self.put("a.bend", made))[1])

    def test_many(self):
        """A matrix full of NaN is told in one line."""
        made = described([{}] * 4, [["nan"] * 4] * 4)
        shown = run("show", self.put("a.bend", binary.encode(made)))[1].decode()
        self.assertIn("Input, matrix: entry (0, 1) is nan, (0, 2) is nan, (0, 3) is nan, and 9 more are NaN or infinite.\n", shown)

    def test_asymmetry(self):
        """An asymmetric matrix is noted; zeros of either sign are the same."""
        data = answered(("I", 2.0), ("I", 2.0))
        shown = run("answer", self.put("a.txt", data), self.put("a.bend", binary.encode(described([{}, {}], [[2, 0], ["-0.0", 2]]))))[1].decode()
        self.assertNotIn("Input", shown)
        made = described([{}, {"free_motion": 4, "lo": "-inf"}], [[2, 0], [1, 2]])
        shown = run("answer", self.put("a.txt", answered(("I", 2.0), ("I", -3.0))), self.put("a.bend", binary.encode(made)))[1].decode()
        self.assertIn("Input, matrix: entry (1, 0) is 1, entry (0, 1) is 0; the solver expects a symmetric matrix.", shown)

    def test_out_of_range(self):
        """A NaN load where every number of the input is finite is told as such."""
        made = described([{"free_motion": -1e308, "scale": 1e300}, {"free_motion": 1e308, "scale": 1e300}], [[1e-308, 1e308], [1e308, 1e-308]])
        shown = run("answer", self.put("a.txt", answered(("I", NAN), ("I", NAN))), self.put("a.bend", binary.encode(made)))[1].decode()
        self.assertIn("No load was found for row 0, row 1: a sum went out of range, though every number of the input is finite.", shown)

    def test_without_the_file(self):
        shown = run("answer", self.put("a.txt", answered(("Z", 0), report=IDLE)))[1].decode()
        self.assertEqual(shown.splitlines()[0], "solved, exact, but see the notes below")
        self.assertIn("Cannot act (Idle): row 0. Their own entries of the matrix are NaN or not above 0.", shown)


class Words(Folder):
    def shown(self, made, data):
        return run("answer", self.put("a.txt", data), self.put("a.bend", binary.encode(made)))[1].decode()

    def test_zeros(self):
        """A zero has no sign among six digits, and keeps it among all."""
        made = described([{"kind": "friction", "bound": 0, "scale": 1, "free_motion": 4}], [[1]])
        self.assertNotIn("-0", self.shown(made, answered(("L", -0.0))))
        self.assertIn("-0.0", run("answer", "--full", self.path("a.txt"), self.path("a.bend"))[1].decode())

    def test_growth(self):
        """Document 01's case 3: residual 0, and a position of the shaft that meets the row."""
        made = described([{"free_motion": -1}], [[2.0**-24]])
        report = "sweeps 1 passes 0 converged 0 exact 0 idle 0 residual 0000000000000000\n"
        shown = self.shown(made, answered(("I", 2.0**24), report=report, first="infeasible growth", last="fights 0\n"))
        self.assertIn("Rows whose load grew past a million times its scale: row 0. That may be because no position of the shaft", shown)
        self.assertIn("grew\n", shown)
        self.assertNotIn("fight", shown)

    def test_residual(self):
        """An exact answer whose residual is above 1e-9 is not called plainly exact."""
        made = described([{"lo": "-inf"}], [[2]])
        report = f"sweeps 1 passes 1 converged 1 exact 1 idle 0 residual {numbers.to_bits(0.5):016X}\n"
        shown = self.shown(made, answered(("I", 2.5), report=report))
        self.assertTrue(shown.startswith("solved, exact, but see the notes below\n"))
        self.assertIn("The residual is above 1e-9", shown)

    def test_fights(self):
        """What a ray shows is said only of an input that leaves no doubt."""
        report = "sweeps 1 passes 1 converged 0 exact 0 idle 0 residual 0000000000000000\n"
        for corner, plain in ((-1, True), (-2, False)):
            made = described([{"free_motion": -1}] * 2, [[1, corner], [-1, 1]])
            answer = answers.read(answered(("I", 0.0), ("I", 0.0), report=report, first="infeasible pass", last="fights 0 1\n"))
            answer.residual = numbers.to_bits(answers.residual(made, answer))
            self.assertEqual("No position of a shaft with this matrix meets every row." in " ".join(picture.tables.notes(answer, made)), plain)

    def test_stop_of_bound_0(self):
        """AtLo whichever way it slides; the motion left tells the way."""
        for motion, words in ((-4, "slides down"), (4, "slides up"), (0, "still")):
            made = described([{"kind": "friction", "bound": 0, "scale": 1, "free_motion": motion}], [[1]])
            self.assertIn(f"AtLo: {words} ", self.shown(made, answered(("L", -0.0))))
        made = described([{"lo": 0, "hi": 0}], [[1]])
        self.assertIn("AtLo: on both its bounds ", self.shown(made, answered(("L", 0.0))))

    def test_at_its_limit(self):
        """On a bound with no motion left: not open, and not sliding."""
        stop = {"kind": "friction", "bound": 2, "scale": 2}
        for row, state, load, words in (
            ({"free_motion": 0}, "L", 0.0, "just touches"),
            ({"free_motion": 1e-12}, "L", 0.0, "just touches"),
            ({"free_motion": 1e-6}, "L", 0.0, "open"),
            ({**stop, "free_motion": -2}, "H", 2.0, "still, at its limit"),
            ({**stop, "free_motion": 2}, "L", -2.0, "still, at its limit"),
            ({**stop, "free_motion": -3}, "H", 2.0, "slides down"),
            ({**stop, "free_motion": 3}, "L", -2.0, "slides up"),
            ({**stop, "free_motion": -1}, "I", 1.0, "holds still"),
        ):
            self.assertIn(f": {words} ", self.shown(described([row], [[1]]), answered((state, load))))

    def test_not_converged(self):
        """No word of what a row does, and no mark of a bound."""
        made = described([{"kind": "friction", "bound": 2, "scale": 2, "free_motion": -1}, {"free_motion": 1}], [[1, 0], [0, 1]])
        report = "sweeps 200 passes 9 converged 0 exact 0 idle 0 residual 0000000000000000\n"
        shown = self.shown(made, answered(("I", 1.0), ("L", 0.0), report=report))
        self.assertIn("solved by sweeps, not converged: do not use\n", shown)
        self.assertIn("stopped (Inside)", shown)
        self.assertIn("stopped (AtLo)", shown)
        for words in ("holds still", "open"):
            self.assertNotIn(words, shown)
        answer = answers.read(self.get("a.txt"))
        self.assertEqual([states.mark(answer, made, i) for i in range(2)], ["S", "S"])

    def test_near_a_bound(self):
        """Converged by sweeps, a load within 1e-9 of its bound: near it, and without its mark, in table and picture."""
        made, near = described([{"free_motion": 1}], [[1]]), 1e-10
        report = f"sweeps 3 passes 2 converged 1 exact 0 idle 0 residual {numbers.to_bits(near):016X}\n"
        data = answered(("L", near), report=report)
        self.assertIn("near lo: open", self.shown(made, data))
        drawn = picture.draw(answers.read(data), made)
        self.assertNotIn(picture.COLOURS["L"], drawn)
        self.assertIn("Where the solver stopped", drawn)

    def test_red_on_a_terminal_only(self):
        """Notes are red on a terminal, unless NO_COLOR is set, and never in a file."""
        answer = self.put("a.txt", answered(("Z", 0), report=IDLE))
        self.assertNotIn(b"\x1b", run("answer", answer)[1])
        with mock.patch("fixtures.Stream.isatty", return_value=True), mock.patch.dict(os.environ, {"TERM": "xterm"}):
            os.environ.pop("NO_COLOR", None)
            shown = run("answer", answer)[1].decode()
            self.assertEqual(shown.count("\x1b[31m"), 2)
            self.assertIn("\x1b[31msolved, exact, but see the notes below\x1b[0m\n", shown)
            self.assertNotIn(b"\x1b", run("answer", self.put("b.txt", EXAMPLE_ANSWER))[1])
            run("answer", answer, "-o", self.path("out.txt"))
            self.assertNotIn(b"\x1b", self.get("out.txt"))
            with mock.patch.dict(os.environ, {"NO_COLOR": "1"}):
                self.assertNotIn(b"\x1b", run("answer", answer)[1])


def change(**more):
    def apply(answer):
        for key, value in more.items():
            setattr(answer, key, value)

    return apply


def state(row, letter):
    return lambda answer: answer.states.__setitem__(row, letter)


def load(row, value):
    return lambda answer: answer.loads.__setitem__(row, numbers.to_bits(value))


class Fits(unittest.TestCase):
    """An answer is held against its file: what does not follow from it is refused."""

    def refused(self, made, data, apply, words):
        answer = answers.read(data)
        answer.residual = numbers.to_bits(answers.residual(made, answer))
        validation.check(answer, made)
        apply(answer)
        if not words.startswith("the answer's residual") and "own entry" not in words:
            answer.residual = numbers.to_bits(answers.residual(made, answer))
        with self.assertRaises(BadInput) as caught:
            validation.check(answer, made)
        self.assertIn(words, str(caught.exception))

    def test_exact(self):
        made = described([{"free_motion": 1}, {}, {"kind": "friction", "bound": 2, "scale": 2, "free_motion": -9}], [[1, 0, 0], [0, 2, 0], [0, 0, 1]])
        data = answered(("L", 0.0), ("I", 2.0), ("H", 2.0))
        for apply, words in (
            (state(1, "L"), "row 1 (\"pad 1\") has state L and the load 2, and that bound is 0"),
            (state(2, "L"), "has state L and the load 2, and that bound is -2"),
            (state(0, "H"), "has state H, and that bound is inf"),
            (load(0, 1e-300), "has state L and the load 1e-300, and that bound is 0"),
            (change(passes=0), "the answer has 0 exact passes, and 1 sweeps make 1"),
            (change(sweeps=2), "the answer has 1 exact passes, and 2 sweeps make 2"),
            (change(sweeps=3, passes=2), "an exact pass ended the solve after 3 sweeps, and none is made there"),
            (change(sweeps=0, passes=0), "the answer has 0 sweeps, and 1 to 200 are made"),
            (change(sweeps=201, passes=9), "the answer has 201 sweeps"),
            (change(converged=False), "says exact and not converged"),
            (change(exact=False, converged=False), "solved and not converged after 1 sweeps, and only 200 end so"),
            (change(residual=1), "the answer's residual is 5e-324, and its loads in the bend file give 0.0"),
        ):
            with self.subTest(words):
                self.refused(made, data, apply, words)
        pushed = described([{}], [[2]])
        self.refused(pushed, answered(("I", 2.0)), lambda a: (state(0, "L")(a), load(0, 0.0)(a)), "has state L, and its motion -4.0 pushes it inside")

    def test_sweeps(self):
        made = described([{"free_motion": 1}, {}], [[1, 0], [0, 2]])
        report = "sweeps 5 passes 3 converged 1 exact 0 idle 0 residual 0000000000000000\n"
        data = answered(("L", 0.0), ("I", 2.0), report=report)
        for apply, words in (
            (state(0, "I"), "has state I, and its load 0 shows L"),
            (state(1, "L"), "has state L, and its load 2 shows I"),
            (load(0, -1e-10), "has the load -1e-10 outside its bounds"),
            (load(1, 2.5), "the answer says converged, not exact, and its residual is 0.5"),
            (change(passes=4), "the answer has 4 exact passes, and 5 sweeps make 3"),
        ):
            with self.subTest(words):
                self.refused(made, data, apply, words)
        free = described([{"free_motion": -3e6, "hi": 5e6, "scale": 4}], [[1]])

        def further(answer):
            free.free_motion[0] = numbers.to_bits(-4.5e6)
            load(0, 4.5e6)(answer)

        self.refused(free, answered(("I", 3e6), report=report), further, "past a million scales")

    def test_idle(self):
        made = described([{"lo": 3, "hi": 5}], [[0]])
        data = answered(("Z", 3.0), report=IDLE)
        for apply, words in (
            (load(0, 4.0), "is Idle with the load 4, and it starts and stays at 3.0"),
            (change(sweeps=1, passes=1), "the answer has 1 sweeps, and none is made where no row acts"),
            (lambda a: (state(0, "I")(a), change(idle=0)(a)), "has state I, and its own entry of the file's matrix is 0"),
        ):
            with self.subTest(words):
                self.refused(made, data, apply, words)

    def test_infeasible(self):
        grown = described([{"free_motion": -1}], [[2.0**-24]])
        report = "sweeps 1 passes 0 converged 0 exact 0 idle 0 residual 0000000000000000\n"
        data = answered(("I", 2.0**24), report=report, first="infeasible growth", last="fights 0\n")
        for apply, words in (
            (change(passes=1), "the answer has 1 exact passes, and 1 sweeps make 0"),
            (change(converged=True), "the answer is infeasible and says converged or exact"),
            (load(0, 1.0), "growth lists the rows [0], and those past a million scales are []"),
            (state(0, "L"), "has state L, and no exact pass was made that could hold it there"),
            (change(cause="pass", passes=1), "has a load past a million scales, which ends a solve by growth"),
        ):
            with self.subTest(words):
                self.refused(grown, data, apply, words)
        made = described([{"free_motion": -1}, {"free_motion": -1}, {"hi": 1}], [[1, -1, 0], [-1, 1, 0], [0, 0, 1]])
        data = answered(("I", 1.0), ("I", 2.0), ("H", 1.0), report=report.replace("passes 0", "passes 1"), first="infeasible pass", last="fights 0 1\n")
        self.refused(made, data, change(fights=[0, 2]), 'row 2 ("pad 2") is listed, and it has a limit on both sides')
        self.refused(made, data, change(sweeps=3, passes=2), "an exact pass ended the solve after 3 sweeps")

    def test_passes(self):
        """The passes that so many sweeps make, in full: one for each of 1, 2, 4 .. 128, 200 not above them, below them by growth."""
        for sweeps in range(1, 201):
            wanted = len([p for p in (1, 2, 4, 8, 16, 32, 64, 128, 200) if p <= sweeps])
            before = len([p for p in (1, 2, 4, 8, 16, 32, 64, 128, 200) if p < sweeps])
            for passes in range(11):
                for cause, made in (("sweep", wanted), ("growth", before)):
                    answer = answers.Answer("infeasible", cause, states=["I"], sweeps=sweeps, passes=passes)
                    if passes == made:
                        validation._counts(answer)
                    else:
                        with self.assertRaises(BadInput):
                            validation._counts(answer)

    def test_command(self):
        """`answer` and `picture` refuse an answer that does not fit, and write nothing."""
        path = os.path.join(ROOT, "examples", "shaft-six-pads", "shaft-six-pads")
        with open(path + ".answer.txt", "rb") as file:
            text = file.read().decode()
        for changed in (text.replace("sweeps 1", "sweeps 2"), text.replace("row 7 H", "row 7 L"), text.replace("row 2 I", "row 2 L")):
            status, out, err = run("answer", "-", path + ".bend", stdin=changed.encode())
            self.assertEqual((status, out), (1, b""))
            self.assertRegex(err, "^bend.py: standard input: .*; expected the answer to this file\n$")


class Room(unittest.TestCase):
    """Long names, units and titles stay inside the picture and inside their columns."""

    def test_texts(self):
        for long in ("W" * 90, "kilopond per bundle of wires " * 5, "Ü" * 90, "漢" * 60, "i" * 200):
            made = described([{}, {"kind": "friction", "bound": 2, "scale": 2, "free_motion": -9}], [[2, 0], [0, 1]])
            made.labels = Labels(title=long.strip(), load_unit=long.strip(), motion_unit=long.strip(), names=[long.strip(), "b"])
            for first, last in (("solved", ""), ("infeasible pass", "fights 0\n")):
                answer = answers.read(answered(("I", 2.0), ("H", 2.0), first=first, last=last))
                for part in ElementTree.fromstring(picture.draw(answer, made)).iter("{http://www.w3.org/2000/svg}text"):
                    left, size = float(part.get("x")), float(part.get("font-size"))
                    wide = svg.width(part.text, size)
                    left -= {"end": wide, "middle": wide / 2}.get(part.get("text-anchor"), 0)
                    self.assertTrue(0 <= left and left + wide <= svg.WIDTH, part.text)
                    if left == picture.LEFT and size in (11, 13) and part.text.startswith((long[:3], "0 to")):
                        self.assertLess(left + wide, picture.PLOT_LEFT)

    def test_pull(self):
        """The picture of a pull too, also where every step has a note."""
        for long in ("W" * 90, "漢" * 60):
            made = described([{}], [[2]])
            made.labels = Labels(title=long, load_unit=long, names=[long])
            found = [answers.read(answered(("I", 2.0))), answers.Answer("refused", number=8), answers.read(answered(("I", NAN)))]
            for many in (1, 13):
                drawn = pull_picture.draw(pull.Pull([made] * 3 * many, [0] * 3 * many), found * many)
                for part in ElementTree.fromstring(drawn).iter("{http://www.w3.org/2000/svg}text"):
                    wide = svg.width(part.text, float(part.get("font-size")))
                    left = float(part.get("x")) - {"end": wide, "middle": wide / 2}.get(part.get("text-anchor"), 0)
                    self.assertTrue(0 <= left and left + wide <= svg.WIDTH, part.text)

    def test_wrapped(self):
        self.assertEqual(svg.wrapped("a b", 100), ["a b"])
        lines = svg.wrapped("x" * 100, 130)
        self.assertEqual("".join(lines), "x" * 100)
        self.assertTrue(all(svg.width(line) <= 130 for line in lines))
        cut = svg.wrapped("word " * 100, 200, most=2)
        self.assertEqual((len(cut), cut[1][-1]), (2, "…"))
        self.assertTrue(re.fullmatch(r"(word )+w?o?r?d?…", cut[1]))

    def test_fitted(self):
        self.assertEqual(svg.fitted("pad 1", 100), "pad 1")
        self.assertTrue(svg.width(svg.fitted("W" * 50, 100)) <= 100)


if __name__ == "__main__":
    unittest.main()
