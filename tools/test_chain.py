"""Tests of chained bend files, a whole pull in one file. From the repository's folder: python3 -m unittest tools/test_chain.py"""

import hashlib
import os
import random
import re
import struct
import sys
import unittest
import xml.etree.ElementTree as ElementTree

sys.path.insert(0, os.path.dirname(os.path.abspath(__file__)))

from fixtures import EXAMPLE_ANSWER, EXAMPLE_BYTES, FIGHT_ANSWER, HERE, ROOT, Folder, run, some_bits, some_problem  # noqa: E402

from bendfile import answers, binary, chain, numbers, pull, pull_picture, pull_tables, svg  # noqa: E402
from bendfile.problem import BadInput, Labels  # noqa: E402

PULL = os.path.join(ROOT, "examples", "pull")


def bare(rows, coordinates, values, link, start=4, before=b""):
    """A step of a chained file, written out by hand."""
    return before + struct.pack(f"<I{len(values)}QIHHI4s", link, *values, start, rows, coordinates, len(values), b"BEND")


def alone(rows, coordinates, values, before=b""):
    return before + struct.pack(f"<{len(values)}QIHHI4s", *values, len(before), rows, coordinates, len(values), b"BEND")


def told(call, data):
    """What a reader says: its steps, or the number of its refusal."""
    try:
        return call(data)
    except BadInput as wrong:
        return int(re.search(r"\(refused (\d+)\)$", str(wrong)).group(1))


def shown(problem):
    """Rows, coordinates, count and numbers of a step, all NaNs as one."""
    values = struct.unpack_from(f"<{(len(binary.encode(problem)) - len(problem.before) - 16) // 8}Q", binary.encode(problem), len(problem.before))
    values = [numbers.NAN if numbers.is_nan(v) else v for v in values]
    return f"{problem.rows} {len(problem.motion)} {len(values)} " + " ".join(f"{v:016X}" for v in values)


def steps_text(data):
    problems = pull.read_chain(data).problems
    for problem in problems:
        problem.before = b""
    return f"steps {len(problems)}: " + "; ".join(map(shown, problems[::-1]))


def cases():
    """The worked examples: number and words, the file's bytes, what a chain's reader says, what document 01's reader says."""
    with open(os.path.join(HERE, "chain_cases.txt"), encoding="ascii") as file:
        blocks = file.read().split("\n\n")[1:]
    for block in blocks:
        words, file, expected, old = block.rstrip("\n").split("\n")
        front, _, rest = file.removeprefix("file ").rpartition("+")
        byte, _, many = front.partition("*")
        data = bytes.fromhex(byte) * int(many or 0) + bytes.fromhex("" if rest == "-" else rest)
        yield words, data, expected, old.removeprefix("old ")


def reference(data):
    """A second reader, by the sentences of document 02 from the other side: cut off the newest step, then read what is left as a chain. Links
    of the steps newest first, or a number."""

    def rest(end, made):
        if made == 40:
            return 15
        if end < 16 or end > 1048576:
            return 1
        places = (("start", 16, 4), ("n", 12, 2), ("c", 10, 2), ("count", 8, 4))
        field = {name: int.from_bytes(data[end - at : end - at + size], "little") for name, at, size in places}
        if data[end - 4 : end] != b"\x42\x45\x4e\x44":
            return 2
        n, c = field["n"], field["c"]
        if n > 32 or c * n > 2048:
            return 3
        if field["count"] != n * n + 5 * n + c * n + 1:
            return 4
        own = end - 16 - 8 * field["count"] - 4
        if own < 0 or int.from_bytes(data[own : own + 4], "little") > own:
            return 14
        link = int.from_bytes(data[own : own + 4], "little")
        if link + field["start"] != own + 4:
            return 4
        older = [] if link == 0 else rest(link, made + 1)
        return older if isinstance(older, int) else [link, *older]

    return rest(len(data), 0)


def some_chain(source):
    """A chain of small steps with free bytes here and there."""
    made = b""
    for _ in range(source.choice([1, 1, 2, 3, 5, 39, 40, 41])):
        rows, coordinates = source.choice([(0, 0), (0, 0), (0, 3), (1, 1), (2, 0)])
        values = [source.getrandbits(64) for _ in range(rows * rows + 5 * rows + coordinates * rows + 1)]
        free = source.randbytes(source.choice([0, 0, 0, 1, 4, 20]))
        made += bare(rows, coordinates, values, len(made), len(free) + 4, free)
    return made


def damaged(source, data):
    """One chain with a byte or a field changed, cut, or made longer."""
    data, way = bytearray(data), source.randrange(6)
    if way == 0:
        data[source.randrange(len(data))] = source.choice([0, 1, 4, 15, 16, 27, 28, 255, source.randrange(256)])
    elif way == 1:
        at = source.randrange(max(1, len(data) - 28), len(data))
        data[at] = (data[at] + source.choice([1, 255])) % 256
    elif way == 2:
        del data[: source.randrange(30)]
    elif way == 3:
        del data[len(data) - source.randrange(30) :]
    elif way == 4:
        data[:0] = source.randbytes(source.randrange(30))
    else:
        at = source.randrange(0, len(data), 4)
        data[at : at + 4] = struct.pack("<I", source.choice([0, 1, 15, 16, 27, 28, at, at + 1, len(data), 0xFFFFFFFF]))
    return bytes(data)


class Reader(unittest.TestCase):
    def test_worked_examples(self):
        """Steps or number by document 02's rules, and the same bytes by document 01's."""
        count = 0
        for words, data, expected, old in cases():
            with self.subTest(words):
                found = told(steps_text, data)
                self.assertEqual(found if isinstance(found, str) else f"refused {found}", expected)
                found = told(lambda d: struct.unpack("<IHHI", binary.decode(d) and d[-16:-4]), data)
                self.assertEqual(f"refused {found}" if isinstance(found, int) else " ".join(map(str, found)), old)
            count += 1
        self.assertEqual(count, 42)

    def test_largest(self):
        """40 of the largest steps, whose numbers have the bits 0, 1, 2 ..: the length and the hash of the whole are known."""
        file = alone(32, 64, range(3233))
        data = chain.joined([file] * 40)
        self.assertEqual((len(data), hashlib.sha256(data).hexdigest()[:16]), (1035360, "138a20c7884119ed"))
        self.assertEqual(chain.cut(data), [file] * 40)

    def test_damaged(self):
        """A second reader says the same of whole and damaged chains: steps with the same links, or the same number."""
        source, seen = random.Random(11), set()
        for _ in range(20000):
            data = some_chain(source)
            if source.random() < 0.9:
                data = damaged(source, data)
            expected = reference(data)
            found = told(lambda d: [step.linked for step in chain.steps(d)[::-1]], data)
            self.assertEqual(found, expected, data.hex())
            seen.add(found if isinstance(found, int) else 0)
        self.assertEqual(seen, {0, 1, 2, 3, 4, 14, 15})

    def test_a_chain_is_no_bend_file(self):
        """Of several steps never; of one step it is both, and is read as the same numbers either way."""
        source = random.Random(12)
        for _ in range(500):
            data = some_chain(source)
            found = told(chain.steps, data)
            if found == 15:
                continue
            if len(found) > 1:
                self.assertEqual(told(binary.decode, data), 4)
            else:
                self.assertEqual(shown(binary.decode(data)), shown(pull.read_chain(data).problems[0]))

    def test_words(self):
        """A refusal says which step, what was found and what was expected."""
        one, second = bare(0, 0, [0], 0), "step 2 counted from the newest, which ends at byte"
        for data, words in (
            (one[:-1] + b"X" + bare(0, 0, [0], 28), f"{second} 28: mark: the last four bytes are 42 45 4E 58; expected 42 45 4E 44 (refused 2)"),
            (bytes(15), "the newest step: length: found 15 bytes; expected 16 to 1048576 (refused 1)"),
            (one[1:-16] + b"\3" + one[-15:], "the newest step: link: count 1 leaves 3 bytes before the numbers; expected at least 4 (refused 14)"),
            (one[-16:], "link: count 1 leaves 0 bytes before the numbers; expected at least 4 (refused 14)"),
            (bare(0, 0, [0], 1), "the newest step: link: found 1; expected at most 0, its own offset (refused 14)"),
            (bare(0, 0, [0], 0, 5), "length: start 5 and count 1 make 29 bytes; from the linked offset 0 to 28 there are 28 (refused 4)"),
            (bare(0, 0, [0], 9, 4, bytes(9)), f"{second} 9: length: found 9 bytes; expected 16 to 1048576 (refused 1)"),
            (b"".join(bare(0, 0, [0], 28 * i) for i in range(41)), "there are 40 newer ones; expected at most 40 steps in a pull (refused 15)"),
        ):
            with self.assertRaises(BadInput) as caught:
                chain.steps(data)
            self.assertIn(words, str(caught.exception))


class Writer(Folder):
    def test_worked_examples(self):
        """One step, two, and three, oldest first; -0, an infinity and the smallest number keep their bits; 40 steps."""
        one = EXAMPLE_BYTES
        self.assertEqual(chain.joined([one]), bytes(4) + one[:-16] + b"\x04" + one[-15:])
        self.assertEqual(chain.joined([one, alone(0, 0, [1])]), bytes(4) + one[:-16] + b"\x04" + one[-15:] + bare(0, 0, [1], 84))
        values = (0x8000000000000000, 0xFFF0000000000000, 1)
        made = chain.joined([alone(0, 0, [v]) for v in values])
        self.assertEqual(made, b"".join(bare(0, 0, [v], 28 * i) for i, v in enumerate(values)))
        made = chain.joined([alone(0, 0, [0x3FF0000000000000 + i]) for i in range(40)])
        self.assertEqual((len(made), hashlib.sha256(made).hexdigest()[:16]), (1120, "b4e9b0dbf7f7951e"))

    def test_round_trip(self):
        """What is put together comes apart as the same files, byte for byte; without free bytes, as the same numbers."""
        source = random.Random(13)
        for _ in range(60):
            free = [source.randbytes(source.choice([0, 3, 50])) for _ in range(source.randrange(1, 41))]
            problems = [some_problem(source, source.randrange(5), source.randrange(4), before) for before in free]
            files = [binary.encode(p) for p in problems]
            made = chain.joined(files)
            self.assertEqual(chain.cut(made), files)
            self.assertEqual(chain.cut(made, free=False), chain.cut(chain.joined(files, free=False)))
            for problem in problems:
                problem.before = b""
            self.assertEqual(chain.cut(made, free=False), [binary.encode(p) for p in problems])

    def refused(self, words, *arguments):
        """A message of one line, and nothing written: what was there stays, and nothing is left beside it."""
        before = {name: self.get(name) for name in os.listdir(self.folder) if os.path.isfile(self.path(name))}
        status, out, err = run(*arguments)
        self.assertEqual((status, out, len(err.splitlines())), (1, b"", 1), err)
        self.assertIn(words, err)
        self.assertEqual({name: self.get(name) for name in os.listdir(self.folder)}, before)

    def test_chain_refuses(self):
        one, old = self.put("one.bend", alone(0, 0, [0])), self.put("out", b"old")
        self.refused("found 41 steps; expected 1 to 40 in a pull (refused 15)", "chain", *[one] * 41, "-o", old)
        self.assertEqual((told(chain.joined, []), told(chain.joined, [alone(0, 0, [0])] * 41)), (15, 15))
        bad = self.put("bad.bend", alone(33, 0, []))
        self.refused(f"{bad}: trailer: found 33 rows", "chain", one, bad, self.put("worse.bend", alone(0, 0, [])), "-o", old)
        self.refused("no.bend: cannot be read", "chain", one, self.path("no.bend"), "-o", old)
        # A step that is a pull itself: its bytes would be taken for one step's.
        two = self.put("two", chain.joined([alone(0, 0, [0])] * 2))
        self.refused("(refused 4)", "chain", one, two, "-o", old)
        large = self.put("large.bend", alone(0, 0, [0], bytes(65000)))
        self.refused("out: the pull has 1105", "chain", *[large] * 17, "-o", old)
        self.assertEqual(run("chain", "--no-free", *[large] * 17, "-o", old), (0, b"", ""))
        self.assertEqual(len(self.get("out")), 17 * 28)
        self.assertEqual(run("chain", one, "-o", one)[0], 2)
        self.assertEqual(run("chain", "-o", old)[0], 2)

    def test_split_refuses(self):
        """A damaged chain leaves no folder, and a folder with files in it is not written into."""
        new = self.path("new")
        for words, data, expected, _ in cases():
            if expected.startswith("refused "):
                self.refused(f"({expected})", "split", self.put("pull", data), "-o", new)
        large = self.put("pull", bytes(65520) + bare(0, 0, [0], 0, 65524)[:28])
        self.refused("step 1: its 65520 free bytes make a bend file of 65544 bytes; expected at most 65536 (--no-free", "split", large, "-o", new)
        self.assertEqual(run("split", "--no-free", large, "-o", new)[0], 0)
        self.assertEqual(self.get("new/step-01.bend"), alone(0, 0, [0]))
        status, _, err = run("split", large, "--no-free", "-o", new)
        self.assertEqual((status, "is there already; expected the name of a new folder" in err), (1, True))
        self.assertEqual(os.listdir(new), ["step-01.bend"])

    def test_split(self):
        """Files with ordinary modes in the order of the steps, also into an empty folder."""
        files = [alone(0, 0, [i]) for i in range(12)]
        os.mkdir(self.path("new"))
        self.assertEqual(run("split", self.put("pull", chain.joined(files)), "-o", self.path("new")), (0, b"", ""))
        self.assertEqual([self.get("new/" + name) for name in sorted(os.listdir(self.path("new")))], files)
        mask = os.umask(0)
        os.umask(mask)
        self.assertEqual(os.stat(self.path("new")).st_mode & 0o777, 0o777 & ~mask)
        self.assertEqual(os.stat(self.path("new/step-01.bend")).st_mode & 0o777, 0o666 & ~mask)


def example_answers():
    return [os.path.join(PULL, f"step-{i}.answer.txt") for i in range(1, 7)]


def content(path):
    with open(path, "rb") as file:
        return file.read()


class Pulls(Folder):
    """A whole pull as tables and as one picture."""

    def test_show(self):
        status, out, err = run("show", os.path.join(PULL, "pull.chain"))
        self.assertEqual((status, err), (0, ""))
        lines = out.decode().splitlines()
        self.assertEqual(lines[0], "A pull of 6 steps, 7153 bytes")
        for i, ram in enumerate((40, 80, 120, 160, 80, 0), 1):
            self.assertRegex(lines[2 + i], rf"^ +{i}  Pull, step {i} of 6, ram {ram} N +8 +2 +119\d +20\d$")
        self.assertIn("free motion (mm) of each row over the pull", lines)
        self.assertTrue(any(line.startswith("   6        0.4       1.6 ") for line in lines))

    def test_show_one_step(self):
        """A step of a pull is shown as its own file is, and its description makes that file again."""
        file, step = os.path.join(PULL, "pull.chain"), os.path.join(PULL, "step-3.bend")
        ours, theirs = (run(*call)[1].decode().splitlines() for call in (("show", "--step", "3", file), ("show", step)))
        self.assertEqual(ours[:1] + ours[2:], theirs[:1] + theirs[2:])
        self.assertEqual(run("show", "--json", "--step", "3", file, "-o", self.path("a.json"))[0], 0)
        self.assertEqual(run("make", self.path("a.json"), "-o", self.path("a.bend"))[0], 0)
        self.assertEqual(self.get("a.bend"), content(step))
        self.assertIn("--step 7; expected 1 to 6", run("show", "--step", "7", file)[2])
        self.assertEqual(run("show", "--json", file)[0], 2)

    def test_show_refuses(self):
        """A file that is neither is told both ways, unless both say the same."""
        data = content(os.path.join(PULL, "pull.chain"))
        err = run("show", self.put("a", data[:1191] + b"X" + data[1192:]))[2]
        self.assertIn("the file has 7153 (refused 4); as a pull: step 6 counted from the newest, which ends at byte 1192: mark: ", err)
        self.assertNotIn("as a pull", run("show", self.put("a", data[:-1]))[2])

    def test_answers(self):
        """Each load stands in its row's column and its step's line, and a file may hold several answers."""
        pulled = os.path.join(PULL, "pull.chain")
        out = run("answer", *example_answers(), pulled)[1].decode()
        self.assertEqual(out, content(os.path.join(PULL, "pull.table.txt")).decode())
        self.assertEqual(run("answer", self.put("all.txt", b"".join(map(content, example_answers()))), pulled)[1].decode(), out)
        self.assertIn("   5      0      0  10.3204  26.9348  17.7439  25.4803  23.3043     -20\n", out)
        self.assertIn("-20\n", run("answer", "--full", *example_answers(), pulled)[1].decode())

    def test_walkthrough(self):
        """The page shows the table that the tool prints, and its message is the tool's."""
        page = content(os.path.join(ROOT, "docs", "WALKTHROUGH.md")).decode("utf-8")
        self.assertIn("\n```\n" + content(os.path.join(PULL, "pull.table.txt")).decode() + "```\n", page)
        data = content(os.path.join(PULL, "pull.chain"))
        err = run("split", self.put("a", data[:1191] + b"X" + data[1192:]), "-o", self.path("new"))[2]
        self.assertIn(err.replace(self.path("a"), "pull.chain"), page)

    def test_answers_of_another_pull(self):
        pulled, found = os.path.join(PULL, "pull.chain"), example_answers()
        for names, words in (
            (found[:5], "pull.chain: found 5 answers to 6 steps; expected one per step"),
            (found + found[:1], "found 7 answers to 6 steps"),
            (found[1:2] + found[:1] + found[2:], "step-2.answer.txt: the answer's residual is"),
            ([self.put("a.txt", content(found[0]) + b"solved\n")] + found[2:], "a.txt: answer 2: line 2: found"),
        ):
            status, out, err = run("answer", *names, pulled)
            self.assertEqual((status, out), (1, b""))
            self.assertIn(words, err)

    def two_steps(self, second):
        """A pull of document 01's example twice, the second with another answer."""
        file = self.put("two.chain", chain.joined([EXAMPLE_BYTES, EXAMPLE_BYTES]))
        return self.put("a.txt", EXAMPLE_ANSWER), self.put("b.txt", second), file

    def test_steps_without_loads(self):
        """Refused, not converged or NaN: told step by step, and no number there looks like a load of the rig."""
        capped = EXAMPLE_ANSWER.replace(b"sweeps 1 passes 1 converged 1 exact 1", b"sweeps 200 passes 9 converged 0 exact 0")
        nan = EXAMPLE_ANSWER.replace(b"I 4000000000000000", b"I 7FF8000000000000")
        for second, cell, note in (
            (b"refused 8\n", "-", "Step 2: refused 8: solve: a scale is NaN"),
            (capped, "(2)", "Step 2: The sweeps ended at their cap"),
            (nan, "(NaN)", "Step 2: No load was found for row 0"),
        ):
            files = self.two_steps(second)
            out = run("answer", *files)[1].decode()
            self.assertRegex(out, rf"\n +1 +2\n +2 +{re.escape(cell)}\n")
            self.assertIn(note, out)
            self.assertEqual(run("picture", *files, "-o", self.path("a.svg"))[0], 0)
            words = "".join(ElementTree.fromstring(self.get("a.svg")).itertext())
            self.assertIn(note, words)

    def test_rows_that_come_and_go(self):
        """A row that a step does not have leaves its cell empty; names and not places say which row is which."""
        first, second = binary.decode(EXAMPLE_BYTES), binary.decode(EXAMPLE_BYTES)
        first.labels, second.labels = Labels(names=["left"]), Labels(names=["right"])
        made = pull.Pull([first, second], [0, 0])
        table = pull_tables.answer_table(made, [answers.read(EXAMPLE_ANSWER)] * 2)
        self.assertIn("step  left  right\n   1     2\n   2            2\n", table)
        drawn = ElementTree.fromstring(pull_picture.draw(made, [answers.read(EXAMPLE_ANSWER)] * 2))
        self.assertEqual([len(strip.findall("{*}circle")) for strip in drawn.findall("{*}g")], [1, 1])

    def test_one_unit(self):
        first, second = binary.decode(EXAMPLE_BYTES), binary.decode(EXAMPLE_BYTES)
        first.labels, second.labels = Labels(load_unit="N"), Labels(load_unit="kg")
        with self.assertRaisesRegex(BadInput, "step 2 has the unit kg, step 1 N; expected one unit over a pull"):
            pull_tables.answer_table(pull.Pull([first, second], [0, 0]), [answers.read(EXAMPLE_ANSWER)] * 2)

    def test_one_step_with_labels(self):
        """A chain of one step is shown with its labels, the link behind them."""
        made = chain.joined([content(os.path.join(PULL, "step-1.bend"))])
        self.assertIn(b"Pull, step 1 of 6", run("show", self.put("a", made))[1])


class Pictures(unittest.TestCase):
    def test_any_numbers(self):
        """Whatever the numbers are, the picture is well formed, has a strip per row and stays within its frame."""
        source = random.Random(14)
        for turn in range(60):
            rows, many = turn % 33, source.choice([1, 2, 7, 40])
            problems = [some_problem(source, rows, 1) for _ in range(many)]
            found = []
            for made in problems:
                states = ["Z" if made.idle(i) else source.choice("ILH") for i in range(rows)]
                found.append(answers.Answer("solved", converged=source.random() < 0.9, states=states, loads=[some_bits(source) for _ in states]))
            tree = ElementTree.fromstring(pull_picture.draw(pull.Pull(problems, [0] * many), found))
            self.assertEqual(len(tree.findall("{*}g")), rows)
            height = float(tree.get("height"))
            for part in tree.iter():
                for keys, most in ((("x", "x1", "x2", "cx"), svg.WIDTH), (("y", "y1", "y2", "cy"), height)):
                    self.assertTrue(all(-1 <= float(part.get(key, 0)) <= most for key in keys), part.attrib)

    def test_bars(self):
        """A bar's length goes with its load, on one scale over all strips; a step without loads has a red column and no bar."""
        made = pull.read(content(os.path.join(PULL, "pull.chain")))
        found = [answers.read(content(path)) for path in example_answers()]
        tree = ElementTree.fromstring(pull_picture.draw(made, found))
        bars = []
        for strip, name in zip(tree.findall("{*}g"), made.names()):
            drawn = [float(r.get("height")) for r in strip.findall("{*}rect") if r.get("fill") != pull_picture.BAND]
            bars += list(zip(drawn, (abs(numbers.to_float(a.loads[made.names().index(name)])) for a in found)))
        self.assertEqual(len(bars), 48)
        per_load = max(height for height, _ in bars) / max(load for _, load in bars)
        for height, load in bars:
            self.assertAlmostEqual(height, load * per_load, delta=0.11)
        found[2] = answers.Answer("infeasible", "pass", states=list("IIIIIIII"), loads=found[2].loads, fights=[6, 7])
        tree = ElementTree.fromstring(pull_picture.draw(made, found))
        self.assertEqual(len([r for r in tree.iter("{http://www.w3.org/2000/svg}rect") if r.get("fill") == pull_picture.PALE_RED]), 1)
        self.assertEqual([len(strip.findall("{*}circle") + strip.findall("{*}path")) for strip in tree.findall("{*}g")], [5] * 8)
        self.assertIn("Step 3: Rows that fight: stop A, stop B.", "".join(tree.itertext()))

    def test_spans(self):
        self.assertEqual(pull_picture.spans([1, 2, 3, 7, 9, 10]), "1-3, 7, 9-10")


class Answers(unittest.TestCase):
    def test_several_in_one_file(self):
        found = answers.read_all(EXAMPLE_ANSWER + b"refused 4\n" + FIGHT_ANSWER + EXAMPLE_ANSWER)
        self.assertEqual([a.outcome for a in found], ["solved", "refused", "infeasible", "solved"])
        self.assertEqual(found[2].fights, [0, 1])
        cut = EXAMPLE_ANSWER * 2 + b"row 1"
        for data, words in ((b"", "the answer is empty"), (b"x\n" + EXAMPLE_ANSWER, 'line 1: found "x"'), (cut, "answer 2: the last line has no end")):
            with self.assertRaisesRegex(BadInput, words):
                answers.read_all(data)


if __name__ == "__main__":
    unittest.main()
