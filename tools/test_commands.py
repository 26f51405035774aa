"""Tests of bend.py's commands at their edges: several files, limits, closed descriptors, read-only outputs, tables of other separators, and
`solve`. From the repository's folder: python3 -m unittest tools/test_commands.py"""

import os
import re
import shutil
import stat
import struct
import subprocess
import sys
import unittest
from unittest import mock

sys.path.insert(0, os.path.dirname(os.path.abspath(__file__)))

from fixtures import EXAMPLE, EXAMPLE_ANSWER, EXAMPLE_BYTES, HERE, ROOT, Folder, run  # noqa: E402

import bendfile  # noqa: E402
from bendfile import chain, inputs, solver  # noqa: E402

EXAMPLES = os.path.join(ROOT, "examples")
PULL = os.path.join(EXAMPLES, "pull")
STEPS = [os.path.join(PULL, f"step-{i}.bend") for i in range(1, 7)]
ANSWERS = [os.path.join(PULL, f"step-{i}.answer.txt") for i in range(1, 7)]


def content(path):
    with open(path, "rb") as file:
        return file.read()


class Several(Folder):
    """Several files of a pull."""

    def test_answer_and_picture(self):
        """The same table and picture as from the chained file, also with all answers in one file, and from a pull in two parts."""
        table, drawn = content(os.path.join(PULL, "pull.table.txt")), content(os.path.join(PULL, "pull.svg"))
        together = self.put("all.txt", b"".join(map(content, ANSWERS)))
        front = self.put("front", chain.joined([content(path) for path in STEPS[:4]]))
        for files in ([*ANSWERS, *STEPS], [together, *STEPS], [together, front, *STEPS[4:]], [*ANSWERS, os.path.join(PULL, "pull.chain")]):
            self.assertEqual(run("answer", *files), (0, table, ""))
            self.assertEqual(run("picture", *files, "-o", "-"), (0, drawn, ""))

    def test_show(self):
        """Listed like the chained file; only the links' bytes are not there."""
        ours = run("show", *STEPS)[1].decode().splitlines()
        theirs = run("show", os.path.join(PULL, "pull.chain"))[1].decode().splitlines()
        self.assertEqual((ours[0], theirs[0]), ("A pull of 6 steps, 7129 bytes", "A pull of 6 steps, 7153 bytes"))
        self.assertEqual(ours[10:], theirs[10:])
        self.assertEqual(run("show", "--step", "2", *STEPS)[1], run("show", STEPS[1])[1])
        self.assertEqual(run("show", "--json", *STEPS)[0], 2)

    def test_numbers_must_agree(self):
        for files, words in (
            ([*ANSWERS[:5], *STEPS], "found 5 answers to 6 steps; expected one per step"),
            ([*ANSWERS, *STEPS[:5]], "found 6 answers to 5 steps; expected one per step"),
            ([ANSWERS[0], *STEPS[:2]], "found 1 answer to 2 steps; expected one per step"),
        ):
            status, out, err = run("answer", *files)
            self.assertEqual((status, out), (1, b""))
            self.assertIn(words, err)

    def test_answers_without_files(self):
        """Several answers alone are shown one after the other; to draw them the files are needed."""
        self.assertEqual(run("answer", *ANSWERS[:2])[1].decode().count("solved, exact\n"), 2)
        self.assertEqual(run("picture", *ANSWERS[:2], "-o", self.path("a.svg"))[0], 2)

    def test_a_file_that_begins_like_an_answer(self):
        """A bend file whose free bytes look like an answer is refused with its name, and nothing is guessed."""
        odd = self.put("odd.bend", b"solved\n" + EXAMPLE_BYTES[:-16] + struct.pack("<I", 7) + EXAMPLE_BYTES[-12:])
        status, out, err = run("answer", self.put("a.txt", EXAMPLE_ANSWER), odd)
        self.assertEqual((status, out), (1, b""))
        self.assertIn("odd.bend", err)


class Limits(Folder):
    """Every input is read with a limit."""

    def test_endless(self):
        """An endless input gets a message at once."""
        good = self.put("a.json", EXAMPLE)
        for arguments, words in (
            (("make", "/dev/zero", "--from", "json", "-o", self.path("x")), "/dev/zero: found over 16777216 bytes; expected a description of at most that"),
            (("make", "/dev/zero", "--from", "csv", "-o", self.path("x")), "/dev/zero: found over 16777216 bytes"),
            (("make", good, "--free", "/dev/zero", "-o", self.path("x")), "/dev/zero: found over 65536 bytes; expected free bytes of at most that"),
            (("show", "/dev/zero"), "/dev/zero: length: found over 65536 bytes"),
            (("split", "/dev/zero", "-o", self.path("x")), "/dev/zero: the newest step: length: found over 1048576 bytes"),
            (("chain", "/dev/zero", "-o", self.path("x")), "/dev/zero: length: found over 65536 bytes"),
            (("answer", "/dev/zero"), "/dev/zero: found over 1048576 bytes; expected answers of at most that"),
            (("answer", self.put("a.txt", EXAMPLE_ANSWER), "/dev/zero"), "/dev/zero: length: found over 65536 bytes"),
            (("exact", "/dev/zero", self.path("a.txt")), "/dev/zero: length: found over 65536 bytes"),
            (("solve", "/dev/zero"), "/dev/zero: length: found over 65536 bytes"),
        ):
            with self.subTest(arguments):
                status, out, err = run(*arguments)
                self.assertEqual((status, out), (1, b""))
                self.assertIn(words, err)
                self.assertFalse(os.path.exists(self.path("x")))

    def test_endless_answers(self):
        """A second input that begins like an answer and never ends."""
        with mock.patch.object(inputs, "LARGEST_ANSWERS", 1000):
            self.assertIn("/dev/zero: ", run("answer", self.put("a.txt", EXAMPLE_ANSWER), "/dev/zero")[2])
            long = self.put("b.txt", EXAMPLE_ANSWER * 20)
            self.assertIn("b.txt: found over 1000 bytes", run("answer", self.put("a.txt", EXAMPLE_ANSWER), long)[2])

    def test_at_the_limit(self):
        with mock.patch.object(inputs, "LARGEST_ANSWERS", len(EXAMPLE_ANSWER)):
            self.assertEqual(run("answer", self.put("a.txt", EXAMPLE_ANSWER))[0], 0)
            self.assertEqual(run("answer", self.put("a.txt", EXAMPLE_ANSWER + b"\n"))[0], 1)

    def test_largest_description(self):
        """The largest descriptions are far below the limit: 65,535 coordinates without rows, and 32 rows with 64 coordinates."""
        for rows, coordinates in ((0, 65535), (32, 64)):
            count = rows * rows + 5 * rows + rows * coordinates + 1
            data = struct.pack(f"<{count}Q", *[0x3FF5555555555555] * count) + struct.pack("<IHHI4s", 0, rows, coordinates, count, b"BEND")
            for form in ("json", "csv"):
                run("show", "--" + form, self.put("a.bend", data), "-o", self.path("a." + form))
                self.assertLess(len(self.get("a." + form)), inputs.LARGEST_DESCRIPTION // 8)
                self.assertEqual(run("make", self.path("a." + form), "-o", self.path("b.bend"))[0], 0)
                self.assertEqual(self.get("b.bend"), data)


class Descriptors(Folder):
    """The program in a process of its own, with descriptors closed: a message, no traceback, and a status that tells."""

    def shell(self, line, **more):
        line = line.replace("bend.py", f'"{sys.executable}" "{HERE}/bend.py"')
        return subprocess.run(["sh", "-c", line], capture_output=True, timeout=60, cwd=self.folder, **more)

    def test_pipes(self):
        """Answers and a bend file from pipes, each of which can be read once."""
        for name, data in (("a.txt", EXAMPLE_ANSWER), ("a.bend", EXAMPLE_BYTES)):
            self.put(name, data)
        for name in ("one", "two", "file"):
            os.mkfifo(self.path(name))
        line = "cat a.txt > one & cat a.txt > two & cat a.bend > file & bend.py answer one two file a.bend; status=$?; wait; exit $status"
        ended = self.shell(line)
        self.assertEqual((ended.returncode, ended.stderr), (0, b""))
        self.assertTrue(ended.stdout.startswith(b"A pull of 2 steps\n"))

    def test_closed(self):
        self.put("a.bend", EXAMPLE_BYTES)
        self.put("a.txt", EXAMPLE_ANSWER)
        self.put("a.json", EXAMPLE)
        for line, status, words in (
            ("bend.py show - <&-", 1, "bend.py: standard input: cannot be read: it is closed\n"),
            ("bend.py answer - <&-", 1, "bend.py: standard input: cannot be read: it is closed\n"),
            ("bend.py show a.bend >&-", 1, "bend.py: standard output: cannot be written: it is closed\n"),
            ("bend.py answer a.txt a.bend >&-", 1, "bend.py: standard output: cannot be written: it is closed\n"),
            ("bend.py make a.json -o - >&-", 1, "bend.py: standard output: cannot be written: it is closed\n"),
            ("bend.py show a.bend > /dev/full", 1, "bend.py: standard output: cannot be written: No space left on device\n"),
            ("bend.py show no.bend 2>&-", 1, ""),
            ("bend.py show no.bend 2> /dev/full", 1, ""),
            ("bend.py turn 2>&-", 2, ""),
            ("bend.py show a.bend <&- >&- 2>&-", 1, ""),
        ):
            with self.subTest(line):
                ended = self.shell(line)
                self.assertEqual((ended.returncode, ended.stdout, ended.stderr.decode()), (status, b"", words))

    def test_files_all_the_same(self):
        """With all three closed a file is still read and written, and no descriptor's number is taken for another."""
        self.put("a.json", EXAMPLE)
        self.assertEqual(self.shell("bend.py make a.json -o a.bend <&- >&- 2>&-").returncode, 0)
        self.assertEqual(self.get("a.bend"), EXAMPLE_BYTES)

    def test_interrupted(self):
        with mock.patch("bendfile.inputs.pulls", side_effect=KeyboardInterrupt):
            self.assertEqual(run("show", "x"), (130, b"", "bend.py: interrupted; nothing more was written\n"))


class Outputs(Folder):
    def test_read_only(self):
        """A read-only file stays as it was, in every command that writes one."""
        file, answer, one = self.put("a.json", EXAMPLE), self.put("a.txt", EXAMPLE_ANSWER), self.put("a.bend", EXAMPLE_BYTES)
        kept = self.put("kept", b"old")
        os.chmod(kept, 0o444)
        for arguments in (("make", file), ("show", one), ("answer", answer, one), ("picture", answer, one), ("chain", one), ("exact", one, answer)):
            status, out, err = run(*arguments, "-o", kept)
            self.assertEqual((status, out, err), (1, b"", f"bend.py: {kept}: is there and is read-only; it was not replaced\n"))
            self.assertEqual((self.get("kept"), stat.S_IMODE(os.stat(kept).st_mode)), (b"old", 0o444))

    def test_version(self):
        """The version is the header's, where the header has one."""
        self.assertEqual(run("--version"), (0, f"bend.py {bendfile.VERSION}\n".encode(), ""))
        self.assertRegex(bendfile.VERSION, r"^\d+\.\d+\.\d+$")
        found = re.findall(rb'#define PISKORLU_VERSION "(.*)"', content(os.path.join(ROOT, "include", "piskorlu.h")))
        self.assertIn(found, ([], [bendfile.VERSION.encode()]))


TABLE = (
    'bend,1\ntitle,"One, two; three"\ntolerance,0.5\n\nrows,kind,scale,free_motion\npad,contact,1.5,-4\n\n'
    "matrix,pad\npad,2e0\n\nmotion,pad\nblade,1\n"
)


class Separators(Folder):
    """Tables as spreadsheets of other countries write them."""

    def made(self, text):
        status, out, err = run("make", self.put("a.csv", text.encode()), "-o", "-")
        return out if status == 0 else err

    def parted(self, mark):
        """The table with another mark between its cells; the title keeps its own comma and semicolon."""
        return "\n".join(line.replace(",", mark, 1 if line.startswith("title") else -1) for line in TABLE.split("\n"))

    def test_same_file(self):
        wanted = self.made(TABLE)
        self.assertIsInstance(wanted, bytes)
        for mark in (";", "\t"):
            self.assertEqual(self.made(self.parted(mark)), wanted, repr(mark))
        self.assertEqual(self.made("\ufeff" + self.parted(";").replace("\n", "\r\n")), wanted)
        self.assertEqual(self.made(self.parted(";").replace("bend;1", '"bend";"1"')), wanted)

    def test_decimal_comma(self):
        """A comma is the decimal mark only where semicolons part the cells, and only over the whole table."""
        text = "bend;1\ntolerance;0,5\n\nrows;kind;scale;free_motion\npad, left;contact;1,5;-4\n\nmatrix;pad, left\npad, left;2e0\n"
        self.assertEqual(struct.unpack("<7d", self.made(text)[:56]), (2.0, -4.0, 0.0, float("inf"), 1.5, 0.0, 0.5))
        self.assertIn('found the numbers "0,5" and "1.5"; expected one decimal mark over the whole table', self.made(text.replace("1,5", "1.5")))
        self.assertIn('scale: found "1,234,5"; expected a number such as', self.made(text.replace("1,5", "1,234,5")))
        self.assertIn('found "1,5"; expected a number such as', self.made(text.replace("0,5", "0.5").replace(";", "\t")))

    def test_what_is_written_is_read(self):
        """The stored example with other separators makes the same bend file."""
        path = os.path.join(EXAMPLES, "shaft-six-pads", "shaft-six-pads")
        lines = content(path + ".csv").decode().split("\n")
        for mark in (";", "\t"):
            text = "\n".join(line if line.startswith(("title", "note")) else line.replace(",", mark) for line in lines)
            text = re.sub(r"^(title|note),", rf"\1{mark}", text, flags=re.MULTILINE)
            self.assertEqual(self.made(text), content(path + ".bend"))


# An answer to document 01's example that does not fit: a load of 2 is not on the lower bound, 0.
MISFIT = r"solved\nsweeps 2 passes 2 converged 1 exact 1 idle 0 residual 0000000000000000\nrow 0 L 4000000000000000\n"
FAKE = """#!/bin/sh
cat > /dev/null
{}
"""


class Solve(Folder):
    """One command from a description to a table. The solver here is a stand-in that prints what it is told."""

    def program(self, script, name="solver"):
        path = self.put(name, FAKE.format(script).encode())
        os.chmod(path, 0o755)
        return path

    def says(self, answer):
        self.put("said.txt", answer)
        return self.program(f'cat "{self.path("said.txt")}"')

    def test_table(self):
        """A description, and a bend file, by one command; the answer kept."""
        program = self.says(EXAMPLE_ANSWER)
        for file in (self.put("a.json", EXAMPLE), self.put("a.bend", EXAMPLE_BYTES)):
            status, out, err = run("solve", file, "--solver", program, "--answers", self.path("kept.txt"))
            self.assertEqual((status, err, self.get("kept.txt")), (0, "", EXAMPLE_ANSWER))
            self.assertIn(b"Inside: closed, pushes", out)

    def test_picture(self):
        program = self.says(EXAMPLE_ANSWER)
        self.assertEqual(run("solve", self.put("a.bend", EXAMPLE_BYTES), "--solver", program, "--picture", self.path("a.svg"))[0], 0)
        run("picture", self.put("a.txt", EXAMPLE_ANSWER), self.path("a.bend"), "-o", self.path("b.svg"))
        self.assertEqual(self.get("a.svg"), self.get("b.svg"))

    def test_pull(self):
        """Several files, descriptions among them, and a chained file, are one pull."""
        program = self.says(EXAMPLE_ANSWER)
        two = self.put("two", chain.joined([EXAMPLE_BYTES, EXAMPLE_BYTES]))
        out = run("solve", two, self.put("a.json", EXAMPLE), "--solver", program)[1].decode()
        self.assertTrue(out.startswith("A pull of 3 steps\n"))

    def test_refused(self):
        program = self.says(b"refused 8\n")
        file = self.put("a.bend", EXAMPLE_BYTES[:32] + bytes(8) + EXAMPLE_BYTES[40:])
        status, out, _ = run("solve", file, "--solver", program)
        self.assertEqual((status, out), (0, b"refused 8: solve: a scale is NaN, infinite, zero or below zero\n"))
        self.assertIn("there are no loads to draw", run("solve", file, "--solver", program, "--picture", self.path("a.svg"))[2])

    def test_solvers_that_fail(self):
        """Nothing is shown and nothing is written where there is no answer, or none that fits."""
        file = self.put("a.bend", EXAMPLE_BYTES)
        for script, words in (
            ("kill -SEGV $$", "was ended by SIGSEGV; there is no answer"),
            ("kill -PIPE $$", "was ended by SIGPIPE; there is no answer"),
            ("exit 3", "ended with 3; there is no answer"),
            ("echo 'bendsolve: standard input: no' >&2", "ended with 0: bendsolve: standard input: no; there is no answer"),
            ("echo solved", "(is it bendsolve?)"),
            (f"printf '{MISFIT}'", "that bound is 0; expected the answer to this file (is it bendsolve?)"),
        ):
            status, out, err = run("solve", file, "--solver", self.program(script), "--answers", self.path("kept"), "--picture", self.path("a.svg"))
            self.assertEqual((status, out), (1, b""))
            self.assertIn(words, err)
            self.assertFalse(os.path.exists(self.path("kept")) or os.path.exists(self.path("a.svg")))
        with mock.patch.object(solver, "SECONDS", 0.2):
            self.assertIn("gave no answer within 0.2 seconds", run("solve", file, "--solver", self.program("exec sleep 5"))[2])
        self.assertIn("nowhere: no such program; expected bendsolve", run("solve", file, "--solver", "nowhere")[2])
        self.assertIn("cannot be run", run("solve", file, "--solver", self.program_of_no_kind())[2])

    def program_of_no_kind(self):
        path = self.put("odd", b"\x7fELF nothing")
        os.chmod(path, 0o755)
        return path

    def kit(self, script):
        """A repository in which the program is to be made, and an rt that does what it is told; what of solver.py is to be changed for it."""
        for folder in ("tools", os.path.join("crates", "bendsolve", "out")):
            os.makedirs(self.path(folder))
        shutil.copy(solver.MAKE, self.path("tools"))
        self.put(os.path.join("crates", "bendsolve", "stdin"), EXAMPLE_BYTES)
        os.chmod(self.put("rt", script.encode()), 0o755)
        return {"PROGRAM": self.path(os.path.join("target", "bin", "bendsolve")), "MAKE": self.path(os.path.join("tools", "program.sh")), "ROOT": self.folder}

    def test_made_where_missing(self):
        """tools/program.sh is run where target/bin/bendsolve is not there; without rt it is said what is missing."""
        file = self.put("a.bend", EXAMPLE_BYTES)
        made = self.says(EXAMPLE_ANSWER)
        ours = self.kit(FAKE.format(f'[ "$*" = run ] && cp "{made}" out/bendsolve; echo "rt: made"; echo noise'))
        with mock.patch.multiple(solver, **ours):
            with mock.patch.dict(os.environ, {"PATH": os.path.join(self.folder, "nowhere")}):
                self.assertIn("bendsolve is missing, and so is rt, which makes it; expected the Rattle kit's rt on the PATH, or --solver", run("solve", file)[2])
            with mock.patch.dict(os.environ, {"PATH": self.folder + ":" + os.environ["PATH"]}):
                status, out, err = run("solve", file)
        self.assertEqual(status, 0, err)
        self.assertIn("tools/program.sh proves and builds it", err)
        self.assertTrue(err.endswith("\nrt: made\n"))
        self.assertIn(b"Inside: closed, pushes", out)

    def test_a_kit_that_fails(self):
        file = self.put("a.bend", EXAMPLE_BYTES)
        ours = self.kit("#!/bin/sh\necho 'rt: loops proved (1 s)'\necho why it failed\nexit 7\n")
        with mock.patch.multiple(solver, **ours), mock.patch.dict(os.environ, {"PATH": self.folder + ":" + os.environ["PATH"]}):
            err = run("solve", file)[2]
        self.assertIn("why it failed\n", err)
        self.assertIn("tools/program.sh ended with 7 and made no", err)


if __name__ == "__main__":
    unittest.main()
