#!/usr/bin/env python3
"""The program bendsolve from outside: its examples, and descriptors that are closed, fail, or take or give a part.

    python3 -m unittest tools/test_bendsolve.py

BENDSOLVE names another program than target/bin/bendsolve.
"""

import filecmp
import os
import random
import resource
import signal
import subprocess
import sys
import tempfile
import unittest

HERE = os.path.dirname(os.path.abspath(__file__))
ROOT = os.path.dirname(HERE)
sys.path.insert(0, HERE)

from fixtures import rig_problem, some_problem  # noqa: E402

from bendfile import answers, binary, numbers, picture, tables, validation  # noqa: E402

PROGRAM = os.environ.get("BENDSOLVE", os.path.join(ROOT, "target", "bin", "bendsolve"))
EXAMPLES = os.path.join(ROOT, "examples")


def read(*path):
    with open(os.path.join(ROOT, *path), "rb") as file:
        return file.read()


EXAMPLE = read("crates", "bendsolve", "stdin")
ANSWER = read("crates", "bendsolve", "stdout")


def solve(file, **options):
    return subprocess.run([PROGRAM], input=file, capture_output=True, timeout=60, **options)


def shell(line, **options):
    """The program under a shell, for descriptors that Python cannot close."""
    return subprocess.run(["sh", "-c", line, "sh", PROGRAM], capture_output=True, timeout=60, **options)


class Examples(unittest.TestCase):
    def test_document_01(self):
        run = solve(EXAMPLE)
        self.assertEqual((run.stdout, run.stderr), (ANSWER, b""))

    def test_examples_made_again(self):
        """Every file of the examples, with answers from the program."""
        with tempfile.TemporaryDirectory() as out:
            subprocess.run([sys.executable, os.path.join(EXAMPLES, "make.py"), "--solver", PROGRAM, "--out", out], check=True)
            made = [os.path.relpath(os.path.join(d, f), out) for d, _, files in os.walk(out) for f in files]
            self.assertGreater(len(made), 20)
            self.assertEqual(filecmp.cmpfiles(out, EXAMPLES, made, shallow=False)[1:], ([], []))


class Answers(unittest.TestCase):
    def test_answers_fit(self):
        """Each answer to some 1,000 files passes what bend.py holds an answer against, and can be shown and drawn."""
        source, seen = random.Random(31), set()
        for turn in range(1000):
            made = rig_problem(source, source.randrange(9)) if turn % 3 else some_problem(source, source.randrange(6), source.randrange(3))
            for row in range(made.rows):
                # A scale that is refused would leave nothing to look at.
                if not numbers.is_finite(made.scale[row]) or not numbers.to_float(made.scale[row]) > 0:
                    made.scale[row] = numbers.to_bits(1.0)
            answer = answers.read(solve(binary.encode(made)).stdout)
            validation.check(answer, made)
            self.assertTrue(tables.answer_table(answer, made) and picture.draw(answer, made))
            seen.add((answer.outcome, answer.cause, answer.exact))
        self.assertTrue(seen >= {("solved", "", True), ("solved", "", False), ("infeasible", "growth", False), ("infeasible", "pass", False)}, seen)

    def test_solve(self):
        """`bend.py solve` from the stored files to the stored tables, in one command."""
        for table, ending in (("shaft-six-pads/shaft-six-pads", ".json"), ("pull/pull", ".chain"), ("stops-that-fight/stops-that-fight", ".bend")):
            file = os.path.join(EXAMPLES, table + ending)
            command = [sys.executable, os.path.join(HERE, "bend.py"), "solve", file, "--solver", PROGRAM, "--picture"]
            with tempfile.TemporaryDirectory() as out:
                ended = subprocess.run([*command, os.path.join(out, "a.svg")], capture_output=True, timeout=60, check=True)
                self.assertEqual((ended.stdout, ended.stderr), (read("examples", table + ".table.txt"), b""))
                with open(os.path.join(out, "a.svg"), "rb") as file:
                    self.assertEqual(file.read(), read("examples", table + ".svg"))


class Input(unittest.TestCase):
    def test_a_byte_at_a_time(self):
        with subprocess.Popen([PROGRAM], stdin=subprocess.PIPE, stdout=subprocess.PIPE, bufsize=0) as child:
            for byte in EXAMPLE:
                child.stdin.write(bytes([byte]))
            child.stdin.close()
            self.assertEqual(child.stdout.read(), ANSWER)

    def test_lengths(self):
        front = bytes(65536 - len(EXAMPLE))
        longest = front + EXAMPLE[:-16] + len(front).to_bytes(4, "little") + EXAMPLE[-12:]
        self.assertEqual(solve(longest).stdout, ANSWER)
        self.assertEqual(solve(b"\0" + longest).stdout, b"refused 1\n")
        self.assertEqual(solve(b"").stdout, b"refused 1\n")
        self.assertEqual(solve(bytes(15)).stdout, b"refused 1\n")

    def test_endless(self):
        with open("/dev/zero", "rb") as zeros:
            self.assertEqual(subprocess.run([PROGRAM], stdin=zeros, capture_output=True, timeout=60).stdout, b"refused 1\n")

    def test_closed_or_failing(self):
        """No answer, not even a refusal, where the file could not be read to its end."""
        for line in ('"$1" <&-', '"$1" < /'):
            run = shell(line)
            self.assertEqual((run.stdout, run.returncode), (b"", 0))
            self.assertIn(b"bendsolve: standard input: ", run.stderr)


class Output(unittest.TestCase):
    def test_closed_or_full(self):
        for line in ('"$1" >&-', '"$1" > /dev/full'):
            run = shell(line, input=EXAMPLE)
            self.assertEqual(run.returncode, 0)
            self.assertIn(b"bendsolve: the answer is not whole: standard output: ", run.stderr)

    def test_a_part_is_taken(self):
        """A file that may grow to 50 bytes only: the part is there, and standard error says that it is one."""

        def limited():
            signal.signal(signal.SIGXFSZ, signal.SIG_IGN)
            resource.setrlimit(resource.RLIMIT_FSIZE, (50, 50))

        with tempfile.TemporaryFile() as out:
            run = subprocess.run([PROGRAM], input=EXAMPLE, stdout=out, stderr=subprocess.PIPE, preexec_fn=limited, restore_signals=False, timeout=60)
            out.seek(0)
            self.assertEqual(out.read(), ANSWER[:50])
        self.assertIn(b"the answer is not whole", run.stderr)

    def test_nobody_reads(self):
        """A message and status 0, however SIGPIPE stood before: the kit's start of a program has it ignored."""
        words = b"bendsolve: the answer is not whole: standard output: Broken pipe\n"
        for ignored, status in ((False, 0), (True, 0)):
            out, into = os.pipe()
            os.close(out)
            action = signal.SIG_IGN if ignored else signal.SIG_DFL
            run = subprocess.run(
                [PROGRAM],
                input=EXAMPLE,
                stdout=into,
                stderr=subprocess.PIPE,
                preexec_fn=lambda: signal.signal(signal.SIGPIPE, action),  # noqa: B023
                restore_signals=False,
                timeout=60,
            )
            os.close(into)
            self.assertEqual((run.returncode, run.stderr), (status, words))

    def test_status(self):
        """Status 0 however the solve went."""
        for file in (EXAMPLE, b"", read("examples", "stops-that-fight", "stops-that-fight.bend")):
            self.assertEqual(solve(file).returncode, 0)

    def test_stack(self):
        """A stack of 160 KiB is enough for the largest file; with 64 KiB SIGSEGV ends the program before it writes anything."""
        made = rig_problem(random.Random(32), 32)
        made.motion = [[0] * 32 for _ in range(64)]
        made.before = bytes(65536 - len(binary.encode(made)))
        for size, status in ((160 << 10, 0), (64 << 10, -signal.SIGSEGV)):
            run = solve(binary.encode(made), preexec_fn=lambda: resource.setrlimit(resource.RLIMIT_STACK, (size, size)), env={})  # noqa: B023
            self.assertEqual(run.returncode, status)
            self.assertEqual(bool(run.stdout), status == 0)

    def test_all_closed(self):
        self.assertEqual(shell('"$1" <&- >&- 2>&-').stdout, b"")


if __name__ == "__main__":
    unittest.main()
