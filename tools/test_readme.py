#!/usr/bin/env python3
"""The README's first command, what it says where something is missing, and the commands of docs/WALKTHROUGH.md.

    python3 -m unittest tools/test_readme.py

Needs target/bin/bendsolve, which `tools/program.sh` makes; where it is missing, the tests that need it fail at once and say so. None of
them is the place for a proof, which takes minutes.
"""

import os
import re
import shutil
import signal
import subprocess
import sys
import tempfile
import unittest

ROOT = os.path.dirname(os.path.dirname(os.path.abspath(__file__)))
EXAMPLE = os.path.join(ROOT, "tools", "solve-example.sh")
NEEDS = os.path.join(ROOT, "tools", "needs.sh")
PROGRAM = os.path.join(ROOT, "target", "bin", "bendsolve")
BASIC = "awk cat cp cut date dirname git grep mkdir mv printf rm sed sh sort tail uname".split()


def read(*path):
    with open(os.path.join(ROOT, *path), encoding="utf-8") as file:
        return file.read()


def files():
    """What stands in the repository, apart from what is never committed."""
    found = set()
    for folder, folders, names in os.walk(ROOT):
        folders[:] = [f for f in folders if f not in ("target", "out", ".git", "__pycache__")]
        found.update(os.path.join(folder, name) for name in names)
    return found


class Commands(unittest.TestCase):
    def setUp(self):
        scratch = tempfile.TemporaryDirectory()
        self.addCleanup(scratch.cleanup)
        self.bin = scratch.name
        for name in BASIC:
            os.symlink(shutil.which(name), os.path.join(self.bin, name))

    def program(self, name, text):
        path = os.path.join(self.bin, name)
        with open(path, "w", encoding="utf-8") as file:
            file.write('#!/bin/sh\n[ "$1" != version ] || { echo some kit; exit; }\n' + text)
        os.chmod(path, 0o755)

    def run_with(self, *command):
        """A command that finds the basic programs, and those that the test adds, and no others."""
        return subprocess.run(command, env={"PATH": self.bin}, capture_output=True, text=True, timeout=120)

    def with_python(self):
        os.symlink(sys.executable, os.path.join(self.bin, "python3"))

    def needs_program(self):
        if not os.path.exists(PROGRAM):
            self.fail("target/bin/bendsolve is not there: run `tools/program.sh` first, which proves and builds it in some minutes")

    def run_proved(self, command):
        """A command that has nothing left to prove. One that begins a proof all the same, since something has changed, is ended with all
        that it started."""
        with subprocess.Popen([command], stdout=subprocess.PIPE, stderr=subprocess.PIPE, text=True, start_new_session=True) as process:
            try:
                out, err = process.communicate(timeout=120)
            except subprocess.TimeoutExpired:
                os.killpg(process.pid, signal.SIGKILL)
                self.fail("not done in 120 s: something has changed since it was proved; run `tools/program.sh` first")
        return process.returncode, out, err

    def test_the_example(self):
        self.needs_program()
        before = files()
        status, out, err = self.run_proved(EXAMPLE)
        self.assertEqual((status, err), (0, ""))
        self.assertTrue(out.endswith("\n\n" + read("examples", "shaft-six-pads", "shaft-six-pads.table.txt")), out)
        self.assertEqual(files(), before)

    def test_a_line_a_crate(self):
        self.with_python()
        proved = "crate {0}: modules loaded=0 checked=5\nlogic=proved functions=2 sum=0"
        lines = [proved.format("loops"), "noise", "rt: chose --jobs 2 for least_norm", proved.format("least_norm")]
        self.program("rt", f"cat <<'END'\n{chr(10).join(lines)}\nEND\nexit 1\n")
        said = self.run_with(EXAMPLE).stdout
        self.assertRegex(said, r"(?m)^loops proved \(\d+ s\), (\d+) left$")
        after = re.findall(r"(?m)^\w+ proved \(\d+ s\), (\d+) left$", said)
        ours = re.findall(r"(?m)^(\w+)", read("crates.txt"))
        crates = [c for c in re.search(r"(?m)^bendsolve:(.*)$", read("crates.txt")).group(1).split() if c in ours]
        below = [c for c in re.search(r"(?m)^least_norm:(.*)$", read("crates.txt")).group(1).split() if c in ours]
        self.assertEqual(after, [str(len(crates)), str(len(crates) - len(below))])
        self.assertNotIn("noise", said)

    def test_not_proved(self):
        self.with_python()
        self.program("rt", "echo 'rt: loops proved (1 s)'\necho 'why it failed'\nexit 1\n")
        ran = self.run_with(EXAMPLE)
        self.assertEqual(ran.returncode, 1)
        self.assertIn("why it failed", ran.stderr)
        self.assertIn("was not proved and built", ran.stderr)
        self.assertNotIn("pad 1", ran.stdout)

    def test_missing(self):
        ran = self.run_with(EXAMPLE)
        self.assertEqual(ran.returncode, 1)
        self.assertIn("MISSING  the Rattle kit's rt", ran.stdout)
        self.assertIn("MISSING  python3", ran.stdout)
        ran = self.run_with(NEEDS, "rust", "cc", "c++", "objdump", "ar")
        self.assertEqual((ran.returncode, ran.stdout.count("MISSING")), (1, 5))
        self.program("cargo", "echo cargo 1.80.1\n")
        self.assertIn("found 1.80.1", self.run_with(NEEDS, "rust").stdout)
        self.program("cargo", "echo cargo 2.0.0\n")
        self.assertEqual(self.run_with(NEEDS, "rust").returncode, 0)

    def test_original(self):
        environment = {**os.environ, "PISKORLU_ORIGINAL": "/nowhere"}
        ran = subprocess.run([NEEDS, "original"], env=environment, capture_output=True, text=True, timeout=60)
        self.assertEqual(ran.returncode, 1)
        self.assertIn("\n         /nowhere\n", ran.stdout)

    def test_walkthrough(self):
        """Each command of the page runs, and leaves nothing in the repository but in target/."""
        self.needs_program()
        place = os.path.join(self.bin, "repository")
        os.makedirs(os.path.join(place, "target"))
        for name in ("docs", "examples", "tools", "target/bin"):
            os.symlink(os.path.join(ROOT, name), os.path.join(place, name))
        before = files()
        commands = re.findall(r"(?m)^    ((?:python3 tools/bend\.py|target/bin/|for ).*)$", read("docs", "WALKTHROUGH.md"))
        self.assertGreater(len(commands), 6)
        for command in commands:
            ran = subprocess.run(["sh", "-c", command], cwd=place, capture_output=True, text=True, timeout=120)
            self.assertEqual((command, ran.returncode, ran.stderr), (command, 0, ""))
        self.assertEqual(sorted(os.listdir(place)), ["docs", "examples", "target", "tools"])
        self.assertEqual(files(), before)


if __name__ == "__main__":
    unittest.main()
