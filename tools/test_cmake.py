#!/usr/bin/env python3
"""The installed library under CMake: examples/cmake builds against it and prints what it must.

    python3 -m unittest tools/test_cmake.py

Needs cmake 3.13 or later, beside what tools/test_library.py needs.
"""

import os
import re
import subprocess
import tempfile
import unittest

ROOT = os.path.dirname(os.path.dirname(os.path.abspath(__file__)))


def done(*command):
    return subprocess.run(command, check=True, capture_output=True, text=True, timeout=300).stdout


def read(*path):
    with open(os.path.join(ROOT, *path), encoding="utf-8") as file:
        return file.read()


class CMake(unittest.TestCase):
    def setUp(self):
        scratch = tempfile.TemporaryDirectory()
        self.addCleanup(scratch.cleanup)
        self.build = os.path.join(scratch.name, "build")
        self.prefix = os.path.join(scratch.name, "prefix")
        done(os.path.join(ROOT, "tools", "install.sh"), self.prefix)

    def configure(self, source, *options):
        return subprocess.run(
            ["cmake", "-S", source, "-B", self.build, f"-DCMAKE_PREFIX_PATH={self.prefix}", *options], capture_output=True, text=True, timeout=300
        )

    def test_programs(self):
        ran = self.configure(os.path.join(ROOT, "examples", "cmake"))
        self.assertEqual(ran.returncode, 0, ran.stderr)
        done("cmake", "--build", self.build)
        self.assertEqual(done(os.path.join(self.build, "pull")), read("examples", "cmake", "pull.txt"))
        self.assertEqual(done(os.path.join(self.build, "solve")), read("examples", "c", "solve.txt"))

    def test_versions(self):
        """No version, this one and an earlier one of the same first number will do; a later one and another first number will not."""
        source = os.path.join(self.prefix, "source")
        os.makedirs(source)
        version = re.search(r'#define PISKORLU_VERSION "(.*)"', read("include", "piskorlu.h")).group(1)
        first = int(version.split(".")[0])
        will = ["", f"{version} EXACT", f"{first}.0"]
        for asked in [*will, f"{first}.999", f"{first - 1}.9", f"{first + 1}.0"]:
            with open(os.path.join(source, "CMakeLists.txt"), "w", encoding="utf-8") as file:
                file.write(f"cmake_minimum_required(VERSION 3.13)\nproject(asks C)\nfind_package(piskorlu {asked} REQUIRED)\n")
            ran = self.configure(source)
            self.assertEqual(ran.returncode == 0, asked in will, asked + ran.stderr)


if __name__ == "__main__":
    unittest.main()
