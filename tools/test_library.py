#!/usr/bin/env python3
"""The header's sentences, the static library's machine code, and the installed library under C and C++.

    python3 -m unittest tools/test_library.py

Needs cc, c++ and objdump, and the archive target/staticlib/libpiskorlu.a, which `tools/archive.sh` makes; PISKORLU_STATICLIB names another.
A missing one is a failure that names it. Flags come from pkg-config where it is installed, and else from piskorlu.pc itself.
"""

import os
import re
import shutil
import subprocess
import sys
import tempfile
import unittest

ROOT = os.path.dirname(os.path.dirname(os.path.abspath(__file__)))
ARCHIVE = os.environ.get("PISKORLU_STATICLIB", os.path.join(ROOT, "target", "staticlib", "libpiskorlu.a"))
HEADER = os.path.join(ROOT, "include", "piskorlu.h")
INSTALL = os.path.join(ROOT, "tools", "install.sh")
EXAMPLES = os.path.join(ROOT, "examples")
STRICT = ["-Wall", "-Wextra", "-pedantic", "-Werror"]

sys.path.insert(0, os.path.join(ROOT, "tools"))
import stack_use  # noqa: E402


def setUpModule():
    missing = [tool for tool in ("cc", "c++", "objdump", "nm") if not shutil.which(tool)]
    if not os.path.exists(ARCHIVE):
        missing.append(f"{ARCHIVE} (tools/archive.sh makes it)")
    if missing:
        raise AssertionError("not there: " + ", ".join(missing))


def read(*path):
    with open(os.path.join(*path), encoding="utf-8") as file:
        return file.read()


def run(*command, **options):
    return subprocess.run(command, capture_output=True, text=True, timeout=300, **options)


def done(*command, **options):
    """What a command prints; its failure is the test's."""
    ran = run(*command, **options)
    if ran.returncode:
        raise AssertionError(f"{' '.join(command)}: status {ran.returncode}\n{ran.stdout}{ran.stderr}")
    return ran.stdout


def declared():
    """The calls that the header declares."""
    return sorted(re.findall(r"^\w+ (piskorlu_\w+)\(", read(HEADER), re.MULTILINE))


class Scratch(unittest.TestCase):
    def setUp(self):
        scratch = tempfile.TemporaryDirectory()
        self.addCleanup(scratch.cleanup)
        self.scratch = scratch.name

    def built(self, compiler, flags, source, *libraries):
        program = os.path.join(self.scratch, "program")
        done(*compiler, *flags, source, "-x", "none", *libraries, "-o", program)
        return program


class Header(Scratch):
    COMPILERS = [
        ["cc", "-std=c99", "-O0"],
        ["cc", "-std=c99", "-O2"],
        ["cc", "-std=c11", "-O3"],
        ["c++", "-x", "c++", "-std=c++98", "-O2"],
        ["c++", "-x", "c++", "-std=c++17", "-O2"],
    ]

    def test_sentences(self):
        for compiler in self.COMPILERS:
            with self.subTest(" ".join(compiler)):
                flags = [*STRICT, "-I", os.path.dirname(HEADER)]
                program = self.built(compiler, flags, os.path.join(ROOT, "tools", "test_header.c"), ARCHIVE, "-lm", "-pthread")
                self.assertRegex(done(program).splitlines()[-1], r"^[1-9][0-9]* passed, 0 failed$")

    def example(self, *options):
        source = os.path.join(EXAMPLES, "c", "solve.c")
        return run(self.built(["cc", "-std=c99", *options], ["-I", os.path.dirname(HEADER)], source, ARCHIVE))

    def test_fast_math_is_seen(self):
        """A program linked with -Ofast has subnormals as zeros; the example says so and stops."""
        ran = self.example("-Ofast")
        self.assertEqual((ran.returncode, ran.stdout), (1, ""))
        self.assertIn("floating point is not as the solver needs it", ran.stderr)

    def test_no_nan_expected(self):
        """A compiler that may take every value for finite does not make a NaN load pass."""
        ran = self.example("-O2", "-ffinite-math-only")
        self.assertEqual((ran.returncode, ran.stdout), (0, read(EXAMPLES, "c", "solve.txt")))


class Archive(unittest.TestCase):
    def test_declared_and_exported(self):
        exported = [line.split()[-1] for line in done("nm", "-g", "--defined-only", ARCHIVE).splitlines() if " T " in line]
        self.assertEqual(sorted(exported), declared())

    def test_needs(self):
        needs = {line.split()[-1] for line in done("nm", "-u", ARCHIVE).splitlines() if " U " in line}
        self.assertLessEqual(needs, {"memcpy", "memset"})

    def test_no_state(self):
        """No section that a program may write to has a byte: nothing is kept between calls."""
        for line in done("objdump", "-h", "-w", ARCHIVE).splitlines():
            fields = line.split()
            if len(fields) > 6 and fields[0].isdigit() and "ALLOC" in line and "READONLY" not in line:
                self.assertEqual(int(fields[2], 16), 0, fields[1])

    def test_no_fused_products(self):
        self.assertNotRegex(done("objdump", "-d", "--no-show-raw-insn", ARCHIVE), r"\bvf(n?m)(add|sub)")

    def test_stack(self):
        """The most that each call can take, read off the machine code, is not above what the header says."""
        said = {name: int(size) for name, size in re.findall(r"^#define PISKORLU_(\w+)_STACK (\d+)", read(HEADER), re.MULTILINE)}
        used = stack_use.stack_use(ARCHIVE)
        self.assertEqual(sorted(used), declared())
        for call, most in used.items():
            name = {"and": "JOIN", "continued": "JOIN"}.get(call.removeprefix("piskorlu_"), call.removeprefix("piskorlu_").upper())
            with self.subTest(call):
                self.assertLessEqual(most, said.get(name, said["CALL"]))


def flags(prefix):
    """What a program is compiled and linked with."""
    folder = os.path.join(prefix, "lib", "pkgconfig")
    if shutil.which("pkg-config"):
        return done("pkg-config", "--cflags", "--libs", "piskorlu", env={**os.environ, "PKG_CONFIG_PATH": folder}).split()
    return parsed_flags(folder)


def parsed_flags(folder):
    """The same by piskorlu.pc alone."""
    names, fields = {"pcfiledir": folder}, {}
    for line in read(folder, "piskorlu.pc").splitlines():
        for name, value in names.items():
            line = line.replace("${" + name + "}", value)
        if match := re.match(r"(\w+)=(.*)$", line):
            names[match.group(1)] = match.group(2)
        elif match := re.match(r"(\w+): (.*)$", line):
            fields[match.group(1)] = match.group(2)
    return (fields["Cflags"] + " " + fields["Libs"]).split()


class Installed(Scratch):
    def setUp(self):
        super().setUp()
        self.prefix = os.path.join(self.scratch, "prefix")

    def install(self, **variables):
        return run(INSTALL, self.prefix, env={**os.environ, **variables})

    def program(self, compiler, source, found):
        """A program built as its user would: sources first, then the flags."""
        out = os.path.join(self.scratch, "program")
        done(*compiler, *STRICT, source, *found, "-o", out)
        return done(out)

    def test_c_and_cpp(self):
        self.assertEqual(self.install().returncode, 0)
        for found in (flags(self.prefix), parsed_flags(os.path.join(self.prefix, "lib", "pkgconfig"))):
            self.assertEqual(self.program(["cc", "-std=c99"], os.path.join(EXAMPLES, "c", "solve.c"), found), read(EXAMPLES, "c", "solve.txt"))
            self.assertEqual(self.program(["c++", "-std=c++11"], os.path.join(EXAMPLES, "cmake", "pull.cpp"), found), read(EXAMPLES, "cmake", "pull.txt"))

    def test_what_is_installed(self):
        ran = self.install(DESTDIR=os.path.join(self.scratch, "dest"))
        self.assertEqual(ran.returncode, 0)
        whole = os.path.join(self.scratch, "dest") + self.prefix
        made = sorted(os.path.relpath(os.path.join(d, f), whole) for d, _, files in os.walk(whole) for f in files)
        self.assertEqual(
            made,
            [
                "include/piskorlu.h",
                "lib/cmake/piskorlu/piskorlu-config-version.cmake",
                "lib/cmake/piskorlu/piskorlu-config.cmake",
                "lib/libpiskorlu.a",
                "lib/pkgconfig/piskorlu.pc",
                "share/doc/piskorlu/NOTICE",
                "share/doc/piskorlu/SPECIFICATION.md",
            ],
        )
        self.assertFalse(os.path.exists(self.prefix))
        self.assertEqual(sorted(ran.stdout.split()), [os.path.join(whole, file) for file in made])

    def test_moved(self):
        self.install()
        other = os.path.join(self.scratch, "elsewhere")
        os.rename(self.prefix, other)
        self.assertEqual(self.program(["cc", "-std=c99"], os.path.join(EXAMPLES, "c", "solve.c"), flags(other)), read(EXAMPLES, "c", "solve.txt"))

    def test_version(self):
        self.install()
        version = re.search(r'#define PISKORLU_VERSION "(.*)"', read(HEADER)).group(1)
        self.assertIn(f"\nVersion: {version}\n", read(self.prefix, "lib", "pkgconfig", "piskorlu.pc"))
        self.assertIn(f'"{version}"', read(self.prefix, "lib", "cmake", "piskorlu", "piskorlu-config-version.cmake"))

    def test_refusals(self):
        """No archive, or one that lacks a call of the header: told by name, and nothing is installed."""
        lacking = os.path.join(self.scratch, "old.a")
        with open(ARCHIVE, "rb") as file, open(lacking, "wb") as out:
            out.write(file.read().replace(b"piskorlu_bend", b"piskorlu_gone"))
        for archive, said in ((os.path.join(self.scratch, "none.a"), "none.a is not there"), (lacking, "has no piskorlu_bend")):
            ran = self.install(PISKORLU_STATICLIB=archive)
            self.assertEqual(ran.returncode, 1)
            self.assertIn(said, ran.stderr)
            self.assertFalse(os.path.exists(self.prefix))
        self.assertEqual(run(INSTALL).returncode, 1)


if __name__ == "__main__":
    unittest.main()
