"""What tools/must_fail.py takes for an edit, and which of rt's verdicts count. The edits themselves are tried by the gate."""
import os
import shutil
import subprocess
import sys
import tempfile
import unittest
from unittest import mock

sys.path.insert(0, os.path.dirname(os.path.abspath(__file__)))
import must_fail  # noqa: E402


class Edits(unittest.TestCase):
    def setUp(self):
        self.folder = tempfile.TemporaryDirectory()
        self.addCleanup(self.folder.cleanup)
        os.makedirs(os.path.join(self.folder.name, "src"))
        self.write("src/lib.rt", "let a = 1;\nlet b = 2;\nlet c = 2;\n")

    def write(self, name, text):
        path = os.path.join(self.folder.name, name)
        with open(path, "w", encoding="utf-8") as f:
            f.write(text)
        return path

    def edited(self, text):
        return must_fail.edited(self.folder.name, [self.write("x.edit", text)])

    def test_a_replacement(self):
        self.assertEqual(self.edited("file: src/lib.rt\nold: a = 1\nnew: a = 3\n"), {"src/lib.rt": "let a = 3;\nlet b = 2;\nlet c = 2;\n"})

    def test_two_replacements_and_one_by_nothing(self):
        text = "file: src/lib.rt\nold: a = 1\nnew: a = 3\nold: let b = 2;\nnew:\n"
        self.assertEqual(self.edited(text), {"src/lib.rt": "let a = 3;\n\nlet c = 2;\n"})

    def test_text_that_is_not_there_or_there_twice(self):
        for old in ("d = 1", " = 2;"):
            with self.assertRaises(must_fail.BadEdit):
                self.edited(f"file: src/lib.rt\nold: {old}\nnew: e = 1\n")

    def test_files_that_no_check_reads(self):
        for file in ("stdout", "../other/src/lib.rt", "src/../src/lib.rt", "src/not_there.rt"):
            with self.assertRaises(must_fail.BadEdit):
                self.edited(f"file: {file}\nold: a = 1\nnew: a = 3\n")

    def test_no_replacement(self):
        for text in ("", "file: src/lib.rt\n", "new: a = 3\n"):
            with self.assertRaises(must_fail.BadEdit):
                self.edited(text)

    def test_two_edits(self):
        one = self.write("one.edit", "file: src/lib.rt\nold: a = 1\nnew: a = 3\n")
        two = self.write("two.edit", "file: src/lib.rt\nold: b = 2\nnew: b = 4\n")
        self.assertEqual(must_fail.edited(self.folder.name, [one, two]), {"src/lib.rt": "let a = 3;\nlet b = 4;\nlet c = 2;\n"})

    def test_an_edit_that_makes_the_text_of_another(self):
        one = self.write("one.edit", "file: src/lib.rt\nold: a = 1\nnew: b = 2\n")
        two = self.write("two.edit", "file: src/lib.rt\nold: b = 2\nnew: b = 4\n")
        with self.assertRaises(must_fail.BadEdit):
            must_fail.edited(self.folder.name, [one, two])


SOURCE = """// What is known of a row.
ghost use mathlib.Core.Path.{_≡_};

pub const LIMIT: u8 = 3;

// Whether a row is known.
pub fn known(a: u8) -> bool
    requires { ⌜ a ≡ before.here ⌝ }
    ensures { λ r. ⌜ r ≡
        words.known a ⌝ }
{
    if a < LIMIT {
        return true;
    }
    a == 7
}

// Between two functions.
fn short(b: u8) -> u8 {
    b + 1
}

fn long(
    first: u8,
    second: u8,
) -> u8
    ensures { λ r. ⌜ words.long first second r ⌝ }
{
    first + second
}

impl Row {
    // Its sum.
    pub fn sum(self, other: Row) -> u8
        ensures { λ r. ⌜ words.sum self r ⌝ }
    {
        if other.a < 9 {
            return self.a;
        }
        self.a + other.b
    }

    pub fn least(self) -> u8 {
        self.c
    }
}

#[no_mangle]
pub extern "C" fn outside(d: u8) -> u8 {
    d * 2
}
"""


class Functions(unittest.TestCase):
    def setUp(self):
        self.folder = tempfile.TemporaryDirectory()
        self.addCleanup(self.folder.cleanup)
        self.crate = os.path.join(self.folder.name, "boxed")
        for file in ("src/lib.rt", "src/run.rt", "src/run/turn.rt", "specs/Run.antt", "proofs/known/Proof.antt"):
            self.write(file, SOURCE)

    def write(self, file, text):
        path = os.path.join(self.crate, file)
        os.makedirs(os.path.dirname(path), exist_ok=True)
        with open(path, "w", encoding="utf-8") as f:
            f.write(text)
        return path

    def function_of(self, *replacements):
        text = "".join(f"file: {file}\nold: {old}\nnew: x\n" for file, old in replacements)
        return must_fail.function_of(self.crate, self.write("x.edit", text))

    def path_of(self, *replacements):
        return self.function_of(*replacements).path

    def test_at_the_root(self):
        for old in ("a < LIMIT", "        return true;", "a == 7"):
            self.assertEqual(self.function_of(("src/lib.rt", old)), ("boxed::known", "proofs/known/Proof.antt"))

    def test_in_a_module(self):
        self.assertEqual(self.function_of(("src/run.rt", "a == 7")), ("boxed::run::known", "proofs/run/known/Proof.antt"))
        self.assertEqual(self.function_of(("src/run/turn.rt", "a == 7")), ("boxed::run::turn::known", "proofs/run/turn/known/Proof.antt"))

    def test_of_a_type(self):
        for file in ("src/lib.rt", "src/run.rt"):
            for old in ("other.a < 9", "self.a + other.b"):
                self.assertEqual(self.function_of((file, old)), ("boxed::Row::sum", "proofs/Row/sum/Proof.antt"))
        self.assertEqual(self.path_of(("src/lib.rt", "self.c")), "boxed::Row::least")

    def test_after_a_type(self):
        self.assertEqual(self.path_of(("src/lib.rt", "d * 2")), "boxed::outside")

    def test_a_body_opened_by_the_signature_line_and_one_after_many_lines(self):
        self.assertEqual(self.path_of(("src/lib.rt", "b + 1")), "boxed::short")
        self.assertEqual(self.path_of(("src/lib.rt", "first + second")), "boxed::long")

    def test_two_places_of_one_body(self):
        self.assertEqual(self.path_of(("src/lib.rt", "a < LIMIT"), ("src/lib.rt", "a == 7")), "boxed::known")

    def test_no_body(self):
        elsewhere = ("LIMIT: u8 = 3", "// Whether", "fn known(a: u8)", "a ≡ before.here", "words.known a", "// Between", "fn short(b: u8)")
        for old in (*elsewhere, "    second: u8,", "words.long", "impl Row", "// Its sum", "words.sum self", "#[no_mangle]"):
            self.assertIsNone(self.function_of(("src/lib.rt", old)), old)

    def test_no_source(self):
        for file in ("specs/Run.antt", "proofs/known/Proof.antt", "src/not_there.rt"):
            self.assertIsNone(self.function_of((file, "a == 7")))

    def test_more_than_one_body(self):
        self.assertIsNone(self.function_of(("src/lib.rt", "a == 7"), ("src/lib.rt", "b + 1")))
        self.assertIsNone(self.function_of(("src/lib.rt", "a == 7"), ("src/lib.rt", "LIMIT: u8 = 3")))
        self.assertIsNone(self.function_of(("src/lib.rt", "a == 7"), ("proofs/known/Proof.antt", "a == 7")))

    def test_text_that_is_not_there_or_there_twice(self):
        for old in ("a == 8", "return"):
            self.assertIsNone(self.function_of(("src/lib.rt", old)))

    def test_no_replacement(self):
        self.assertIsNone(self.function_of())


class Refusals(unittest.TestCase):
    def test_a_fact_that_fails_counts(self):
        said = "refused, as it must be: ./proofs/b/Answers.antt:12:27: error: `returns`: the two types first differ where one has `40`"
        self.assertIsNone(must_fail.wrong_of(said))
        self.assertIsNone(must_fail.wrong_of("refused, as it must be"))

    def test_a_proof_that_does_not_fit_the_code_does_not(self):
        said = "refused, as it must be (only because a proof file names what the edit took away, so this says little of the contract: change a value and keep the names): proofs/at/Answers.antt:3:5: error: `at`: module `x.Goals` has no `at`"
        self.assertEqual(must_fail.wrong_of(said), "SHOWS NOTHING: " + said.removeprefix("refused, as it must be "))

    def test_a_limit_of_the_prover_does_not(self):
        said = "refused, as it must be (only by a limit of the prover, which gave no verdict, so this says less of the contract: choose a change that it refuses sooner): error: out of memory"
        self.assertEqual(must_fail.wrong_of(said), "SHOWS NOTHING: " + said.removeprefix("refused, as it must be "))

    def test_what_else_rt_says_does_not(self):
        for said in (
            "NOT REFUSED: the crate is still proved with this edit (one that means the same as before cannot be refused: remove it)",
            "NOT TRIED: its check was killed, most likely for memory, so nothing is known of it: run this again",
            "BAD EDIT: it did not reach the prover; the first lines of what it said:",
        ):
            self.assertEqual(must_fail.wrong_of(said), said)

    def test_nothing_said_does_not(self):
        self.assertEqual(must_fail.wrong_of(None), "NOT TRIED: rt said nothing of it")


class Crates(unittest.TestCase):
    """A crate of two functions, with one edit of each, and an rt that says of each what it is told to."""

    REFUSED = "refused, as it must be: ./proofs/{0}/Answers.antt:1:1: error: differ"

    def setUp(self):
        folder = tempfile.TemporaryDirectory()
        self.addCleanup(folder.cleanup)
        self.root = os.path.realpath(folder.name)
        self.write("src/lib.rt", "fn one() -> u8 {\n    1\n}\n\nfn two() -> u8 {\n    2\n}\n")
        edit = "file: src/lib.rt\nold:     {}\nnew:     {}\n"
        self.write("must-fail/one.edit", edit.format(1, 3))
        self.write("must-fail/two.edit", edit.format(2, 4))
        patch = mock.patch.object(must_fail, "ROOT", self.root)
        patch.start()
        self.addCleanup(patch.stop)

    def write(self, file, text):
        path = os.path.join(self.root, "crates", "a", file)
        os.makedirs(os.path.dirname(path), exist_ok=True)
        with open(path, "w", encoding="utf-8") as f:
            f.write(text)
        return path

    def said(self, **verdicts):
        return "".join(f"rt: must-fail a/{label}.edit: {verdict.format(label)}\n" for label, verdict in verdicts.items())

    def test_both_refused(self):
        said = self.said(one=self.REFUSED, two=self.REFUSED)
        lines = [f"must-fail a/{label} (the body of a::{label}): {self.REFUSED.format(label)}" for label in ("one", "two")]
        self.assertEqual(must_fail.judged(["a"], 0, "rt: a: a note\n" + said), (2, 0, lines))

    def test_one_that_matters_to_nothing_is_not_refused(self):
        said = self.said(one=self.REFUSED, two="NOT REFUSED: the crate is still proved with this edit")
        passed, failed, lines = must_fail.judged(["a"], 1, said)
        self.assertEqual((passed, failed), (1, 1))
        self.assertEqual(lines[1], "must-fail a/two (the body of a::two): NOT REFUSED: the crate is still proved with this edit")

    def test_one_that_rt_says_nothing_of_is_not_tried(self):
        passed, failed, lines = must_fail.judged(["a"], 0, self.said(one=self.REFUSED))
        self.assertEqual((passed, failed), (1, 1))
        self.assertEqual(lines[1], "must-fail a/two (the body of a::two): NOT TRIED: rt said nothing of it")

    def test_one_that_cannot_be_applied_is_bad_whatever_rt_says(self):
        self.write("must-fail/two.edit", "file: src/lib.rt\nold: 5\nnew: 6\n")
        passed, failed, lines = must_fail.judged(["a"], 0, self.said(one=self.REFUSED, two=self.REFUSED))
        self.assertEqual((passed, failed), (1, 1))
        self.assertEqual(lines[1], "must-fail a/two: BAD EDIT: its 'old:' text is in src/lib.rt 0 times")

    def test_a_file_where_none_is_read_fails(self):
        path = self.write("must-fail/deeper/three.edit", "file: src/lib.rt\nold: 1\nnew: 3\n")
        said = self.said(one=self.REFUSED, two=self.REFUSED) + f"rt: {path}: BAD EDIT: an edit stands right in must-fail/\n"
        passed, failed, lines = must_fail.judged(["a"], 1, said)
        self.assertEqual((passed, failed), (2, 1))
        self.assertEqual(lines[0], "crates/a/must-fail/deeper/three.edit: BAD EDIT: an edit stands right in must-fail/")

    def test_a_run_that_fails_for_another_reason(self):
        passed, failed, lines = must_fail.judged(["a"], 2, self.said(one=self.REFUSED, two=self.REFUSED) + "rt: no room on the disk\n")
        self.assertEqual((passed, failed), (2, 1))
        self.assertTrue(lines[-1].startswith("must_fail.py: rt must-fail ended with 2: "))

    def test_the_command(self):
        """Run whole, with an rt on the PATH that says what it is told, and is told the crates' names."""
        tools = os.path.join(self.root, "tools")
        os.makedirs(tools)
        shutil.copy(must_fail.__file__, tools)
        with open(os.path.join(tools, "rt"), "w", encoding="utf-8") as f:
            f.write(f'#!/bin/sh\n[ "$*" = "must-fail a" ] || exit 9\ncat <<\'END\'\n{self.said(one=self.REFUSED, two=self.REFUSED)}END\n')
        os.chmod(os.path.join(tools, "rt"), 0o755)
        environment = {**os.environ, "PATH": tools + ":" + os.environ["PATH"]}
        command = [sys.executable, os.path.join(tools, "must_fail.py")]
        for names, status, last in (([], 0, "2 passed, 0 failed"), (["a"], 0, "2 passed, 0 failed"), (["b"], 1, "must_fail.py: crates/b/must-fail/ has no edit")):
            ran = subprocess.run([*command, *names], env=environment, stdout=subprocess.PIPE, stderr=subprocess.STDOUT, text=True)
            self.assertEqual((ran.returncode, ran.stdout.splitlines()[-1]), (status, last))


if __name__ == "__main__":
    unittest.main()
