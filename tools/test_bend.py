"""Tests of bend.py. From the repository's folder: python3 -m unittest tools/test_bend.py"""

import csv
import json
import os
import random
import struct
import subprocess
import sys
import unittest
import xml.etree.ElementTree as ElementTree
from fractions import Fraction
from unittest import mock

sys.path.insert(0, os.path.dirname(os.path.abspath(__file__)))

from fixtures import BOUNDARY, EXAMPLE, EXAMPLE_ANSWER, EXAMPLE_BYTES, FIGHT_ANSWER, HERE, INF, MINUS_INF, NAN, ROOT  # noqa: E402
from fixtures import Folder, run, some_bits, some_problem  # noqa: E402

import make  # noqa: E402
from bendfile import answers, as_json, binary, describe, numbers, picture, problem, svg, validation  # noqa: E402
from bendfile.axis import Axis  # noqa: E402


class Numbers(unittest.TestCase):
    def test_text_and_back(self):
        source = random.Random(1)
        for bits in BOUNDARY + [source.getrandbits(64) for _ in range(20000)]:
            self.assertEqual(numbers.parse(numbers.exact(bits)), bits, hex(bits))

    def test_texts(self):
        known = {"0x1.8p1": 3.0, " 2 ": 2.0, "+.5": 0.5, "1.": 1.0, "4.9e-324": 5e-324, "1E3": 1000.0, "0e999": 0.0, "-Infinity": float("-inf")}
        for text, value in known.items():
            self.assertEqual(numbers.parse(text), numbers.to_bits(value), text)
        self.assertEqual(numbers.parse("-0"), 1 << 63)
        self.assertEqual(numbers.parse("NaN"), NAN)

    def test_no_numbers(self):
        for text in ("", "1,5", "1_000", "١", "0x", "1e", "--1", "bits:7FF", "infinite", "12 N", "-nan"):
            with self.assertRaisesRegex(ValueError, "expected a number such as", msg=text):
                numbers.parse(text)
        for text in ("1e309", "-1e309", "0x1p1024", "9" * 400):
            with self.assertRaisesRegex(ValueError, "beyond the largest number", msg=text):
                numbers.parse(text)
        for text in ("1e-400", "-0.0001e-330", "0x1p-1080"):
            with self.assertRaisesRegex(ValueError, "nearer to zero than the smallest", msg=text):
                numbers.parse(text)

    def test_shown(self):
        self.assertEqual([numbers.exact(numbers.to_bits(v)) for v in (2.0, -0.0, 0.1, 1e300)], ["2", "-0.0", "0.1", "1e+300"])
        self.assertEqual(numbers.exact(0xFFF8000000000000), "bits:FFF8000000000000")


class Files(Folder):
    def test_document_example(self):
        status, out, err = run("make", self.put("a.json", EXAMPLE), "-o", self.path("a.bend"))
        self.assertEqual((status, out, err), (0, b"", ""))
        self.assertEqual(self.get("a.bend"), EXAMPLE_BYTES)

    def test_order_of_parts(self):
        """Each part in its place: two rows, every number another."""
        made = problem.Problem([[1, 2], [3, 4]], [5, 6], [7, 8], [9, 10], [11, 12], [13, 14], [[15, 16]], 17, before=b"abc")
        data = binary.encode(made)
        self.assertEqual(data[:3], b"abc")
        self.assertEqual(struct.unpack("<17Q", data[3:-16]), tuple(range(1, 18)))
        self.assertEqual(struct.unpack("<IHHI4s", data[-16:]), (3, 2, 1, 17, b"BEND"))

    def test_round_trips(self):
        """Any file to JSON or CSV and back, byte for byte: any numbers, any free bytes."""
        source = random.Random(2)
        for turn in range(120):
            rows = source.choice([0, 1, 2, 3, 7, 32 if turn % 10 == 0 else 4])
            before = source.choice([b"", source.randbytes(source.randrange(40)), b"bend labels 1\n{}", b"bend labels 1\n[1]"])
            data = binary.encode(some_problem(source, rows, source.randrange(5), before))
            file = self.put("a.bend", data)
            for form in ("json", "csv"):
                self.assertEqual(run("show", "--" + form, file, "-o", self.path("b." + form))[0], 0)
                status, _, err = run("make", "--any-scale", self.path("b." + form), "-o", self.path("b.bend"))
                self.assertEqual(status, 0, err)
                self.assertEqual(self.get("b.bend"), data)

    def test_labels_round_trip(self):
        """Names, title and units in the free bytes come back, and the same bytes are written from what comes back."""
        record = json.loads(json.dumps(EXAMPLE))
        record.update(title='A "short", shaft', units={"load": "N", "motion": "mm"}, motion=[{"coordinate": "blade end", "values": [1]}])
        record["rows"][0]["name"] = "Filz 1, außen"
        file = self.put("a.json", record)
        self.assertEqual(run("make", "--labels", file, "-o", self.path("a.bend"))[0], 0)
        data = self.get("a.bend")
        self.assertTrue(data.startswith(b"bend labels 1\n") and data.endswith(EXAMPLE_BYTES[-16 + 4 :]))
        for form in ("json", "csv"):
            run("show", "--" + form, self.path("a.bend"), "-o", self.path("b." + form))
            run("make", self.path("b." + form), "-o", self.path("b.bend"))
            self.assertEqual(self.get("b.bend"), data)
        shown = run("show", self.path("a.bend"))[1].decode()
        for words in ('A "short", shaft', "Filz 1, außen", "blade end", "scale (N)", "free motion (mm)", "(mm/N)"):
            self.assertIn(words, shown)

    def test_free_bytes(self):
        free = self.put("free", b"\x00anything\xff")
        run("make", self.put("a.json", EXAMPLE), "--free", free, "-o", self.path("a.bend"))
        self.assertEqual(self.get("a.bend")[:10], b"\x00anything\xff")
        self.assertEqual(self.get("a.bend")[-16:-12], struct.pack("<I", 10))

    def test_largest(self):
        """32 rows, 64 coordinates, and free bytes up to the largest file; one byte more is refused."""
        size = 65536 - 16 - 8 * (32 * 32 + 5 * 32 + 64 * 32 + 1)
        made = some_problem(random.Random(3), 32, 64, bytes(size))
        self.assertEqual(len(binary.encode(made)), 65536)
        self.assertEqual(binary.encode(binary.decode(binary.encode(made))), binary.encode(made))
        made.before += b"x"
        with self.assertRaisesRegex(problem.BadInput, f"expected at most 65536 in all, so at most {size} here"):
            binary.encode(made)

    def test_refused_files(self):
        def trailer(start, rows, coordinates, count, mark=b"BEND"):
            return struct.pack("<IHHI", start, rows, coordinates, count) + mark

        cases = [
            (b"", "length: found 0 bytes; expected 16 to 65536 (refused 1)"),
            (bytes(15), "length: found 15 bytes; expected 16 to 65536 (refused 1)"),
            (bytes(65537), "length: found over 65536 bytes; expected 16 to 65536 (refused 1)"),
            (bytes(16), "mark: the last four bytes are 00 00 00 00; expected 42 45 4E 44 (refused 2)"),
            (trailer(0, 33, 0, 0), "found 33 rows and 0 coordinates, 0 motion values; expected at most 32 rows and 2048 motion values (refused 3)"),
            (trailer(0, 32, 65, 0), "found 32 rows and 65 coordinates, 2080 motion values"),
            (trailer(0, 1, 1, 9), "count: found 9; 1 rows and 1 coordinates make 8 (refused 4)"),
            (b"x" + EXAMPLE_BYTES, "length: start 0 and count 8 make 80 bytes; the file has 81 (refused 4)"),
            (trailer(0xFFFFFFF8, 0, 0, 1), "length: start 4294967288 and count 1 make 4294967312 bytes; the file has 16 (refused 4)"),
        ]
        for data, words in cases:
            status, out, err = run("show", self.put("a.bend", data))
            self.assertEqual((status, out), (1, b""))
            self.assertIn(words, err)
            self.assertTrue(err.startswith(f"bend.py: {self.path('a.bend')}: "), err)

    def test_no_rows_any_coordinates(self):
        data = struct.pack("<QIHHI4s", 0, 0, 0, 65535, 1, b"BEND")
        self.assertEqual(binary.encode(binary.decode(data)), data)


def changed(path, value):
    """The document's example as a description, with one place changed; the value ... removes it."""
    record = json.loads(json.dumps(EXAMPLE))
    place = record
    for key in path[:-1]:
        place = place[key]
    if value is ...:
        del place[path[-1]]
    else:
        place[path[-1]] = value
    return record


ROW = ("rows", 0)
TWO = [{"name": "a", "kind": "contact", "scale": 1, "free_motion": 0}, {"name": "a", "kind": "contact", "scale": 1, "free_motion": 0}]
JSON_ERRORS = [
    (b"{", "line 1, column 2: not JSON: "),
    (b"\xff", "byte 0 is not UTF-8; expected JSON text in UTF-8"),
    (b"[" * 100000, "nested too deeply"),
    (b'{"tolerance": 1, "tolerance": 2}', '"tolerance" stands twice in one object; expected once'),
    ([], "the file: found a list; expected an object with title, note, units, rows, matrix, triangle, motion, tolerance, before_start"),
    (changed(("colour",), 1), 'the file: "colour" is not a field here; expected title'),
    (changed(("rows",), ...), "rows: missing; a description needs rows, matrix and tolerance"),
    (changed(("matrix",), ...), "matrix: missing"),
    (changed(("tolerance",), ...), "tolerance: missing"),
    (changed(("tolerance",), None), "tolerance: found null; expected a number such as"),
    (changed(("tolerance",), "small"), 'tolerance: found "small"; expected a number such as'),
    (changed(("rows",), {}), "rows: found an object; expected a list"),
    (changed(("rows",), [{}] * 33), "rows: found 33; expected at most 32"),
    (changed(("rows",), [5]), "row 0: found 5; expected an object with name, kind, lo, hi, bound, scale, start, free_motion"),
    (changed((*ROW, "low"), 0), 'row 0: "low" is not a field here; expected name, kind, lo'),
    (changed((*ROW, "name"), ...), "row 0, name: missing; a row needs name, kind, scale and free_motion"),
    (changed((*ROW, "name"), 7), "row 0, name: found 7; expected a text in quotes"),
    (changed((*ROW, "name"), ""), 'row 0, name: found ""; expected a text of one line, not empty, with no space around it'),
    (changed((*ROW, "name"), "a\nb"), 'row 0, name: found "a?b"; expected a text of one line'),
    (changed((*ROW, "name"), " a"), 'row 0, name: found " a"; expected a text of one line'),
    (changed(("rows",), TWO), 'row 1, name: "a" is also the name of row 0; expected a name of its own'),
    (changed((*ROW, "kind"), ...), 'row 0 ("pad"), kind: missing'),
    (changed((*ROW, "kind"), "felt"), 'row 0 ("pad"), kind: found "felt"; expected contact (0 to inf), friction (-bound to bound) or custom (lo to hi)'),
    (changed((*ROW, "lo"), -1), 'row 0 ("pad"), lo: found -1; a contact row has 0 here; expected that, or kind custom'),
    (changed((*ROW, "hi"), 5), 'row 0 ("pad"), hi: found 5; a contact row has inf here'),
    (changed((*ROW, "bound"), 5), 'row 0 ("pad"), bound: a contact row has none; expected lo and hi, or kind friction'),
    (changed((*ROW, "kind"), "custom"), 'row 0 ("pad"), lo: missing; a custom row needs lo and hi'),
    (changed((*ROW, "kind"), "friction"), 'row 0 ("pad"), bound: missing; a friction row needs the largest load it can hold'),
    (changed(ROW, {"name": "s", "kind": "friction", "bound": -1, "free_motion": 0}), 'row 0 ("s"), bound: found -1; expected a finite number not below 0'),
    (changed(ROW, {"name": "s", "kind": "friction", "bound": 2, "lo": -1, "free_motion": 0}), 'row 0 ("s"), lo: found -1; a friction row has -2 here'),
    (changed((*ROW, "scale"), ...), 'row 0 ("pad"), scale: missing'),
    (changed((*ROW, "scale"), True), "row 0, scale: found true; expected a number such as"),
    (changed((*ROW, "scale"), 0), 'row 0 ("pad"), scale: found 0; expected a finite number above 0 (the solver refuses any other, number 8; --any-scale'),
    (changed((*ROW, "scale"), "nan"), 'row 0 ("pad"), scale: found nan; expected a finite number above 0'),
    (changed((*ROW, "scale"), "inf"), 'row 0 ("pad"), scale: found inf; expected a finite number above 0'),
    (changed((*ROW, "start"), [0]), "row 0, start: found a list; expected a number such as"),
    (changed((*ROW, "free_motion"), ...), 'row 0 ("pad"), free_motion: missing'),
    (changed((*ROW, "free_motion"), "4 mm"), 'row 0 ("pad"), free_motion: found "4 mm"; expected a number such as'),
    (changed(("matrix",), 2), "matrix: found 2; expected a list"),
    (changed(("matrix",), [2]), "matrix, line 0: found 2; expected a list"),
    (changed(("matrix",), []), "matrix: found 0 lines; expected 1, one per row"),
    (changed(("matrix",), [[1, 2]]), "matrix, line 0: found 2 values; expected 1, one per row"),
    (changed(("matrix",), [["x"]]), 'matrix, line 0, value 0: found "x"; expected a number such as'),
    (changed(("matrix",), "upper"), 'matrix: found "upper"; expected a list'),
    (changed(("matrix",), "lower"), 'triangle: missing; "matrix": "lower" needs it, line i with i + 1 values'),
    (changed(("triangle",), [[2]]), 'triangle: stands beside a matrix; expected it only with "matrix": "lower"'),
    ({**changed(("matrix",), "lower"), "triangle": [2]}, "triangle, line 0: found 2; expected a list"),
    ({**changed(("matrix",), "lower"), "triangle": [[2, 1]]}, "triangle, line 0: found 2 values; expected 1, up to the row's own entry"),
    ({**changed(("matrix",), "lower"), "triangle": [[2], [1, 2]]}, "matrix: found 2 lines; expected 1, one per row"),
    ({**changed(("matrix",), "lower"), "triangle": [["x"]]}, 'matrix, line 0, value 0: found "x"; expected a number such as'),
    (changed(("motion",), [[1, 1]]), "motion, line 0: found 2 values; expected 1, one per row"),
    (changed(("motion",), [[1]] * 2049), "motion: 2049 coordinates of 1 values are 2049 values; expected at most 2048"),
    (changed(("motion",), [{"coordinate": "x"}]), "motion, line 0, values: missing; expected coordinate and values"),
    (changed(("motion",), [{"coordinate": "x", "values": [1]}, [1]]), "motion, line 1: found a list; expected an object with coordinate, values"),
    ({"rows": [], "matrix": [], "motion": [[]] * 65536, "tolerance": 0}, "motion: found 65536 coordinates; expected at most 65535"),
    (changed(("units",), "N"), 'units: found "N"; expected an object with load, motion'),
    (changed(("title",), "two\nlines"), 'title: found "two?lines"; expected a text of one line'),
    (changed(("before_start",), "hex:0"), 'before_start: "hex:0" has a character that is no hexadecimal digit, or an odd number of digits'),
    (changed(("before_start",), "name"), 'before_start: found "name"; expected "labels" or "hex:" and the bytes in hexadecimal digits'),
    (changed(("before_start",), "hex:" + "00" * 65457), "before_start: 65457 bytes make a file of 65537; expected at most 65536 in all, so at most 65456 here"),
]

CSV_EXAMPLE = "bend,1\ntolerance,0\n\nrows,kind,scale,free_motion\npad,contact,1,-4\n\nmatrix,pad\npad,2\n\nmotion,pad\nblade,1\n"
CSV_ERRORS = [
    ("", 'line 1: found ""; expected bend,1'),
    ("bend|1\n", 'line 1: found "bend|1"; expected bend,1 (or bend;1, or a tab between the two)'),
    ("bend;2\n", 'line 1: found "bend,2"; expected bend,1'),
    ('bend,1\n"x\n', "not CSV: "),
    (CSV_EXAMPLE.replace("tolerance,0", ""), "tolerance: missing; expected a line such as tolerance,1e-6"),
    (CSV_EXAMPLE.replace("tolerance,0", "tolerance,0,5"), "line 2: tolerance has 2 values; expected one (a value with a separator in it needs quotes)"),
    (CSV_EXAMPLE.replace("tolerance,0", "tolerances,0"), 'line 2: found "tolerances"; expected title, note'),
    (CSV_EXAMPLE.replace("tolerance,0", "tolerance,0\ntolerance,0"), "line 3: tolerance stands twice; expected once"),
    (CSV_EXAMPLE.replace("rows,kind", "rows,kinds"), 'line 4: found the column "kinds"; expected each once of kind, lo'),
    (CSV_EXAMPLE.replace("rows,kind,scale", "rows,kind,kind"), 'line 4: found the column "kind"; expected each once'),
    (CSV_EXAMPLE.replace("1,-4", "1,-4,9"), "line 5: found 5 cells; expected at most 4, one per column"),
    (CSV_EXAMPLE.replace("1,-4", "1,-4 mm"), 'row 0 ("pad"), free_motion: found "-4 mm"; expected a number such as'),
    (CSV_EXAMPLE.replace("pad,contact", ",contact"), "line 5: the first cell is empty; expected the name of a pad or stop"),
    (CSV_EXAMPLE.replace("matrix,pad", "matrix,pads"), 'line 7: the columns of matrix: number 0 is "pads"; expected "pad", as in the block rows'),
    (CSV_EXAMPLE.replace("pad,2", "pads,2"), 'line 7: the lines of matrix: number 0 is "pads"; expected "pad", as in the block rows'),
    (CSV_EXAMPLE.replace("pad,2", "pad,2\npad,2"), 'line 7: the lines of matrix: number 1 is "pad"; expected no more'),
    (CSV_EXAMPLE.replace("pad,2\n", ""), 'line 7: the lines of matrix: number 0 is missing; expected "pad", as in the block rows'),
    (CSV_EXAMPLE.replace("pad,2", "pad,"), "matrix, line 0: found 0 values; expected 1, one per row"),
    (CSV_EXAMPLE.replace("blade,1", "blade,x"), 'motion, line 0, value 0: found "x"; expected a number such as'),
    (CSV_EXAMPLE.replace("matrix,", "note,").replace("pad,2", ""), "matrix: missing; expected a block that begins with a line matrix,... and ends with an empty line"),
]


class Descriptions(Folder):
    def refused(self, name, data, words):
        """The message names the file and the field; the output that was there stays, and nothing is left beside it."""
        file, out = self.put(name, data), self.put("out.bend", b"old")
        status, printed, err = run("make", file, "-o", out)
        self.assertEqual((status, printed), (1, b""), words)
        self.assertTrue(err.startswith(f"bend.py: {file}: "), err)
        self.assertIn(words, err)
        self.assertEqual(len(err.splitlines()), 1)
        self.assertEqual(self.get("out.bend"), b"old")
        self.assertEqual(sorted(os.listdir(self.folder)), sorted([name, "out.bend"]))

    def test_json_errors(self):
        for data, words in JSON_ERRORS:
            with self.subTest(words):
                self.refused("a.json", data, words)

    def test_csv_errors(self):
        for data, words in CSV_ERRORS:
            with self.subTest(words):
                self.refused("a.csv", data.encode(), words)

    def test_csv_example(self):
        for text in (CSV_EXAMPLE, "\ufeff" + CSV_EXAMPLE.replace("\n", "\r\n"), CSV_EXAMPLE.replace("\n\n", "\n,,,\n").replace("pad,2", "pad , 2,,")):
            status, out, err = run("make", self.put("a.csv", text.encode()), "-o", "-")
            self.assertEqual((status, err), (0, ""))
            self.assertEqual(out, EXAMPLE_BYTES)

    def test_kinds(self):
        """A friction row's scale is its bound unless written; hi may stand for the bound; bounds that a kind says may be repeated."""
        row = {"name": "s", "kind": "friction", "bound": 2.5, "free_motion": 0}
        for more in ({}, {"lo": -2.5}, {"hi": 2.5, "lo": "-2.5"}):
            made = describe.build(as_json.read(json.dumps(changed(ROW, {**row, **more})).encode()))
            self.assertEqual([numbers.to_float(v[0]) for v in (made.lo, made.hi, made.scale)], [-2.5, 2.5, 2.5])
        made = describe.build(as_json.read(json.dumps(changed((*ROW, "hi"), "inf")).encode()))
        self.assertEqual((made.lo[0], made.hi[0]), (0, INF))

    def test_lower_triangle(self):
        """A triangle and the mirrored matrix make one file. Three rows: of two the lower and the upper triangle by rows are the same list."""
        row = {"kind": "contact", "scale": 1, "free_motion": -1}
        record = {"rows": [{"name": name, **row} for name in "abc"], "tolerance": 0}
        lower = {**record, "matrix": "lower", "triangle": [[10], [1, 20], [2, 3, 30]]}
        full = {**record, "matrix": [[10, 1, 2], [1, 20, 3], [2, 3, 30]]}
        made = [describe.build(as_json.read(json.dumps(one).encode())) for one in (lower, full)]
        self.assertEqual(*[binary.encode(one) for one in made])

    def test_numbers_in_json(self):
        """-0 keeps its sign; a number too large is not an infinity."""
        made = describe.build(as_json.read(b'{"rows": [], "matrix": [], "tolerance": -0}'))
        self.assertEqual(made.tolerance, 1 << 63)
        with self.assertRaisesRegex(problem.BadInput, "tolerance: .* beyond the largest number"):
            describe.build(as_json.read(b'{"rows": [], "matrix": [], "tolerance": 1e999}'))

    def test_warnings(self):
        record = changed(ROW, {"name": "a", "kind": "custom", "lo": 2, "hi": 1, "scale": 1, "free_motion": 0})
        record["rows"].append({"name": "b", "kind": "contact", "scale": 1, "free_motion": 0})
        record.update(matrix=[[1, 2], [3, 0]], motion=[])
        status, _, err = run("make", self.put("a.json", record), "-o", self.path("a.bend"))
        self.assertEqual(status, 0)
        for words in ('row 0 ("a"): lo 2 is above hi 1', 'row 1 ("b"): its own entry of the matrix is 0', "entry (1, 0) is 3, entry (0, 1) is 2"):
            self.assertIn(words, err)

    def test_usage(self):
        file = self.put("a.json", EXAMPLE)
        cases = [(), ("make",), ("make", file), ("make", self.put("a.txt", EXAMPLE), "-o", "x"), ("make", file, "-o", file), ("show",), ("turn",)]
        for arguments in cases:
            status, out, err = run(*arguments)
            self.assertEqual((status, out), (2, b""), arguments)
            self.assertIn("usage: bend.py", err)
        self.assertEqual(self.get("a.json"), json.dumps(EXAMPLE).encode())

    def test_standard_streams(self):
        status, out, _ = run("make", "-", "--from", "json", "-o", "-", stdin=json.dumps(EXAMPLE).encode())
        self.assertEqual((status, out), (0, EXAMPLE_BYTES))
        self.assertIn(b"1 row, 1 coordinate, 80 bytes", run("show", "-", stdin=EXAMPLE_BYTES)[1])
        self.assertIn("standard input: mark:", run("show", "-", stdin=bytes(16))[2])

    def test_files_that_are_not_there(self):
        status, _, err = run("make", self.path("no.json"), "-o", self.path("out.bend"))
        self.assertEqual(status, 1)
        self.assertIn("no.json: cannot be read: No such file or directory", err)
        file = self.put("a.json", EXAMPLE)
        status, _, err = run("make", file, "-o", self.path("no/out.bend"))
        self.assertEqual((status, "out.bend: cannot be written: No such file or directory" in err), (1, True))
        status, _, err = run("make", file, "-o", self.folder)
        self.assertEqual((status, "not a regular file; expected a file's name" in err), (1, True))

    def test_failing_disk(self):
        """A disk that fails at the last moment leaves the old file and nothing else."""
        file, out = self.put("a.json", EXAMPLE), self.put("out.bend", b"old")
        for call in ("os.fsync", "os.replace"):
            with mock.patch(call, side_effect=OSError(5, "Input/output error")):
                status, _, err = run("make", file, "-o", out)
            self.assertEqual((status, err), (1, f"bend.py: {out}: cannot be written: Input/output error\n"))
            self.assertEqual(self.get("out.bend"), b"old")
            self.assertEqual(sorted(os.listdir(self.folder)), ["a.json", "out.bend"])

    def test_on_disk_before_its_name(self):
        """The bytes are on the disk before the file gets its name, so that a power cut cannot leave an empty file under it."""
        order = []
        self.fsync.side_effect = lambda _: order.append("fsync")
        rename = os.replace
        with mock.patch("os.replace", side_effect=lambda *names: (order.append("replace"), rename(*names))):
            run("make", self.put("a.json", EXAMPLE), "-o", self.path("a.bend"))
        self.assertEqual(order, ["fsync", "replace"])

    def test_modes_and_links(self):
        """A new file gets an ordinary mode, a file that was there keeps its own, and a link stays a link."""
        file, mask = self.put("a.json", EXAMPLE), os.umask(0o027)
        try:
            run("make", file, "-o", self.path("new.bend"))
        finally:
            os.umask(mask)
        self.assertEqual(os.stat(self.path("new.bend")).st_mode & 0o777, 0o640)
        os.chmod(self.path("new.bend"), 0o604)
        os.symlink("new.bend", self.path("link.bend"))
        run("make", file, "--labels", "-o", self.path("link.bend"))
        self.assertTrue(os.path.islink(self.path("link.bend")))
        self.assertEqual(os.stat(self.path("new.bend")).st_mode & 0o777, 0o604)
        self.assertTrue(self.get("new.bend").startswith(b"bend labels 1\n"))


REPORT = "sweeps 1 passes 1 converged 1 exact 1 idle 0 residual 0000000000000000\n"
ANSWER_ERRORS = [
    ("", "the answer is empty; expected what bendsolve prints"),
    ("solved\r\n", "a line ends with the bytes 0D 0A; expected 0A alone"),
    ("solved\n" + REPORT[:-1], "the last line has no end; expected the byte 0A after it (is the answer cut short?)"),
    ("Solved\n" + REPORT, 'line 1: found "Solved"; expected solved, infeasible growth, infeasible pass, infeasible sweep or refused and a number'),
    ("infeasible ray\n" + REPORT, 'line 1: found "infeasible ray"'),
    ("refused\n", 'line 1: found "refused"'),
    ("refused 04\n", 'line 1: found "refused 04"'),
    ("refused 4\nrow", "the last line has no end"),
    ("refused 4\n" + REPORT, 'line 2: found "sweeps 1'),
    ("solved\n", 'line 2: found ""; expected sweeps, passes, converged, exact, idle and residual'),
    ("solved\n" + REPORT.replace("converged 1", "converged 2"), 'line 2: found "sweeps 1 passes 1 converged 2'),
    ("solved\n" + REPORT.replace("residual 0", "residual a"), "line 2: found"),
    ("solved\n" + REPORT + "row 1 I 4000000000000000\n", 'line 3: found "row 1 I 4000000000000000"; expected row 0, a state I, L, H or Z, and 16 digits'),
    ("solved\n" + REPORT + "row 0 X 4000000000000000\n", "line 3: found"),
    ("solved\n" + REPORT + "row 0 I 400000000000000\n", "line 3: found"),
    ("solved\n" + REPORT + "row 0 I 7ff8000000000000\n", "line 3: found"),
    ("solved\n" + REPORT + "row 0 I 4000000000000000\nfights 0\n", 'line 4: found "fights 0"; expected row 1'),
    ("solved\n" + REPORT + "row 0 Z 4000000000000000\n", "line 2 says 0 idle, and 1 rows have state Z; expected the same number"),
    ("solved\n" + REPORT + "".join(f"row {i} I 0000000000000000\n" for i in range(33)), "found 33 rows; expected at most 32"),
    ("infeasible pass\n" + REPORT, 'line 2: found ""; expected fights and at least one row number'),
    ("infeasible pass\n" + REPORT + "row 0 I 4000000000000000\n", 'line 3: found "row 0 I 4000000000000000"; expected fights'),
    ("infeasible pass\n" + REPORT + "row 0 I 4000000000000000\nfights\n", 'line 4: found "fights"; expected fights and at least one row number'),
    ("infeasible pass\n" + REPORT + "row 0 I 4000000000000000\nfights 1\n", "line 4: row 1 is out of place; expected rising row numbers below 1"),
    ("infeasible pass\n" + REPORT + "row 0 I 4000000000000000\nfights 0 0\n", "line 4: row 0 is out of place"),
]

REFUSAL_WORDS = {
    1: "under 16 or over 65,536 bytes",
    2: "mark",
    3: "more than 32 rows, or more than 2,048 motion values",
    4: "count of numbers does not fit its rows and coordinates, or its length does not fit its start and count",
    5: "solve: more than 32 rows, or more than 2,048 motion values",
    6: "matrix does not have rows times rows values",
    7: "lower bounds, upper bounds, scales or multipliers are not one per row",
    8: "a scale is NaN, infinite, zero or below zero",
    9: "motion values are not a whole number of lines",
    10: "workspace has under 2,304 places, or the states or the row list have fewer places than rows",
    11: "tally's increments, sweeps or passes have no room",
    12: "least norm: more than 32 rows or columns",
    13: "sum of a count is above 4,294,967,295",
    14: "fewer than four bytes before a step's numbers, or a link above its own offset",
    15: "more than 40 steps, or none to write",
    16: "lower triangle does not have rows times (rows + 1) / 2 values",
    17: "a number is NaN or infinite",
    18: "more than 32 products, or a second free motion",
}


class Answers(Folder):
    def test_document_example(self):
        answer, file = self.put("a.txt", EXAMPLE_ANSWER), self.put("a.bend", EXAMPLE_BYTES)
        status, out, err = run("answer", answer, file)
        self.assertEqual((status, err), (0, ""))
        self.assertEqual(
            out.decode(),
            "solved, exact\n1 sweep, 1 exact pass, 0 idle, residual 0\n\n"
            "row  name   state                   load  lo   hi  motion left\n"
            "  0  row 0  Inside: closed, pushes     2   0  inf            0\n",
        )
        self.assertEqual(run("answer", answer)[1].decode().splitlines()[-1], "  0  Inside     2")

    def test_fight(self):
        status, out, _ = run("answer", self.put("a.txt", FIGHT_ANSWER))
        self.assertEqual(status, 0)
        shown = out.decode()
        for words in ("infeasible (pass): an exact pass found", "  0  stopped (Inside)     1  fights\n", "Rows that fight: row 0, row 1.", "not loads of the rig"):
            self.assertIn(words, shown)

    def test_causes(self):
        for cause, words in (("growth", "grew past a million times"), ("pass", "an exact pass found"), ("sweep", "after a sweep")):
            out = run("answer", "-", stdin=FIGHT_ANSWER.replace(b"pass\n", cause.encode() + b"\n", 1))[1].decode()
            self.assertIn(f"infeasible ({cause}): ", out)
            self.assertIn(words, out)

    def test_refusals(self):
        self.assertEqual(set(answers.REFUSALS), set(REFUSAL_WORDS))
        for number, words in REFUSAL_WORDS.items():
            status, out, err = run("answer", "-", stdin=b"refused %d\n" % number)
            self.assertEqual((status, err), (0, ""))
            self.assertTrue(out.decode().startswith(f"refused {number}: "))
            self.assertIn(words, out.decode())
        self.assertIn(b"refused 99: not a number of document 01's table", run("answer", "-", stdin=b"refused 99\n")[1])

    def test_refused_file_need_not_be_readable(self):
        self.assertEqual(run("answer", self.put("a.txt", b"refused 2\n"), self.put("a.bend", bytes(16)))[0], 0)
        status, _, err = run("picture", self.path("a.txt"), self.path("a.bend"), "-o", self.path("a.svg"))
        self.assertEqual((status, "there are no loads to draw" in err), (1, True))

    def test_errors(self):
        for data, words in ANSWER_ERRORS:
            with self.subTest(words):
                status, out, err = run("answer", self.put("a.txt", data.encode()))
                self.assertEqual((status, out), (1, b""))
                self.assertTrue(err.startswith(f"bend.py: {self.path('a.txt')}: "), err)
                self.assertIn(words, err)

    def test_every_cut_is_found(self):
        """With its bend file, no beginning of an answer passes for a whole one."""
        file = self.put("a.bend", EXAMPLE_BYTES)
        for many in range(len(EXAMPLE_ANSWER)):
            self.assertEqual(run("answer", self.put("a.txt", EXAMPLE_ANSWER[:many]), file)[0], 1, many)

    def test_answer_to_another_file(self):
        def told(old, new, data=EXAMPLE_BYTES):
            status, out, err = run("answer", self.put("a.txt", EXAMPLE_ANSWER.replace(old, new)), self.put("a.bend", data))
            self.assertEqual((status, out), (1, b""))
            return err

        self.assertIn("loads in the bend file give 0.5; expected the answer to this file", told(b"I 4000", b"I 4004"))
        self.assertIn("has state Z, and its own entry of the file's matrix is 2", told(b"idle 0 residual 0000000000000000\nrow 0 I", b"idle 1 residual 0000000000000000\nrow 0 Z"))
        self.assertIn("the answer has 1 rows, the bend file 0", told(b"", b"", struct.pack("<QIHHI4s", 0, 0, 0, 0, 1, b"BEND")))
        self.assertIn("number 8", told(b"", b"", EXAMPLE_BYTES[:32] + bytes(8) + EXAMPLE_BYTES[40:]))

    def test_notes(self):
        nan = EXAMPLE_ANSWER.replace(b"I 4000000000000000", b"I 7FF8000000000000")
        shown = run("answer", "-", self.put("a.bend", EXAMPLE_BYTES), stdin=nan)[1]
        self.assertIn(b"No load was found for row 0", shown)
        self.assertNotIn(b"pushes", shown)
        capped = EXAMPLE_ANSWER.replace(b"sweeps 1 passes 1 converged 1 exact 1", b"sweeps 200 passes 9 converged 0 exact 0").replace(b"residual 0", b"residual 4")
        shown = run("answer", "-", stdin=capped)[1]
        for words in (b"solved by sweeps, not converged", b"200 sweeps, 9 exact passes", b"ended at their cap", b"The residual is above 1e-9"):
            self.assertIn(words, shown)

    def test_residual_rule(self):
        """Document 01's residual on a row pushed against a bound, a row off its bound, and a NaN row, which adds nothing."""
        made = problem.Problem([[numbers.to_bits(v) for v in line] for line in ((2.0, 0.0), (0.0, 1.0))], *([0, 0] for _ in range(5)), [], 0)
        made.free_motion = [numbers.to_bits(-4.0), numbers.to_bits(3.0)]
        made.hi = [INF, INF]
        made.scale = [numbers.to_bits(10.0)] * 2
        answer = answers.Answer("solved", states=["I", "L"], loads=[numbers.to_bits(1.0), 0])
        self.assertEqual(answers.row_sums(made, answer), [-2.0, 3.0])
        self.assertEqual(answers.residual(made, answer), 0.1)
        made.free_motion[0] = NAN
        self.assertEqual(answers.residual(made, answer), 0.0)

    def test_idle_rule(self):
        """A row is Idle exactly if its own entry of the matrix is NaN or not above 0."""
        made = some_problem(random.Random(6), 1, 0)
        for bits, idle in ((0, True), (1 << 63, True), (NAN, True), (0xFFF8000000000001, True), (MINUS_INF, True), (1, False), (INF, False)):
            made.matrix[0][0] = bits
            self.assertEqual(made.idle(0), idle, hex(bits))

    def test_full_digits(self):
        third = EXAMPLE_ANSWER.replace(b"I 4000000000000000", b"I 3FD5555555555555")
        self.assertIn(b"0.3333333333333333", run("answer", "--full", "-", stdin=third)[1])
        self.assertNotIn(b"0.3333333333333333", run("answer", "-", stdin=third)[1])


class Pictures(Folder):
    def drawn(self, made, answer):
        tree = ElementTree.fromstring(picture.draw(answer, made))
        height = float(tree.get("height"))
        for part in tree.iter():
            for key, value in part.attrib.items():
                if key in ("x", "x1", "x2", "cx"):
                    self.assertTrue(-1 <= float(value) <= 800, (key, value))
                if key in ("y", "y1", "y2", "cy"):
                    self.assertTrue(-1 <= float(value) <= height, (key, value))
        return tree

    def test_any_numbers(self):
        """Whatever the numbers are, the picture is well formed, names every row and stays within its frame."""
        source = random.Random(4)
        for turn in range(200):
            made = some_problem(source, turn % 33, 1)
            made.labels.names = [f"<pad & {i}>" for i in range(made.rows)]
            states = ["Z" if made.idle(i) else source.choice("ILH") for i in range(made.rows)]
            answer = answers.Answer("solved", states=states, loads=[some_bits(source) for _ in states])
            tree = self.drawn(made, answer)
            words = "".join(tree.itertext())
            for i in range(made.rows):
                self.assertIn(f"<pad & {i}>", words)
            self.assertEqual(len(tree.findall("{*}g")), made.rows)

    def test_parts(self):
        """Bars of the right length, brackets at finite bounds, an open arrow at an infinite one."""
        made = describe.build(as_json.read(json.dumps(EXAMPLE).encode()))
        tree = self.drawn(made, answers.read(EXAMPLE_ANSWER))
        strip = tree.find("{*}g")
        band, bar = strip.findall("{*}rect")
        self.assertEqual((band.get("fill"), bar.get("fill")), (picture.BAND, picture.COLOURS["I"]))
        zero = float(bar.get("x"))
        self.assertAlmostEqual(float(bar.get("width")), (570 - 178) / 1.1, delta=0.1)
        self.assertAlmostEqual(zero, 178 + (570 - 178) * 0.05 / 1.1, delta=0.1)
        bracket, arrow = strip.findall("{*}path")
        self.assertIn(f"L{svg.place(zero)} ", bracket.get("d"))
        self.assertTrue(arrow.get("d").startswith("M570 ") and arrow.get("fill") == "none")
        self.assertEqual(strip.find("{*}title").text, "pad: load 2, bounds 0 to inf, Inside: closed, pushes.")

    def test_far_bound(self):
        """A bound far beyond the loads does not press them together: it is a filled arrow at the edge, and the legend says so."""
        record = changed(ROW, {"name": "pad", "kind": "custom", "lo": 0, "hi": 1e9, "scale": 1, "free_motion": -4})
        made = describe.build(as_json.read(json.dumps(record).encode()))
        tree = self.drawn(made, answers.read(EXAMPLE_ANSWER))
        bar = tree.find("{*}g").findall("{*}rect")[1]
        self.assertAlmostEqual(float(bar.get("width")), (570 - 178) / 1.1, delta=0.1)
        arrow = tree.find("{*}g").findall("{*}path")[1]
        self.assertTrue(arrow.get("d").startswith("M570 ") and arrow.get("fill") == picture.INK)
        self.assertIn("bound outside the picture", "".join(tree.itertext()))

    def test_ticks(self):
        """Round values in their places, zero among them."""
        made = describe.build(as_json.read(json.dumps(EXAMPLE).encode()))
        ticks = Axis(answers.read(EXAMPLE_ANSWER).loads, made.lo + made.hi, made.scale, 0, 110).ticks()
        self.assertEqual([(round(x, 6), label, zero) for x, label, zero in ticks], [(5 + 25 * k, f"{k / 2:g}", k == 0) for k in range(5)])

    def test_fights_and_idle(self):
        made = some_problem(random.Random(5), 3, 0)
        made.matrix[0][0], made.matrix[1][1], made.matrix[2][2] = 0, numbers.to_bits(1.0), numbers.to_bits(1.0)
        answer = answers.Answer("infeasible", cause="pass", idle=1, states=["Z", "I", "I"], loads=[0, numbers.to_bits(1.0), numbers.to_bits(2.0)], fights=[1, 2])
        strips = self.drawn(made, answer).findall("{*}g")
        self.assertEqual([any(t.text == "fights" for t in s.findall("{*}text")) for s in strips], [False, True, True])
        self.assertEqual([all(t.get("fill") == picture.GREY for t in s.findall("{*}text")) for s in strips], [True, False, False])

    def test_accessible(self):
        answer, file = self.put("a.txt", EXAMPLE_ANSWER), self.put("a.bend", EXAMPLE_BYTES)
        self.assertEqual(run("picture", answer, file, "-o", self.path("a.svg"))[0], 0)
        tree = ElementTree.fromstring(self.get("a.svg"))
        self.assertEqual(tree.get("role"), "img")
        ids = [part.get("id") for part in tree if part.tag.endswith(("title", "desc"))]
        self.assertEqual(tree.get("aria-labelledby").split(), ids)
        self.assertIn("row 0: load 2, bounds 0 to inf, Inside: closed, pushes.", tree.find("{*}desc").text)


def example_files(ending):
    found = []
    for folder, _, names in os.walk(os.path.join(ROOT, "examples")):
        found += [os.path.join(folder, name) for name in names if name.endswith(ending)]
    return sorted(found)


def content(path):
    with open(path, "rb") as file:
        return file.read()


def fraction(bits):
    return Fraction(numbers.to_float(bits))


class Examples(Folder):
    def test_made_again(self):
        """The script makes the stored files again, byte for byte."""
        make.main(["--out", self.folder])
        made = []
        for folder, _, names in os.walk(self.folder):
            for name in names:
                path = os.path.join(folder, name)
                made.append(os.path.relpath(path, self.folder))
                self.assertEqual(content(path), content(os.path.join(ROOT, "examples", made[-1])), made[-1])
        self.assertEqual(len([name for name in made if name.endswith(".bend")]), 9)

    def test_descriptions_make_the_files(self):
        for path in example_files(".bend"):
            for form in (".json", ".csv"):
                source = path[: -len(".bend")] + form
                if os.path.exists(source):
                    status, _, err = run("make", source, "-o", self.path("a.bend"))
                    self.assertEqual((status, err), (0, ""))
                    self.assertEqual(self.get("a.bend"), content(path), source)

    def test_matrices(self):
        """Symmetric and positive semi-definite, by exact elimination."""
        for path in example_files(".bend"):
            made = binary.decode(content(path))
            matrix = [[fraction(v) for v in line] for line in made.matrix]
            self.assertEqual(matrix, [list(column) for column in zip(*matrix)])
            for k, line in enumerate(matrix):
                self.assertTrue(line[k] > 0 or (line[k] == 0 and not any(line[k:])), (path, k))
                for below in matrix[k + 1 :]:
                    part = below[k] / line[k] if line[k] else 0
                    below[k:] = [v - part * w for v, w in zip(below[k:], line[k:])]

    def test_answers(self):
        """Each stored answer belongs to its file; a solved one meets every row's condition within rounding."""
        for path in example_files(".bend"):
            made = binary.decode(content(path))
            answer = answers.read(content(path.replace(".bend", ".answer.txt")))
            validation.check(answer, made)
            if answer.outcome != "solved":
                continue
            self.assertTrue(answer.exact and answer.converged)
            for i, motion in enumerate(answers.row_sums(made, answer)):
                lo, load, hi = (numbers.to_float(v[i]) for v in (made.lo, answer.loads, made.hi))
                self.assertTrue(lo <= load <= hi)
                held = {"I": abs(motion) < 1e-9, "L": load == lo and motion >= 0, "H": load == hi and motion <= 0}
                self.assertTrue(held[answer.states[i]], (path, i))

    def test_the_fight_is_one(self):
        """Pushed by both stops alike, no row moves, and the two gaps together are below zero: no position of the shaft meets both."""
        path = os.path.join(ROOT, "examples", "stops-that-fight", "stops-that-fight")
        made, answer = binary.decode(content(path + ".bend")), answers.read(content(path + ".answer.txt"))
        self.assertEqual((answer.cause, answer.fights), ("pass", [6, 7]))
        for line in made.matrix:
            self.assertEqual(fraction(line[6]) + fraction(line[7]), 0)
        self.assertLess(fraction(made.free_motion[6]) + fraction(made.free_motion[7]), 0)

    def test_pull(self):
        """A pull has steps up and down, and the stop that slid holds the shaft back on the way down."""
        with open(os.path.join(ROOT, "examples", "pull", "loads.csv"), newline="", encoding="utf-8") as file:
            steps = list(csv.DictReader(file))
        self.assertEqual([step["ram (N)"] for step in steps], ["40", "80", "120", "160", "80", "0"])
        self.assertEqual((steps[1]["stop B (N)"], steps[4]["stop B (N)"]), ("20", "-20"))
        self.assertNotEqual(steps[1]["pad 6 (N)"], steps[4]["pad 6 (N)"])

    def test_walkthrough_shows_what_the_tool_prints(self):
        page = content(os.path.join(ROOT, "docs", "WALKTHROUGH.md")).decode("utf-8")
        folder = os.path.join(ROOT, "examples")
        for name in ("shaft-six-pads/shaft-six-pads", "stops-that-fight/stops-that-fight"):
            for ending in (".answer.txt", ".table.txt"):
                shown = content(os.path.join(folder, name + ending)).decode()
                self.assertIn("\n```\n" + shown + "```\n", page, name + ending)
        for line in content(os.path.join(folder, "pull", "loads.csv")).decode().splitlines():
            self.assertIn(line, page)


class Program(Folder):
    """The program as it is run, in a process of its own."""

    def call(self, *arguments, **more):
        return subprocess.run([sys.executable, os.path.join(HERE, "bend.py"), *arguments], stderr=subprocess.PIPE, **more)

    def test_statuses(self):
        self.assertEqual(self.call("make", self.put("a.json", EXAMPLE), "-o", self.path("a.bend")).returncode, 0)
        self.assertEqual(self.call("show", self.put("b.bend", b"")).returncode, 1)
        self.assertEqual(self.call("show").returncode, 2)

    def test_output_that_cannot_be_written(self):
        file = self.put("a.bend", EXAMPLE_BYTES)
        with open("/dev/full", "wb") as full:
            ended = self.call("show", file, stdout=full)
        self.assertEqual(ended.returncode, 1)
        self.assertEqual(ended.stderr.decode(), "bend.py: standard output: cannot be written: No space left on device\n")

    def test_reader_that_has_gone(self):
        read, write = os.pipe()
        os.close(read)
        ended = self.call("show", self.put("a.bend", EXAMPLE_BYTES), stdout=write)
        os.close(write)
        self.assertEqual((ended.returncode, ended.stderr), (1, b""))

    def test_plain_locale(self):
        record = changed((*ROW, "name"), "Filz außen")
        file = self.put("a.json", record)
        run("make", "--labels", file, "-o", self.path("a.bend"))
        ended = self.call("show", self.path("a.bend"), stdout=subprocess.PIPE, env={**os.environ, "LC_ALL": "C", "PYTHONIOENCODING": "ascii"})
        self.assertEqual(ended.returncode, 0)
        self.assertIn("Filz außen", ended.stdout.decode("utf-8"))


if __name__ == "__main__":
    unittest.main()
