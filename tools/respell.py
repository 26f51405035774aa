#!/usr/bin/env python3
"""Spells the repository's own definitions and lemmas as today's library does: words in snake case, a dash only between two names.

usage: tools/respell.py [--check]        at the top of the repository; --check writes nothing and lists the names that change
       tools/respell.py --constants      the numbers of CONSTANTS alone, in their files
       tools/respell.py --labels         the labels of LABELS alone

A name is the repository's own if a file of specs/ or proofs/ declares it: a definition, a lemma, a field of a record, a case of a data type.
What changes, in the clauses of src/, in specs/, proofs/ and the must-fail edits (comments and pages too, where they name it):
  rowSum, isNaN        row_sum, is_nan
  NaN (a number)       nan_bits, since a constant of specs/ is no type
  row-end, tab-length  row_end, tab-length: the dash stays only before the name of a definition, as `length`
The goals that Rattle names, as `returns-2`, and names that a proof gives to its goals keep their spelling. Functions of src/, exported names
and strings are not touched. It was run once, right after the kit's port.py, and once more each with --constants and --labels.
"""

import glob
import os
import re
import sys

WORD = re.compile(r"[^\s(){}.;,@\"«»\[\]]+")
DECLARED = re.compile(r"^\s*((?:(?:abbrev|unfoldable|pub|private|data|record)\s+)*)([^\s:(){}=\[\]\"]+)\s*((?:[({].*?[)}]\s*)*):\s(.*)$")
FIELD = re.compile(r"\{ ([^\s:=;]+) :|; ([^\s:=;]+) :")
GOAL = re.compile(r"^\s*(?:pub )?\S+ : (?:tie\.|this\.Tie|goal\.)|-spec\b|_spec\b|^\s*(?:abbrev )?(?:pub )?(?:invariant|decreases|μ|inv)-")
LIBRARY = set("""length take drop get_or set replicate map reverse paste append cons nil suc zero not cond eqb leb ltb min max lt le eq ne add sub mul div neg
abs fma nan value of_bits to_bits binary64 is_nan is_finite pow mod list nat bool""".split())
# names that would fall together with another one, or that say less than they should
BY_HAND = {
    "NaN": "nan_bits",
    "sliceT": "slice_type",
    "isNaN": "nan_test",
    "is-nan": "nan_test_is_nan",
    "nan-test": "nan_tested",
    "rankLeft": "rank_after",
    "units_of": "units_of_lem",
    "joined_by": "joined_by_lem",
    "in-box": "in_box_lem",
    "least-norm": "least_norm_case",
}
# of these the one is meant that a file of lemmas or definitions declares, and not a word of Rattle's in a proof
LEMMAS_ALONE = {"is-nan", "nan-test", "units_of", "joined_by", "in-box", "least-norm"}


def texts(root):
    for kind in ("specs", "proofs"):
        for p in sorted(glob.glob(f"{root}/crates/*/{kind}/**/*.antt", recursive=True)):
            if "/out/" not in p:
                yield p

# numbers of one capital letter in lemma files: a word for each, in the files that declare or import it
CONSTANTS = {
    "accumulator/proofs/Patterns.antt": {"H": "hidden_bit", "S": "sign_bit"},
    "accumulator/proofs/Exact.antt": {"M": "largest_term"},
    "floats/proofs/SquareRoot/Branches.antt": {"H": "hidden_bit", "S": "sign_bit", "I": "infinity_bits", "Z": "zero_float"},
    "floats/proofs/SquareRoot/Halves.antt": {"B": "half_size"},
    "floats/proofs/SquareRoot/Midpoint.antt": {"H": "hidden_bit", "I": "infinity_bits", "Z": "zero_float"},
    "floats/proofs/SquareRoot/Normal.antt": {"H": "hidden_bit", "I": "infinity_bits"},
    "floats/proofs/SquareRoot/Patterns.antt": {"H": "hidden_bit", "S": "sign_bit"},
    "floats/proofs/SquareRoot/Square.antt": {"H": "hidden_bit", "I": "infinity_bits"},
    "nearest/proofs/Patterns.antt": {"H": "hidden_bit", "I": "infinity_bits"},
    "nearest/proofs/Steps.antt": {"H": "hidden_bit", "S": "sign_bit", "I": "infinity_bits"},
    "nearest/proofs/Units.antt": {"L": "low_digit"},
}

# labels of records, which are Rust identifiers; three would be called as the definition that they cite
LABELS = {
    w: w.replace("-", "_")
    for w in """answer-is at-coords at-link at-start b-le before-long coords-is e-hi e-lo few-moving few-rows free-motion kept-is marks-long nu-is
of-nu of-rows of-states r-lt rank-small residual-is result-is sign-is tally-is tolerance-is workspace-left""".split()
} | {"a-left": "a_is", "b-left": "b_is", "x-left": "x_is"}


def snake(name):
    name = name.replace("NaN", "Nan")
    name = re.sub(r"(?<=[a-z0-9'])(?=[A-Z])", "_", name)
    return re.sub(r"_([A-Z])", lambda m: "_" + m[1].lower(), name)


def declarations(root):
    """own: each name with whether it is a definition (what a lemma's name may speak of)."""
    own, types = {}, set()
    for p in texts(root):
        lines = open(p, encoding="utf-8").read().split("\n")
        proof = p.endswith("/Proof.antt")
        for line in lines:
            if line.lstrip().startswith(("--", "use ", "open ")):
                continue
            m = DECLARED.match(line)
            if m:
                words, name = m[1].split(), m[2]
                if proof and GOAL.search(line):
                    continue
                if "data" in words or "record" in words or re.search(r"(→|:) Type \d( where)?$", line):
                    types.add(name)
                is_definition = "/specs/" in p or "abbrev" in words or "unfoldable" in words
                own[name] = own.get(name, False) or (is_definition and "-" not in name)
            for f in FIELD.findall(line):
                own.setdefault(f[0] or f[1], False)
            # the cases of a data type
            m = re.match(r"^\s*\|?\s*([a-z][A-Za-z0-9']*[A-Z][A-Za-z0-9']*) :", line)
            if m:
                own.setdefault(m[1], False)
            for m in re.finditer(r"[(λ{ ]([a-z][\w']*[A-Z][\w']*)(?: [\w']+)* : ", line):
                own.setdefault(m[1], False)
    return own, types


def table(root):
    own, types = declarations(root)
    out = dict((k, v) for k, v in BY_HAND.items() if k in own)
    definitions = LIBRARY | {n for n, d in own.items() if d} | {snake(n) for n, d in own.items() if d}
    for name in own:
        if name in out or name in types or not re.match(r"[a-z]", name):
            continue
        new, before = name, None
        while new != before:
            before = new
            parts = [snake(x) if re.match(r"[a-z]", x) and x not in types else x for x in new.split("-")]
            new = parts[0]
            for part in parts[1:]:
                joint = "-" if part in definitions or not re.match(r"[a-z0-9]+$", part.replace("_", "").rstrip("'")) or part in types else "_"
                new += joint + part
        if new != name:
            out[name] = new
    return out


def collisions(root, out):
    """Two words of one file that would become one."""
    for p in texts(root):
        came = {}
        for line in open(p, encoding="utf-8"):
            for m in WORD.finditer(line.split("--")[0]):
                came.setdefault(out.get(m[0], m[0]), set()).add(m[0])
        for new, olds in came.items():
            if len(olds) > 1 and any(o in out for o in olds):
                yield p, new, sorted(olds)


def main(argv):
    root = "."
    if "--constants" in argv:
        for path, words in CONSTANTS.items():
            path = f"{root}/crates/{path}"
            t = open(path, encoding="utf-8").read()
            open(path, "w", encoding="utf-8").write(WORD.sub(lambda m: words.get(m[0], m[0]), t))
        return 0
    if "--labels" in argv:
        for path in [*texts(root), *glob.glob("crates/*/src/**/*.rt", recursive=True), *glob.glob("crates/*/must-fail/*.edit")]:
            t = open(path, encoding="utf-8").read()
            n = WORD.sub(lambda m: LABELS.get(m[0], m[0]), t)
            if n != t:
                open(path, "w", encoding="utf-8").write(n)
        return 0
    out = table(root)
    if "--check" in argv:
        for old in sorted(out):
            print(old, out[old])
        for p, new, olds in collisions(root, out):
            print("fall together:", p, new, olds)
        return 0
    STRING = re.compile(r'("(?:[^"\\]|\\.)*")')

    def turn(t, may=lambda w: True):
        """The words of the text, but for those of strings."""
        parts = STRING.split(t)
        parts[::2] = [WORD.sub(lambda m: out[m[0]] if m[0] in out and may(m[0]) else m[0], x) for x in parts[::2]]
        return "".join(parts)

    camel = lambda w: bool(re.search("[a-z][A-Z]", w)) and "-" not in w

    def lines(t, may=lambda w: True):
        """The code turns; of a comment what stands in quotes of code, and words that are no English."""
        done = []
        for line in t.split("\n"):
            code, dashes, comment = line.partition("-- ") if line.lstrip().startswith("-- ") or "  -- " in line else (line, "", "")
            comment = re.sub("`[^`]*`", lambda m: turn(m[0]), comment)
            done.append(turn(code, may) + dashes + turn(comment, lambda w: camel(w) and w != "NaN"))
        return "\n".join(done)

    for p in texts(root):
        t = open(p, encoding="utf-8").read()
        n = lines(t, lambda w: w not in LEMMAS_ALONE) if p.endswith("/Proof.antt") else lines(t)
        if n != t:
            open(p, "w", encoding="utf-8").write(n)
    for p in sorted(glob.glob("crates/*/src/**/*.rt", recursive=True)):
        lines = open(p, encoding="utf-8").read().split("\n")
        inside = [turn(l, (lambda w: True) if l.lstrip().startswith("ghost use") else lambda w: camel(w) and w != "NaN") for l in lines]
        if inside != lines:
            open(p, "w", encoding="utf-8").write("\n".join(inside))
    for p in sorted(glob.glob("crates/*/must-fail/**/*.edit", recursive=True)):
        t = open(p, encoding="utf-8").read()
        n = turn(t) if "file: src/" not in t else turn(t, camel)
        if n != t:
            open(p, "w", encoding="utf-8").write(n)
    return 0


if __name__ == "__main__":
    sys.exit(main(sys.argv[1:]))
