#!/usr/bin/env python3
"""Counts, for docs/DESIGN-PASS.md, the places in crates/*/src that are written in an older form of the language, or may be.

    python3 tools/design_counts.py [--list] [POINT..]

A line for each point: its number, how many places, and what is counted. --list names each place. What it prints are candidates: the page
says of each kind which are changed, and which stay and why. A place is a function, but for points 1, 6 and 8.
"""
import pathlib
import re
import sys

CRATES = pathlib.Path(__file__).resolve().parent.parent / "crates"
FUNCTION = re.compile(r"^( *)(?:pub(?:\(crate\))? )?((?:#\[.*\] *)?(?:extern \"C\" )?)fn (\w+)(<[^>]*>)?\(", re.M)
LISTS = ("w", "u_free", "lo", "hi", "scale"), ("a", "m", "n"), ("u_free", "lo", "hi", "scale", "nu"), ("rows", "coords", "counts")


def functions(text):
    """(name, whether exported to C, header, body) of each function of a file."""
    found = list(FUNCTION.finditer(text))
    for i, m in enumerate(found):
        end = text.find("\n" + m.group(1) + "}", m.end())
        if end < 0:
            continue
        whole = text[m.start():end]
        body = re.search(r"\n" + m.group(1) + r"\{\n|\) (?:-> [^\n{]+ )?\{\n", whole)
        if body:
            yield m.group(3), "extern" in m.group(2), whole[:body.start() + 2], whole[body.end():]


def parameters(header):
    return [n for n in re.findall(r"[(,\n] *(?:mut )?(\w+): ", header.split("ensures")[0].split("requires")[0])]


def shape(body):
    """The body with its names and numbers left out, so that twins are alike."""
    body = re.sub(r"//[^\n]*", "", body)
    words = re.findall(r"\w+|[^\s\w]", body)
    keep = {"if", "while", "for", "in", "return", "let", "mut", "match", "as", "else", "break"}
    return " ".join(w if w in keep or not re.match(r"\w", w) else "x" for w in words)


def count():
    places = {k: [] for k in range(1, 9)}
    shapes, requires = {}, {}
    for file in sorted(CRATES.glob("*/src/**/*.rt")):
        text = file.read_text()
        where = f"{file.relative_to(CRATES)}".replace("/src/", "/")
        for m in re.finditer(r"^ *(?:pub )?(?:enum (\w+)|const ([A-Z_]+): u8 )", text, re.M):
            places[1].append(f"{where}: {m.group(1) or m.group(2)}")
        for m in re.finditer(r"^ *(?:pub )?(\w+): (?:&mut )?\[[\w]+; [^]]+\]|let mut (\w+) = \[[^;\]]+; [^]]+\]", text, re.M):
            places[6].append(f"{where}: {m.group(1) or m.group(2)}")
        for name, exported, header, body in functions(text):
            at = f"{where}: {name}"
            if not exported and re.search(r"\) -> (u32|u8)\b", header) or re.search(r"\bnumber: u32", header):
                places[1].append(at)
            if body.count("\n") >= 1:
                shapes.setdefault(shape(body), []).append(at)
            if re.search(r"^ *while ", body, re.M):
                places[3].append(at)
            if re.match(r"(same|copy|print|flag|wide|either|fewer|max|abs|is_nan|is_finite|float|first)", name) and not exported:
                places[4].append(at)
            names = parameters(header)
            if any(all(w in names for w in group) for group in LISTS):
                places[5].append(at)
            for clause in re.findall(r"requires (?:\w+ )?\{ ([\w.]+)", header):
                requires.setdefault((where.split("/")[0], clause), []).append(at)
            if re.search(r"\bfn\(|dyn |Box<", header + body):
                places[7].append(at)
    for alike in shapes.values():
        if len(alike) > 1:
            places[2] += alike
    for (_, clause), at in requires.items():
        if len(at) >= 3:
            places[5] += [f"{a} ({clause})" for a in at]
    for file in sorted(CRATES.glob("*/proofs/**/Answers.antt")):
        for m in re.finditer(r"^(\S+) c = (?:search rules|omega arith|refl|\(search rules(?:, search rules)*\))$", file.read_text(), re.M):
            places[8].append(f"{file.relative_to(CRATES)}: {m.group(1)}")
    return places


WHAT = {
    1: "enums, byte constants, and functions not exported that answer or take a number of 8 or 32 bits",
    2: "functions whose body is that of another, but for names and numbers",
    3: "functions with a `while` loop",
    4: "functions that compare, copy, convert or print, by their name",
    5: "functions whose parameters are a group that travels together, and those of a crate that cite one word in three contracts or more",
    6: "fixed arrays in structs, parameters and locals",
    7: "function pointers, dyn and boxes",
    8: "answers that are one call of search or omega with no lemma",
}


def main(words):
    places = count()
    chosen = [int(w) for w in words if w.isdigit()] or list(places)
    for k in chosen:
        print(f"{k} {len(places[k]):4} {WHAT[k]}")
        if "--list" in words:
            for p in places[k]:
                print(f"       {p}")


if __name__ == "__main__":
    main(sys.argv[1:])
