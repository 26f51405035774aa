#!/usr/bin/env python3
"""Tries the must-fail edits: wrong programs and wrong definitions, in crates/NAME/must-fail/LABEL.edit, that the prover must refuse.

    python3 tools/must_fail.py [NAME..]

`rt must-fail` tries them, each alone: the edit is made in a copy of the crate, and of its proofs only what the edit reaches is done again,
over what a check of the crate as it stands proved. What it tried once, or `rt ci` did, is kept, and is tried again only where something
changed that it stands on. Here an edit that cannot be applied is told before anything is tried, and each verdict names the function whose
body the edit changes.

A refusal counts only if a fact failed. Where rt says that an edit is refused only because a proof file names what it took away, or only by a
limit of the prover, the edit shows nothing and fails here, as do those that are not refused, that are bad, that were not tried, and that rt
says nothing of. The last line is 'N passed, M failed'.
"""
import collections
import glob
import os
import re
import subprocess
import sys

ROOT = os.path.dirname(os.path.dirname(os.path.abspath(__file__)))

# What rt says of an edit, after its name, where the prover refuses it; and where that is for a name alone, or because it gave up, and for no
# fact.
REFUSED = "refused, as it must be"
SHOWS_NOTHING = re.compile(re.escape(REFUSED) + r" \(only (because a proof file names what the edit took away|by a limit of the prover)")

# rt's line on an edit, and its line on a file that is no edit, or lies where none is read.
VERDICT = re.compile(r"rt: must-fail (\w+)/([\w.-]+)\.edit: (.*)")
MISPLACED = re.compile(r"rt: (.*must-fail/.*): (BAD EDIT: .*)")

# The line that begins a function in the layout of `rt fmt`.
FUNCTION = re.compile(r'( *)(?:pub )?(?:extern "C" )?fn (\w+)')

# A function as the prover names it, boxed::run::turn, and the file below the crate that a whole proof by hand would be in.
Function = collections.namedtuple("Function", "path proof")


class BadEdit(Exception):
    pass


def text_of(path):
    with open(path, encoding="utf-8") as f:
        return f.read()


def label_of(edit):
    return os.path.basename(edit).removesuffix(".edit")


def replacements(path):
    """(file, old text, new text) of each replacement of an edit, as `rt` reads them."""
    file, old, found = None, None, []
    for line in text_of(path).split("\n"):
        if line.startswith("file: "):
            file = line[len("file: "):]
        elif line.startswith("old: "):
            old = line[len("old: "):]
        elif line.startswith("new:"):
            if not file or not old:
                raise BadEdit("a 'new:' line without its 'file:' or 'old:' line")
            found.append((file, old, line[len("new:"):].removeprefix(" ")))
            old = None
    if not found:
        raise BadEdit("it has no 'old:' and 'new:' pair")
    return found


def edited(crate, edits):
    """The texts of the files that the edits change: path below the crate -> its text with all of them."""
    texts = {}
    for file, old, new in (replacement for edit in edits for replacement in replacements(edit)):
        if not re.match(r"(src|specs|proofs)/[\w/]+\.(rt|antt)$", file):
            raise BadEdit(f"{file} is no file of src/, specs/ or proofs/")
        if not os.path.exists(os.path.join(crate, file)):
            raise BadEdit(f"{file} is not there")
        if file not in texts:
            texts[file] = text_of(os.path.join(crate, file))
        if texts[file].count(old) != 1:
            raise BadEdit(f"its 'old:' text is in {file} {texts[file].count(old)} times")
        texts[file] = texts[file].replace(old, new)
    return texts


def bodies(text):
    """(its type or None, its name, the lines of its body, counted from 0) of each function of a source in the layout of `rt fmt`."""
    lines, found, owner, at = text.split("\n"), [], None, 0
    while at < len(lines):
        function = FUNCTION.match(lines[at])
        if function:
            margin = function.group(1)
            # the signature and the clauses are indented more, or end otherwise
            opened = next((i for i in range(at, len(lines)) if re.match(margin + r"(\S.*)?\{$", lines[i])), len(lines))
            closed = next((i for i in range(opened, len(lines)) if lines[i] == margin + "}"), len(lines))
            found.append((owner, function.group(2), range(opened + 1, closed)))
            at = closed
        elif lines[at].startswith("impl "):
            owner = lines[at].split()[1]
        elif lines[at] == "}":
            owner = None
        at += 1
    return found


def function_around(name, file, text, old):
    """The function of crate NAME in whose body the one place of the old text is; None where it is elsewhere, or not in one place."""
    if not re.match(r"src/[\w/]+\.rt$", file) or text.count(old) != 1:
        return None
    line = text[: text.index(old)].count("\n")
    module = file.removeprefix("src/").removesuffix(".rt").split("/")
    for owner, function, body in bodies(text):
        if line in body:
            # what belongs to a type is named after the type, whichever file it is in
            where = [owner] if owner else [] if module in (["lib"], ["main"]) else module
            return Function("::".join([name, *where, function]), "/".join(["proofs", *where, function, "Proof.antt"]))
    return None


def function_of(crate, edit):
    """The function whose body is all that the edit changes; None where there is no such function."""
    try:
        places = [(file, text_of(os.path.join(crate, file)), old) for file, old, _ in replacements(edit)]
    except (BadEdit, OSError):
        return None
    found = {function_around(os.path.basename(crate), *place) for place in places}
    return found.pop() if len(found) == 1 else None


def edits_of(name):
    return sorted(glob.glob(os.path.join(ROOT, "crates", name, "must-fail", "*.edit")))


def wrong_of(verdict):
    """None where rt says that the prover refuses the edit because a fact failed, else what is wrong."""
    if verdict is None:
        return "NOT TRIED: rt said nothing of it"
    if SHOWS_NOTHING.match(verdict):
        return "SHOWS NOTHING: " + verdict[len(REFUSED) + 1 :]
    return None if verdict.startswith(REFUSED) else verdict


def unread(crate, edit):
    """Why the edit cannot be applied, or None."""
    try:
        edited(crate, [edit])
    except BadEdit as e:
        return f"BAD EDIT: {e}"
    return None


def line_of(name, edit, wrong, verdict):
    function = function_of(os.path.join(ROOT, "crates", name), edit)
    of = f" (the body of {function.path})" if function else ""
    return f"must-fail {name}/{label_of(edit)}{of}: {wrong or verdict}"


def judged(names, status, said):
    """(passed, failed, lines to print) of what rt said of the edits of these crates."""
    verdicts, lines, passed, failed = {}, [], 0, 0
    for line in said.splitlines():
        if found := VERDICT.match(line):
            verdicts[found.group(1), found.group(2)] = found.group(3)
        elif found := MISPLACED.match(line):
            lines.append(f"{os.path.relpath(found.group(1), ROOT)}: {found.group(2)}")
            failed += 1
    for name in names:
        for edit in edits_of(name):
            verdict = verdicts.get((name, label_of(edit)))
            wrong = unread(os.path.join(ROOT, "crates", name), edit) or wrong_of(verdict)
            lines.append(line_of(name, edit, wrong, verdict))
            passed, failed = passed + (not wrong), failed + bool(wrong)
    if status and not failed:
        lines.append(f"must_fail.py: rt must-fail ended with {status}: {said[-300:]}")
        failed = 1
    return passed, failed, lines


def rt_must_fail(names):
    """What rt must-fail says of these crates, as it says it, and its exit status."""
    said = []
    with subprocess.Popen(["rt", "must-fail", *names], cwd=ROOT, stdout=subprocess.PIPE, stderr=subprocess.STDOUT, text=True, errors="replace") as child:
        for line in child.stdout:
            said.append(line)
            if not VERDICT.match(line):
                print(line, end="", flush=True)
    return child.returncode, "".join(said)


def main():
    there = sorted({path.split(os.sep)[-3] for path in glob.glob(os.path.join(ROOT, "crates", "*", "must-fail", "*"))})
    names = sys.argv[1:] or there
    for name in names:
        if name not in there:
            sys.exit(f"must_fail.py: crates/{name}/must-fail/ has no edit")
    bad = [(name, edit, wrong) for name in names for edit in edits_of(name) if (wrong := unread(os.path.join(ROOT, "crates", name), edit))]
    for name, edit, wrong in bad:
        print(line_of(name, edit, wrong, None), flush=True)
    status, said = rt_must_fail(names)
    passed, failed, lines = judged(names, status, said)
    print("\n".join(lines))
    print(f"{passed} passed, {failed} failed")
    return 1 if failed else 0


if __name__ == "__main__":
    sys.exit(main())
