#!/usr/bin/env python3
"""The most stack that each exported call of the static library can take, read off its machine code.

    python3 tools/stack_use.py [ARCHIVE]

For each function the code is followed along every jump with the depth of the stack, as push, pop, add and sub change it; a call adds what the
callee takes. A jump through a table is followed to each of its entries. So the number holds for every input. What cannot be followed (another
computed jump, a stack pointer set otherwise, a callee that is not in the same object) is an error and not a guess. Each object of the archive is
read by itself, since two may have a function of the same name. Needs objdump (binutils).
"""

import os
import re
import subprocess
import sys

ROOT = os.path.dirname(os.path.dirname(os.path.abspath(__file__)))
ARCHIVE = os.path.join(ROOT, "target", "staticlib", "libpiskorlu.a")

# Functions that call themselves, and how many calls stand open at most: one for each digit of a 64-bit number in decimal, and in hexadecimal with a last one for none.
DEPTHS = {"printer::page::Page::decimal": 20, "printer::page::Page::hex": 17}

# The C library's functions that the archive calls: they take no stack to speak of. 256 bytes are allowed for each, many times what glibc's and musl's take.
LIBRARY = {"memcpy": 256, "memset": 256, "memmove": 256, "memcmp": 256, "bcmp": 256}

_FUNCTION = re.compile(r"^[0-9a-f]+ <(.+)>:$")
_LINE = re.compile(r"^\s*([0-9a-f]+):\s+(.*?)\s*$")
_RELOCATION = re.compile(r"^\s*([0-9a-f]+): (R_\S+)\s+(\S+?)([-+]0x[0-9a-f]+)?$")
_SECTION = re.compile(r"^RELOCATION RECORDS FOR \[(.+)\]:$")
_ENTRY = re.compile(r"^([0-9a-f]+) R_X86_64_PC32\s+(\S+?)\+(0x[0-9a-f]+)$")
_RESIZE = re.compile(r"^(add|sub)q?\s+\$(-?0x[0-9a-f]+),%rsp$")
_TARGET = re.compile(r"^j\w+\s+([0-9a-f]+)\s")
_OBJECT = re.compile(r"^\S+: +file format .*$", re.MULTILINE)


def objects(archive, *options):
    """What objdump says of each object of the archive."""
    text = subprocess.run(["objdump", *options, archive], check=True, capture_output=True, text=True).stdout
    return _OBJECT.split(text)[1:]


def functions(text):
    """Each function's instructions by address, what they are linked to, and where the tables begin whose address they take, both by address of the instruction."""
    found, name, last = {}, None, None
    for line in text.splitlines():
        if match := _FUNCTION.match(line):
            name = match.group(1)
            found[name] = ({}, {}, {})
        elif match := _RELOCATION.match(line):
            found[name][1][last] = match.group(3).removeprefix(".text.")
            if match.group(3) == f".rodata.{name}":
                # the address is counted from the end of the instruction, four bytes on
                found[name][2][last] = int(match.group(4) or "0", 16) + 4
        elif name and (match := _LINE.match(line)):
            last = int(match.group(1), 16)
            found[name][0][last] = match.group(2)
    return found


def tables(text):
    """For each function that jumps through tables its entries: at an offset of its read-only data, an offset of its code."""
    found, name = {}, None
    for line in text.splitlines():
        if match := _SECTION.match(line):
            name = match.group(1).removeprefix(".rodata.") if match.group(1).startswith(".rodata.") else None
        elif name and (match := _ENTRY.match(line)):
            if match.group(2) != f".text.{name}":
                raise SystemExit(f"stack_use: {name}: a table leads to {match.group(2)}")
            found.setdefault(name, {})[int(match.group(1), 16)] = int(match.group(3), 16)
    return found


def sets(text, register):
    """Whether an instruction's last operand is a register, or its lower half."""
    half = register + "d" if register[1].isdigit() else "e" + register[1:]
    return re.search(rf"(,|\s)%({register}|{half})$", text) is not None


def targets(name, at, code, begins, entries):
    """Where a jump goes by a table: its address in one register, the entry, and then the sum of both, in that of the jump."""
    jump = re.fullmatch(r"jmp\s+\*%(\w+)", code[at])
    before = [place for place in sorted(code) if place < at][-10:]
    for i in reversed(range(len(before))):
        read = jump and re.fullmatch(rf"movslq \(%(\w+),%\w+,4\),%{jump.group(1)}", code[before[i]])
        if not read:
            continue
        table, entry = read.group(1), jump.group(1)
        rest, added = [code[place] for place in before[i + 1 :]], f"add    %{table},%{entry}"
        if rest.count(added) != 1:
            break
        changed = [text for text in rest[: rest.index(added)] if sets(text, table) or sets(text, entry)]
        changed += [text for text in rest[rest.index(added) + 1 :] if sets(text, entry)]
        takes = [place for place in before[:i] if place in begins and re.search(rf",%{table}(\s|$)", code[place])]
        if changed or not takes:
            break
        begin = begins[takes[-1]]
        end = min([other for other in begins.values() if other > begin] + [max(entries) + 4])
        return [entries[offset] - (offset - begin) for offset in range(begin, end, 4)]
    raise SystemExit(f"stack_use: {name}: cannot follow '{code[at]}'")


def without_probes(code):
    """The code with each loop that touches a large frame part by part replaced by the one step that it comes to."""
    places = sorted(code)
    for i in range(len(places) - 5):
        part = [" ".join(code[at].split()) for at in places[i : i + 6]]
        size = re.fullmatch(r"sub \$(0x[0-9a-f]+),%r11", part[1])
        one = re.fullmatch(r"sub \$(0x[0-9a-f]+),%rsp", part[2])
        loop = [part[0], part[3], part[4]] == ["mov %rsp,%r11", "movq $0x0,(%rsp)", "cmp %r11,%rsp"]
        # it ends where so many parts are the whole
        whole = size and one and int(size.group(1), 16) % int(one.group(1), 16) == 0
        if whole and loop and part[5].startswith(f"jne {places[i + 2]:x} "):
            code[places[i + 2]] = f"sub ${size.group(1)},%rsp"
            code[places[i + 5]] = "nop"
    return code


def change(name, text):
    """By how much an instruction deepens the stack."""
    operation = text.split()[0]
    if operation in ("push", "pushq"):
        return 8
    if operation in ("pop", "popq"):
        return -8
    if match := _RESIZE.match(text):
        return int(match.group(2), 16) * (1 if match.group(1) == "sub" else -1)
    if re.search(r",%rsp$", text) and not operation.startswith(("cmp", "test")):
        raise SystemExit(f"stack_use: {name}: cannot follow '{text}'")
    return 0


def walk(name, code, linked, begins, entries, use):
    """The deepest that a function goes, its return address not counted."""
    code = without_probes(code)
    after = dict(zip(sorted(code), sorted(code)[1:]))
    depths, todo, deepest = {}, [(min(code), 0)], 0
    while todo:
        at, depth = todo.pop()
        if at in depths:
            if depths[at] != depth:
                raise SystemExit(f"stack_use: {name}: two depths at {at:x}")
            continue
        depths[at] = depth
        text = code[at]
        operation = text.split()[0]
        depth += change(name, text)
        deepest = max(deepest, depth)
        if operation in ("ret", "retq", "ud2", "hlt"):
            continue
        if operation.startswith("call"):
            callee = linked.get(at) or re.search(r"<(.+?)>$", text).group(1)
            deepest = max(deepest, depth + 8 + use(callee))
        elif operation.startswith("j"):
            callee = linked.get(at)
            match = _TARGET.match(text)
            if callee:
                deepest = max(deepest, depth + use(callee))
            elif match:
                todo.append((int(match.group(1), 16), depth))
            else:
                todo += [(target, depth) for target in targets(name, at, code, begins, entries)]
            if operation.startswith("jmp"):
                continue
        todo.append((after[at], depth))
    return deepest


def object_use(found, through):
    """Bytes for each exported call of one object, its return address counted."""
    known, open_calls = dict(LIBRARY), []

    def use(name):
        if name in known:
            return known[name]
        if name not in found:
            raise SystemExit(f"stack_use: {name} is called and is not in its object")
        if name in open_calls:
            if name != open_calls[-1] or name not in DEPTHS:
                raise SystemExit(f"stack_use: {name} calls itself, and how often is not known")
            return 0
        open_calls.append(name)
        known[name] = (walk(name, *found[name], through.get(name, {}), use) + 8) * DEPTHS.get(name, 1) - 8
        open_calls.pop()
        return known[name]

    return {name: use(name) + 8 for name in found if name.startswith("piskorlu_")}


def stack_use(archive):
    """Bytes for each exported call of the archive."""
    most = {}
    for code, relocations in zip(objects(archive, "-dr", "--no-show-raw-insn"), objects(archive, "-r")):
        most |= object_use(functions(code), tables(relocations))
    return dict(sorted(most.items()))


if __name__ == "__main__":
    for call, most in stack_use(sys.argv[1] if len(sys.argv) > 1 else ARCHIVE).items():
        print(f"{call} {most}")
