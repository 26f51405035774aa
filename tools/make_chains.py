#!/usr/bin/env python3
"""make_chains: the chained bend files that crates/replay_chains replays, and what it must write for them.

  make_chains.py DIR      writes DIR/data/NNN.chain and DIR/stdout

Each file is put together here from its steps, and its answer, newest step first or the number of its refusal, is
written beside it by hand: no reader takes part.
"""
import os, struct, sys

ONE, NAN = 0x3FF0000000000000, 0x7FF8000000000000
EXAMPLE = [0x4000000000000000, 0xC010000000000000, 0, 0x7FF0000000000000, ONE, 0, ONE, 0]
MARK = b"BEND"


def u32(x):
    return struct.pack("<I", x)


def numbers(values):
    return b"".join(struct.pack("<Q", v) for v in values)


def trailer(start, rows, coords, count, mark=MARK):
    return struct.pack("<IHHI", start, rows, coords, count) + mark


def step(link, values, start, rows, coords, count, mark=MARK):
    return u32(link) + numbers(values) + trailer(start, rows, coords, count, mark)


def ex(link, start):
    """Document 01's example as a step."""
    return step(link, EXAMPLE, start, 1, 1, 8)


def bare(link, start, more=0, mark=MARK, count=1, rows=0):
    """A step of no rows, 28 bytes; the bits of its tolerance are those of 1 and so many more."""
    return step(link, [ONE + more], start, rows, 0, count, mark)


def rising(count, zeros=0, first=0, more=1):
    file = bytes(zeros)
    for i in range(count):
        file += bare(len(file) if i else first, 4, more * i)
    return file


def largest():
    file = b""
    for _ in range(40):
        file += step(len(file), range(3233), 4, 32, 64, 3233)
    return file


TORN = b"BENX"

# A step of an answer: rows, coordinates, the bits of its values.
E = (1, 1, EXAMPLE)


def one(more=0):
    return (0, 0, [ONE + more])


# A file, and its answer: a number, or (end, step) for each step.
CASES = [
    (ex(0, 4), [(84, E)]),
    (b"\xff" * 7 + ex(0, 11), [(91, E)]),
    (ex(0, 4) + bare(84, 4), [(112, one()), (84, E)]),
    (ex(0, 4) + b"\xaa" * 5 + bare(84, 9), [(117, one()), (84, E)]),
    (ex(0, 4) + trailer(0, 0, 0, 1) + bare(84, 20), [(128, one()), (84, E)]),
    (rising(3), [(84, one(2)), (56, one(1)), (28, one())]),
    (numbers(EXAMPLE) + trailer(0, 1, 1, 8), 14),
    (bytes(3) + numbers([ONE]) + trailer(3, 0, 0, 1), 14),
    (trailer(0, 0, 0, 1), 14),
    (bytes(8) + trailer(9, 0, 0, 1), 14),
    (trailer(0, 0, 0, 2), 4),
    (ex(0, 4) + bare(85, 3), 14),
    (ex(0, 4) + bare(85, 99), 14),
    (ex(0, 4) + bare(0xFFFFFFFF, 4), 14),
    (ex(0, 4) + bare(88, 0), 14),
    (ex(0, 4) + bare(84, 88), 4),
    (ex(0, 4) + bare(84, 0), 4),
    (ex(0, 4) + bare(84, 0xFFFFFFFC), 4),
    (bytes(15) + bare(15, 4), 1),
    (bytes(1) + bare(1, 4), 1),
    (bytes(15) + bare(15, 5), 4),
    (bytes(16) + bare(16, 4), 2),
    (trailer(0, 0, 0, 1) + bare(16, 4), 14),
    (bytes(3) + numbers([ONE]) + trailer(3, 0, 0, 1) + bare(27, 4), 14),
    (bare(0, 4, mark=TORN) + bare(28, 4), 2),
    (bare(0, 4, rows=33) + bare(28, 4), 3),
    (bare(0, 4, mark=TORN) + bare(28, 4, count=2), 4),
    (bare(0, 4, count=2) + bare(28, 4, mark=TORN), 2),
    (rising(40), [(28 * k, one(k - 1)) for k in range(40, 0, -1)]),
    (rising(41), 15),
    (bare(0, 4, mark=TORN) + rising(41, more=0)[28:], 15),
    (rising(40, zeros=5, first=5, more=0), 15),
    (rising(39, zeros=5, first=5, more=0), 1),
    (rising(40) + bare(1120, 4, mark=TORN), 2),
    (ex(0, 4) + bare(0x54000000, 4), 14),
    (b"", 1),
    (bytes(11) + MARK, 1),
    (step(0, [ONE], 4, 0, 65535, 1), [(28, (0, 65535, [ONE]))]),
    (step(0, [0xFFF0000000000001], 4, 0, 0, 1), [(28, (0, 0, [NAN]))]),
    (b"\x11" * 1048548 + bare(0, 1048552), [(1048576, one())]),
    (b"\x11" * 1048549 + bare(0, 1048553), 1),
    (b"\x11" * 65509 + bare(0, 65513), [(65537, one())]),
    (largest(), [(25884 * k, (32, 64, range(3233))) for k in range(40, 0, -1)]),
]


def more(total, bits):
    return (total % 2**32) * 65599 + bits % 2**32 + bits // 2**32


def total(rows, coords, values):
    """The check sum of the buffers: 1,024 values, five times 32, 2,048, each filled up with 0, and the tolerance."""
    values, at, sum_ = list(values), 0, 0
    for size, count in [(1024, rows * rows)] + [(32, rows)] * 5 + [(2048, coords * rows)]:
        for bits in values[at:at + count] + [0] * (size - count):
            sum_ = more(sum_, bits)
        at += count
    return more(sum_, values[at])


def lines(number, answer):
    if isinstance(answer, int):
        return "%d refused %d\n" % (number, answer)
    text = "%d steps %d\n" % (number, len(answer))
    for end, (rows, coords, values) in answer:
        text += "  end %d rows %d coords %d sum %d\n" % (end, rows, coords, total(rows, coords, values))
    return text + ("  no step 0\n" if len(answer) < 40 else "")


def main():
    if len(sys.argv) != 2:
        sys.exit(__doc__)
    data = os.path.join(sys.argv[1], "data")
    os.makedirs(data, exist_ok=True)
    text = ""
    for number, (file, answer) in enumerate(CASES, 1):
        with open(os.path.join(data, "%03d.chain" % number), "wb") as f:
            f.write(file)
        text += lines(number, answer)
    with open(os.path.join(sys.argv[1], "stdout"), "w", encoding="ascii") as f:
        f.write(text)


if __name__ == "__main__":
    main()
