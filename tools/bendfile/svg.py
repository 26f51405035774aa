"""The parts that pictures are drawn with."""

import unicodedata
from xml.sax.saxutils import escape, quoteattr

WIDTH = 800
FONT = "DejaVu Sans, Verdana, Helvetica, Arial, sans-serif"
INK, GREY, RED = "#222222", "#767676", "#B00020"

# The widths of the letters from the space to the tilde in DejaVu Sans Bold, in hundredths of the font's size.
_HUNDREDTHS = (
    "35 46 52 84 70 100 87 31 46 46 52 84 38 42 38 37 70 70 70 70 70 70 70 70 70 70 40 40 84 84 84 58 "
    "100 77 76 73 83 68 68 82 84 37 37 77 64 100 84 85 73 85 77 72 68 81 77 110 77 72 73 46 37 46 84 50 "
    "50 67 72 59 72 68 44 72 71 34 34 67 34 104 71 69 72 72 49 60 48 71 65 92 65 65 58 71 37 71 84"
)
WIDTHS = [int(text) for text in _HUNDREDTHS.split()]


def text(x, y, words, size=13, fill=INK, anchor="start", bold=False):
    weight = ' font-weight="bold"' if bold else ""
    return f'<text x="{place(x)}" y="{place(y)}" font-size="{size}" fill="{fill}" text-anchor="{anchor}"{weight}>{escape(words)}</text>'


def width(words, size=13):
    """How many pixels a text takes at most, in the first font of the list, bold: the widest of them for ordinary letters."""
    letters = unicodedata.normalize("NFD", words)
    return size * sum(_letter(c) for c in letters) / 100


def _letter(letter):
    if " " <= letter <= "~":
        return WIDTHS[ord(letter) - ord(" ")]
    return 0 if unicodedata.combining(letter) else 100 if letter == "…" else 125


def fitted(words, room, size=13):
    """A text cut to the pixels it has; the whole text is in the strip's title."""
    if width(words, size) <= room:
        return words
    while words and width(words + "…", size) > room:
        words = words[:-1]
    return words.rstrip() + "…"


def wrapped(words, room, size=13, most=None):
    """A text in lines of so many pixels, the last of `most` lines cut."""
    lines = [""]
    for word in words.split():
        while word:
            joined = f"{lines[-1]} {word}".strip()
            if width(joined, size) <= room:
                lines[-1], word = joined, ""
            elif lines[-1]:
                lines.append("")
            else:
                # One word longer than a line is broken where the line ends.
                many = next(k for k in range(len(word), 0, -1) if k == 1 or width(word[:k], size) <= room)
                lines[-1], word = word[:many], word[many:]
                lines += [""] if word else []
    if most and len(lines) > most:
        lines = lines[: most - 1] + [fitted(" ".join(lines[most - 1 :]), room, size)]
    return lines


def place(value):
    """A place in the picture, to a tenth of a pixel."""
    return f"{value:.1f}".rstrip("0").rstrip(".")


def line(x1, y1, x2, y2, colour, width=1):
    return f'<line x1="{place(x1)}" y1="{place(y1)}" x2="{place(x2)}" y2="{place(y2)}" stroke="{colour}" stroke-width="{width}"/>'


def path(points, stroke, fill="none", width=2):
    return f'<path d="{points}" fill="{fill}" stroke="{stroke}" stroke-width="{width}"/>'


def rect(x, y, width, height, fill):
    return f'<rect x="{place(x)}" y="{place(y)}" width="{place(width)}" height="{place(height)}" fill="{fill}"/>'


def document(title, summary, body, height):
    """The whole picture. Title and summary are for a reader who hears it."""
    head = (
        f'<svg xmlns="http://www.w3.org/2000/svg" width="{WIDTH}" height="{place(height)}" viewBox="0 0 {WIDTH} {place(height)}" '
        f'role="img" aria-labelledby="picture-title picture-summary" font-family={quoteattr(FONT)}>'
    )
    names = f'<title id="picture-title">{escape(title)}</title>\n<desc id="picture-summary">{escape(summary)}</desc>'
    return "\n".join([head, names, rect(0, 0, WIDTH, height, "#FFFFFF"), *body, "</svg>"]) + "\n"
