"""Numbers as their 64 bits.

Every number of a bend file is kept as a whole number, the bits of an f64, and becomes a float only to be shown or drawn. A float would do for
all numbers but NaN: a NaN has many bit patterns, and some machines change the pattern when they copy one.
"""

import re
import struct

NAN = 0x7FF8000000000000
PLUS_INFINITY = 0x7FF0000000000000
MINUS_INFINITY = 0xFFF0000000000000
ZERO = 0
SIGN = 1 << 63

EXPECTED = 'expected a number such as 12.5 or 1e-6, or "inf", "-inf" or "nan"'

_DECIMAL = re.compile(r"[+-]?([0-9]+\.?[0-9]*|\.[0-9]+)([eE][+-]?[0-9]+)?")
_HEXADECIMAL = re.compile(r"[+-]?0[xX]([0-9a-fA-F]+\.?[0-9a-fA-F]*|\.[0-9a-fA-F]+)([pP][+-]?[0-9]+)?")
_INFINITY = re.compile(r"([+-]?)inf(inity)?", re.IGNORECASE)
_NAN = re.compile(r"nan", re.IGNORECASE)
_BITS = re.compile(r"bits:([0-9a-fA-F]{16})")


def to_bits(value):
    """The bits of a float; every NaN becomes the one that bendsolve prints."""
    if value != value:
        return NAN
    return struct.unpack("<Q", struct.pack("<d", value))[0]


def to_float(bits):
    return struct.unpack("<d", struct.pack("<Q", bits))[0]


def is_nan(bits):
    return bits & ~SIGN > PLUS_INFINITY


def is_finite(bits):
    return bits & ~SIGN < PLUS_INFINITY


def parse(text):
    """The bits that a text means. A ValueError says what is wrong with it."""
    text = text.strip()
    infinity = _INFINITY.fullmatch(text)
    bits = _BITS.fullmatch(text)
    if infinity:
        return MINUS_INFINITY if infinity.group(1) == "-" else PLUS_INFINITY
    if _NAN.fullmatch(text):
        return NAN
    if bits:
        return int(bits.group(1), 16)
    if _DECIMAL.fullmatch(text):
        return _in_range(text, float(text), re.split("[eE]", text)[0])
    if _HEXADECIMAL.fullmatch(text):
        try:
            value = float.fromhex(text)
        except OverflowError:
            value = float("inf")
        return _in_range(text, value, re.split("[pP]", text.lower().replace("0x", "", 1))[0])
    raise ValueError(f"found {quoted(text)}; {EXPECTED}")


def _in_range(text, value, digits):
    """Refuses a text whose nearest f64 is an infinity or a zero that the text does not say: a typing error in an exponent."""
    if value in (float("inf"), float("-inf")):
        raise ValueError(f'{quoted(text)} is beyond the largest number, about 1.8e308; write "inf" where no limit is meant')
    if value == 0 and re.search("[1-9a-fA-F]", digits):
        raise ValueError(f"{quoted(text)} is nearer to zero than the smallest number, about 4.9e-324; write 0")
    return to_bits(value)


def exact(bits):
    """The text that `parse` turns back into the same bits."""
    if bits == NAN:
        return "nan"
    if is_nan(bits):
        return f"bits:{bits:016X}"
    text = repr(to_float(bits))
    # A whole number reads better without its ".0"; -0.0 keeps it, since other JSON readers take -0 for the whole number 0.
    return text[:-2] if text.endswith(".0") and bits != SIGN else text


def short(bits):
    """Six digits, for tables and pictures. A zero has no sign there."""
    return "NaN" if is_nan(bits) else f"{to_float(bits) + 0.0:.6g}"


def quoted(text):
    """A text from the input as a message shows it: one line, in quotes, not too long."""
    shown = text if len(text) <= 40 else text[:37] + "..."
    return '"' + "".join(c if c.isprintable() else "?" for c in shown) + '"'
