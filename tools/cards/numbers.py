"""Words, numbers and names, and how a description writes them."""

import math
import struct

WORD = 1 << 64
# Whole numbers from here on are written in hexadecimal, since many JSON readers would round them.
EXACT = 1 << 53


class Fault(Exception):
    """What is wrong with a description, a card or a sheet, in words."""


def number(word):
    """The number that a word's bits stand for."""
    return struct.unpack(">d", word.to_bytes(8, "big"))[0]


def word(value):
    """The bits of a number. Of a NaN they need not be those it was read from: see `written`."""
    return int.from_bytes(struct.pack(">d", value), "big")


def words(data):
    """The whole words of some bytes; a last word that is cut is left out."""
    return [int.from_bytes(data[i:i + 8], "big") for i in range(0, len(data) - 7, 8)]


def written(bits):
    """A number as a description has it: a JSON number, or its bits where it is no finite number."""
    value = number(bits)
    return value if math.isfinite(value) else f"0x{bits:016x}"


def written_whole(bits):
    return bits if bits < EXACT else f"0x{bits:016x}"


def _bits(text, where):
    digits = text[2:]
    if not 1 <= len(digits) <= 16 or not all(c in "0123456789abcdefABCDEF" for c in digits):
        raise Fault(f"{where}: {text!r} is not 0x and 1 to 16 hexadecimal digits")
    return int(digits, 16)


def number_word(value, where):
    """The word of a number in a description."""
    if isinstance(value, str) and value.startswith("0x"):
        return _bits(value, where)
    if isinstance(value, bool) or not isinstance(value, (int, float)):
        raise Fault(f'{where}: a number is wanted, or its bits as "0x...", and {value!r} stands there')
    try:
        value = float(value)
    except OverflowError:
        value = math.inf
    if not math.isfinite(value):
        raise Fault(f'{where}: the number is too large for 64 bits (infinity is written "0x7ff0000000000000")')
    return word(value)


def whole_word(value, where, most=WORD - 1):
    """A whole number in a description, from 0 to `most`."""
    if isinstance(value, str) and value.startswith("0x"):
        value = _bits(value, where)
    if isinstance(value, bool) or not isinstance(value, int):
        raise Fault(f"{where}: a whole number is wanted, and {value!r} stands there")
    if not 0 <= value <= most:
        raise Fault(f"{where}: {value} is not from 0 to {most}")
    return value


def name_text(bits):
    """The characters of a name word, the first in its highest byte and zeros after the last; None where it holds no such text."""
    text = bits.to_bytes(8, "big").rstrip(b"\0")
    if not text or not all(0x21 <= byte <= 0x7e for byte in text) or text.startswith(b"0x"):
        return None
    return text.decode("ascii")


def written_name(bits):
    return name_text(bits) or written_whole(bits)


def name_word(value, where):
    """The word of a gate's name: up to 8 characters, or a whole number."""
    if not isinstance(value, str) or value.startswith("0x"):
        return whole_word(value, where)
    text = value.encode("ascii", "replace")
    if not 1 <= len(value) <= 8 or not all(0x21 <= byte <= 0x7e for byte in text) or text.decode() != value:
        raise Fault(f"{where}: {value!r} is not 1 to 8 ASCII characters without spaces")
    return int.from_bytes(text.ljust(8, b"\0"), "big")
