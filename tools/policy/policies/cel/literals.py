"""Literals: their tokens to values, and values to text."""
import math
from typing import Optional, Tuple

from .mistake import TextMistake

SIMPLE_ESCAPES = {
    "a": 7,
    "b": 8,
    "f": 12,
    "n": 10,
    "r": 13,
    "t": 9,
    "v": 11,
    '"': 34,
    "'": 39,
    "\\": 92,
    "?": 63,
    "`": 96,
}
HEX_ESCAPES = {"x": 2, "X": 2, "u": 4, "U": 8}
HEX_DIGITS = frozenset("0123456789abcdefABCDEF")
OCTAL_DIGITS = frozenset("01234567")


def int_value(text: str, place: int, negative: bool) -> int:
    """The value of an int literal, decimal or with `0x`, and of a `-` before it."""
    value = int(text[2:], 16) if text.startswith("0x") else int(text)
    value = -value if negative else value
    if not -(2**63) <= value < 2**63:
        raise TextMistake(place, "an int is a number from -2^63 to 2^63 - 1")
    return value


def uint_value(text: str, place: int) -> int:
    """The value of a uint literal, `u` included."""
    digits = text[:-1]
    value = int(digits[2:], 16) if digits.startswith("0x") else int(digits)
    if value >= 2**64:
        raise TextMistake(place, "a uint is a number from 0 to 2^64 - 1")
    return value


def double_value(text: str, place: int, negative: bool) -> float:
    """The value of a double literal, and of a `-` before it."""
    value = float(text)
    if math.isinf(value):
        raise TextMistake(place, "this number is too great for a double")
    return -value if negative else value


def string_value(token: str, place: int) -> str:
    """The value of a string literal with its quotes."""
    body, start, raw = _unquote(token)
    if raw or "\\" not in body:
        return body
    points = _unescape(body, place + start, in_bytes=False)
    return "".join(map(chr, points))


def bytes_value(token: str, place: int) -> bytes:
    """The value of a bytes literal with its `b` and its quotes: characters mean their UTF-8."""
    body, start, raw = _unquote(token[1:])
    if raw or "\\" not in body:
        return body.encode()
    return _unescape(body, place + 1 + start, in_bytes=True)


def _unquote(token: str) -> Tuple[str, int, bool]:
    """The text between the quotes with its line ends as line feeds, where it starts, and whether it is raw."""
    raw = token[0] in "rR"
    start = 1 if raw else 0
    quotes = 3 if len(token) >= start + 6 and token[start : start + 3] in ('"""', "'''") else 1
    body = token[start + quotes : len(token) - quotes]
    return body.replace("\r\n", "\n").replace("\r", "\n"), start + quotes, raw


def _unescape(body: str, place: int, in_bytes: bool):
    """The code points of a text, or its bytes, with the escapes taken."""
    out = bytearray() if in_bytes else []
    at = 0
    while at < len(body):
        if body[at] != "\\":
            out.extend(body[at].encode() if in_bytes else [ord(body[at])])
            at += 1
            continue
        value, length = _escape(body, at, place, in_bytes)
        out.append(value)
        at += length
    return bytes(out) if in_bytes else out


def _escape(body: str, at: int, place: int, in_bytes: bool) -> Tuple[int, int]:
    """The value of the escape at a place and how many characters it has."""
    letter = body[at + 1]
    if letter in SIMPLE_ESCAPES:
        return SIMPLE_ESCAPES[letter], 2
    if letter in "uU" and in_bytes:
        raise TextMistake(place + at, f"bytes have no escape `\\{letter}`: write each byte as `\\x` and two digits")
    if letter in HEX_ESCAPES:
        count = HEX_ESCAPES[letter]
        digits = body[at + 2 : at + 2 + count]
        if len(digits) < count or not HEX_DIGITS.issuperset(digits):
            raise TextMistake(place + at, f"`\\{letter}` takes {count} hexadecimal digits")
        return _code_point(int(digits, 16), place + at), 2 + count
    if letter in "0123":
        digits = body[at + 1 : at + 4]
        if len(digits) < 3 or not OCTAL_DIGITS.issuperset(digits):
            raise TextMistake(place + at, "an octal escape takes three digits, `\\000` to `\\377`")
        return int(digits, 8), 4
    raise TextMistake(place + at, f"there is no escape `\\{letter}`")


def _code_point(value: int, place: int) -> int:
    if value > 0x10FFFF or 0xD800 <= value <= 0xDFFF:
        raise TextMistake(place, "this is no code point of Unicode")
    return value


def literal_text(kind: str, value: object) -> Optional[str]:
    """The literal of a value, or None where it has none (a double that is no finite number)."""
    if kind == "null":
        return "null"
    if kind == "bool":
        return "true" if value else "false"
    if kind == "int64":
        return str(value)
    if kind == "uint64":
        return f"{value}u"
    if kind == "double":
        return repr(value) if math.isfinite(value) else None
    if kind == "string":
        return '"' + "".join(map(_string_character, value)) + '"'
    return 'b"' + "".join(map(_byte_character, value)) + '"'


def _string_character(character: str) -> str:
    named = {'"': '\\"', "\\": "\\\\", "\n": "\\n", "\r": "\\r", "\t": "\\t"}
    if character in named:
        return named[character]
    if character.isprintable() and character != "\ufeff":
        return character
    point = ord(character)
    return f"\\u{point:04x}" if point < 0x10000 else f"\\U{point:08x}"


def _byte_character(byte: int) -> str:
    if byte in b'"\\':
        return "\\" + chr(byte)
    return chr(byte) if 32 <= byte < 127 else f"\\x{byte:02x}"
