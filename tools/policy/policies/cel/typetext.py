"""Types of CEL as text: `bool`, `list(int)`, `map(string, list(uint))`, `dyn`.

A type is a tuple: its name, then its parts.
"""
import re
from typing import Optional

SIMPLE = frozenset(["bool", "int", "uint", "double", "string", "bytes", "dyn"])
PARTS = {"list": 1, "map": 2}
TOKEN = re.compile(r"[a-z]+|[(),]")
LONGEST = 1000


class _NoType(Exception):
    """The tokens spell no type."""


def type_text(kind: tuple) -> str:
    """The text of a type."""
    parts = ", ".join(map(type_text, kind[1:]))
    return f"{kind[0]}({parts})" if parts else kind[0]


def read_type(text: str) -> Optional[tuple]:
    """The type that a text of at most 1,000 tokens spells, or None."""
    tokens = TOKEN.findall(text)
    if "".join(tokens) != "".join(text.split()) or len(tokens) > LONGEST:
        return None
    tokens.reverse()
    try:
        kind = _take_type(tokens)
    except _NoType:
        return None
    return None if tokens else kind


def _take_type(tokens: list) -> tuple:
    """Takes a type off the end of the reversed tokens."""
    name = tokens.pop() if tokens else ""
    if name in SIMPLE:
        return (name,)
    parts = []
    for index in range(PARTS.get(name, 0)):
        _take(tokens, "," if index else "(")
        parts.append(_take_type(tokens))
    if not parts:
        raise _NoType()
    _take(tokens, ")")
    return (name, *parts)


def _take(tokens: list, sign: str) -> None:
    if not tokens or tokens.pop() != sign:
        raise _NoType()
