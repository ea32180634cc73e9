"""Where the characters of a scalar's value are in the file that spells it."""
import itertools
import re
from functools import lru_cache
from typing import Iterator, List, Optional, Tuple

import yaml

from .places import LINE_END, Source

PROPERTIES = re.compile(r"(?:[&!]\S*\s+)*")
SHORT_ESCAPES = {
    "0": "\0",
    "a": "\a",
    "b": "\b",
    "t": "\t",
    "n": "\n",
    "v": "\v",
    "f": "\f",
    "r": "\r",
    "e": "\x1b",
    "N": "\x85",
    "_": "\xa0",
    "L": "\u2028",
    "P": "\u2029",
}
LONG_ESCAPES = {"x": 2, "u": 4, "U": 8}


@lru_cache(maxsize=4)
def spread(source: Source, node: yaml.ScalarNode) -> List[int]:
    """For each character of a scalar's value the index of the source's character that it comes from, then the end's.

    White space, which YAML folds, is directly after what is before it.
    """
    return list(_indices(source, node))


@lru_cache(maxsize=4)
def index_of(source: Source, node: yaml.ScalarNode, place: int) -> int:
    """The index of the source's character for one character of a scalar's value."""
    return next(itertools.islice(_indices(source, node), place, None))


def _indices(source: Source, node: yaml.ScalarNode) -> Iterator[int]:
    start, end = (source.index_of((mark.line, mark.column)) for mark in (node.start_mark, node.end_mark))
    units = _units(source.text, PROPERTIES.match(source.text, start, end).end(), end, node.style)
    unit = next(units, None)
    after = start if unit is None else unit[1]
    for character in node.value:
        if character.isspace():
            yield after
            after += character == " "
            continue
        while unit is not None and unit[0] != character:
            unit = next(units, None)
        yield after if unit is None else unit[1]
        if unit is not None:
            after, unit = unit[2], next(units, None)
    yield after


def _units(text: str, start: int, end: int, style: Optional[str]) -> Iterator[Tuple[str, int, int]]:
    """The characters of a scalar that are no white space, each with the bounds of its spelling."""
    if style in ("|", ">"):
        start = next((match.end() for match in LINE_END.finditer(text, start, end)), end)
    elif style in ("'", '"'):
        start, end = start + 1, end - 1
    while start < end:
        character, length = text[start], 1
        if style == '"' and character == "\\":
            character, length = _escape(text, start)
        elif style == "'" and character == "'":
            length = 2
        if character and not character.isspace():
            yield character, start, start + length
        start += length


def _escape(text: str, start: int) -> Tuple[str, int]:
    """The character that an escape in double quotes means, and the length of the escape."""
    letter = text[start + 1]
    if letter in LONG_ESCAPES:
        length = LONG_ESCAPES[letter]
        return chr(int(text[start + 2 : start + 2 + length], 16)), 2 + length
    if LINE_END.match(letter):
        return "", 2
    return SHORT_ESCAPES.get(letter, letter), 2
