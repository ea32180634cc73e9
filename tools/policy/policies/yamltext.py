"""Lines of YAML with comments.

A value is a text for one line, a `Block` of text, or a list: of `Pair`s for a mapping, of `Part`s for a list of values.
"""
from typing import List, NamedTuple, Union


class Block(NamedTuple):
    """A text on lines of its own, and what is before them: `|-` leaves out the last line end, `|` keeps it."""

    lines: List[str]
    head: str = "|-"


class Pair(NamedTuple):
    """One key of a mapping with its value, and the comments before it."""

    key: str
    value: object
    comments: List[str] = []


class Part(NamedTuple):
    """One value of a list, and the comments before it."""

    value: object
    comments: List[str] = []


def lines_of(value: Union[str, list]) -> List[str]:
    """The lines of a value at the top of a file."""
    if isinstance(value, str):
        return [value]
    if not value:
        return ["{}"]
    return [line for item in value for line in (_pair(item) if isinstance(item, Pair) else _part(item))]


def comment_lines(texts: List[str]) -> List[str]:
    """Comments as lines, with nothing in them that ends a line or is not shown."""
    return [("# " + "".join(map(_shown, text))).rstrip() for text in texts]


def _shown(character: str) -> str:
    return character if character.isprintable() else character.encode("unicode_escape").decode()


def _pair(pair: Pair) -> List[str]:
    head = comment_lines(pair.comments)
    value = pair.value
    if isinstance(value, Block):
        return head + [f"{pair.key}: {value.head}"] + [f"  {line}" if line else "" for line in value.lines]
    if isinstance(value, str):
        return head + [f"{pair.key}: {value}"]
    if not value:
        return head + [f"{pair.key}: {{}}"]
    inner = lines_of(value)
    indent = "  " if isinstance(value[0], Pair) else ""
    return head + [f"{pair.key}:"] + [indent + line for line in inner]


def _part(part: Part) -> List[str]:
    """A value of a list after its dash; comments at its start go before the dash."""
    inner = lines_of(part.value)
    first = next((index for index, line in enumerate(inner) if not line.startswith("#")), 0)
    rest = [f"{'- ' if index == 0 else '  '}{line}" for index, line in enumerate(inner[first:])]
    return comment_lines(part.comments) + inner[:first] + rest
