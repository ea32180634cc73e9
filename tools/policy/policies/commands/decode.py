"""`policy decode`: the YAML of a filter's bytes."""
import argparse
from typing import List

from .. import output
from ..decode import decode
from ..files import bounded, filter_bytes, name_of
from ..forms.binary import filters_in
from ..places import Mistake
from ..yamltext import comment_lines
from .common import DONE, add_output

NAME = "decode"


def add(commands) -> None:
    """Adds the command's words."""
    parser = commands.add_parser(NAME, help="filter bytes to YAML", description="Writes the YAML of a filter.")
    parser.add_argument("file", metavar="FILE", help="the filter's bytes; `-` is standard input")
    add_output(parser)
    parser.add_argument("--name", metavar="NAME", help="the filter to show of a response or an extension around it")


def run(words: argparse.Namespace) -> int:
    """Writes the YAML."""
    data = bounded(words.file, filter_bytes(words.file))
    if words.name is not None:
        data = _named(name_of(words.file), data, words.name)
    lines = [line + "\n" for line in comment_lines(_around(data))]
    output.write("".join([*lines, decode(data)]).encode(), words.output)
    return DONE


def _around(data: bytes) -> List[str]:
    """What to tell of bytes that hold filters inside of other messages."""
    held = filters_in(data)
    if held == [("", data)]:
        return []
    names = ", ".join(name for name, _ in held) or "none"
    return [f"these bytes are no filter, but hold filters: {names}; --name shows one of them"]


def _named(file: str, data: bytes, name: str) -> bytes:
    """The bytes of the filter of that name inside of others; raises Mistake."""
    held = filters_in(data)
    found = [one for known, one in held if known == name]
    if not found:
        known = ", ".join(known for known, _ in held if known) or "none with a name"
        raise Mistake(f"{file}: no filter of the name {name} is here: {known}")
    return found[0]
