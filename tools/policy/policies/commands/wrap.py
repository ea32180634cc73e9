"""`policy wrap`: filters in a discovery response with its frame."""
import argparse

from .. import output, profile
from ..bounds import BUDGET, GREATEST_FILTER, too_costly
from ..files import bounded, filter_bytes, name_of
from ..findings import NAMES, part_name
from ..messages import FILTER, descriptor
from ..places import Mistake
from ..reader import read
from ..wrap import frame, name_fault, response, text_fault
from .common import DONE, UNUSABLE, add_output

NAME = "wrap"
FORCE = "--even-if-refused"


def add(commands) -> None:
    """Adds the command's words."""
    parser = commands.add_parser(
        NAME,
        help="filter bytes to a discovery response",
        description="Writes a discovery response with its frame; status 1 and no bytes where the engine refuses it.",
    )
    parser.add_argument("--name", action="append", default=[], metavar="NAME", help="the name of a filter, one a file")
    parser.add_argument("--version", required=True, metavar="TEXT", help="the version of the response")
    parser.add_argument("--nonce", default="", metavar="TEXT", help="the nonce of the response")
    add_output(parser)
    parser.add_argument(FORCE, action="store_true", help="take filters and sizes that the engine would refuse")
    parser.add_argument("files", nargs="*", metavar="FILE", help="the bytes of a filter")


def run(words: argparse.Namespace) -> int:
    """Writes the response."""
    fault = name_fault(words.name)
    if len(words.name) != len(words.files):
        fault = f"{len(words.name)} names for {len(words.files)} files: each file takes one --name"
    fault = fault or text_fault("version", words.version) or text_fault("nonce", words.nonce)
    if fault is not None:
        output.tell(f"policy: {fault}")
        return UNUSABLE
    filters = [(name, _filter(file, words.even_if_refused)) for name, file in zip(words.name, words.files)]
    message = response(filters, words.version, words.nonce)
    if len(message) > GREATEST_FILTER and not words.even_if_refused:
        raise Mistake(f"the response has {len(message)} bytes; the engine takes at most {GREATEST_FILTER}")
    output.write(frame(message), words.output)
    return DONE


def _filter(file: str, even_if_refused: bool) -> bytes:
    """The bytes of a filter; raises Mistake where the engine would refuse them."""
    data = filter_bytes(file)
    if even_if_refused:
        return data
    bounded(file, data)
    message = read(descriptor(FILTER), data, None)
    for note in profile.notes(message):
        if note.number:
            raise Mistake(f"{name_of(file)}: {note.text()}; the engine would refuse this filter ({FORCE} takes it)")
    for found in too_costly(message, BUDGET):
        output.tell(f"note: {name_of(file)}: {part_name(found.path)}: {found.words} ({NAMES[found.number]})")
    return data
