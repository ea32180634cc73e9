"""The command line."""
import argparse
import gc
import sys
from typing import List, Optional

from . import output
from .commands import ask, check, decode, diff, encode, fmt, generate, join, judge, replay, test, wrap
from .commands.common import UNUSABLE, MISTAKEN, tell_mistake
from .places import Mistake
from .version import version

DEEPEST_RECURSION = 20_000
INTERRUPTED = 130
COMMANDS = (check, test, judge, ask, diff, replay, join, fmt, encode, decode, wrap, generate)
# Their status 1 is an answer, which a mistake is not.
ANSWERING = (ask, diff, replay)

DESCRIPTION = """Envoy RBAC policies as YAML, with conditions as texts of CEL, to filter bytes and back.
This tool is no part of what is proved: the engine reads every filter for itself."""
STATUSES = """status: 0 done; 1 a mistake in a file, told with its place, a filter that the engine refuses, a test that
fails, a verdict that changes, a request that was asked for; 2 a mistake on the command line, a file that cannot be read
or written, a package or an engine that is missing, and for ask, diff and replay also a mistake in a file or a filter that is
refused; 3 a question that was not decided, or a request that `judge` denies; 4 a head with a fault. Where the status is not 0,
no bytes are written."""


def parser_of_words() -> argparse.ArgumentParser:
    """The parser of the command line."""
    parser = argparse.ArgumentParser(
        prog="policy", description=DESCRIPTION, epilog=STATUSES, formatter_class=argparse.RawDescriptionHelpFormatter
    )
    parser.add_argument("--version", action="version", version=f"policy {version()}")
    commands = parser.add_subparsers(dest="command", required=True, metavar="COMMAND")
    for command in COMMANDS:
        command.add(commands)
    return parser


def words_of(arguments: Optional[List[str]]) -> argparse.Namespace:
    """The words of the command line; files may be between options, as in `--name a a.bin --name b b.bin`."""
    parser = parser_of_words()
    words, rest = parser.parse_known_args(arguments)
    options = [word for word in rest if word.startswith("-") and word != "-"]
    if options or (rest and not hasattr(words, "files")):
        parser.error("unrecognized arguments: " + " ".join(options or rest))
    if rest:
        words.files = [*words.files, *rest]
    words.parser = parser
    return words


def main(arguments: Optional[List[str]] = None) -> int:
    """Runs one command and answers its status."""
    sys.setrecursionlimit(DEEPEST_RECURSION)
    # what is made lives until the end, so collecting cycles only takes time
    gc.disable()
    try:
        status = _run(arguments)
    except SystemExit as end:
        status = end.code if isinstance(end.code, int) else UNUSABLE
    except KeyboardInterrupt:
        status = INTERRUPTED
    return status if output.finish() else UNUSABLE


def _run(arguments: Optional[List[str]]) -> int:
    words = words_of(arguments)
    command = next(command for command in COMMANDS if command.NAME == words.command)
    try:
        return command.run(words)
    except Mistake as mistake:
        tell_mistake(mistake)
        return UNUSABLE if command in ANSWERING else MISTAKEN
    except output.CannotWrite as fault:
        if str(fault):
            output.tell(f"policy: {fault}")
        return UNUSABLE
    except OSError as fault:
        output.tell(f"policy: cannot read {fault.filename}: {fault.strerror}")
        return UNUSABLE
