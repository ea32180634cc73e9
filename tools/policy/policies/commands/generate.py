"""`policy generate`: the files that editors, shells and `man` read."""
import argparse
import json

from .. import manual, output
from ..schema import schema
from .common import DONE, add_output

NAME = "generate"
WHAT = {
    "schema": "the JSON Schema of a filter in YAML, for editors",
    "man": "the manual page",
    "bash": "the completion for bash",
    "zsh": "the completion for zsh",
}


def add(commands) -> None:
    """Adds the command's words."""
    told = "; ".join(f"{name}: {words}" for name, words in WHAT.items())
    parser = commands.add_parser(
        NAME, help="write the schema, the manual page or a completion", description=f"Writes a file. {told}."
    )
    parser.add_argument("what", choices=list(WHAT), metavar="WHAT", help=", ".join(WHAT))
    add_output(parser)


def run(words: argparse.Namespace) -> int:
    """Writes it."""
    if words.what == "schema":
        text = json.dumps(schema(), indent=1) + "\n"
    else:
        text = {"man": manual.page, "bash": manual.bash, "zsh": manual.zsh}[words.what](words.parser)
    output.write(text.encode(), words.output)
    return DONE
