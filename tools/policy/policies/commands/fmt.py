"""`policy fmt`: files of YAML in one layout."""
import argparse
import os

from .. import output
from ..files import name_of, policy_text, text_files_in
from ..formatting import formatted
from ..places import Mistake, Source
from .common import DONE, MISTAKEN, UNUSABLE, tell_mistake

NAME = "fmt"


def add(commands) -> None:
    """Adds the command's words."""
    parser = commands.add_parser(
        NAME,
        help="lay out files of YAML",
        description="Lays out files of YAML or JSON as `policy decode` does, in place; comments are kept. A file with a "
        "part that cannot be laid out is left as it is, with status 1. `-` is standard input to standard output. Of a folder those "
        "files are laid out that hold policies or tests.",
    )
    parser.add_argument("--check", action="store_true", help="write nothing; name the files that would change, status 1")
    parser.add_argument("files", nargs="+", metavar="FILE", help="a file of YAML or JSON, a folder of them, or - for standard input")


def run(words: argparse.Namespace) -> int:
    """Lays out the files."""
    if "-" in words.files and len(words.files) > 1:
        output.tell("policy: standard input is laid out by itself, without other files")
        return UNUSABLE
    status = DONE
    files = [file for name in words.files for file in (text_files_in(name) if os.path.isdir(name) else [name])]
    for file in files:
        try:
            changes = _lay_out(file, words.check)
            status = MISTAKEN if changes and words.check else status
        except Mistake as mistake:
            tell_mistake(mistake)
            status = MISTAKEN
    return status


def _lay_out(file: str, is_check: bool) -> bool:
    """Lays out one file, and says whether it changes."""
    source = Source(name_of(file), policy_text(file))
    before, made = source.text, formatted(source)
    if is_check and made != before:
        output.tell(f"{name_of(file)}: would be laid out in another way")
    elif not is_check and (file == "-" or made != before):
        output.write(made.encode(), file)
    return made != before
