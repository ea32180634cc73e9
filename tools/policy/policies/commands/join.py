"""`policy join`: a filter of fewer policies that decides the same."""
import argparse

from .. import output
from ..decode import decode
from ..faults import MOST_POLICIES, TOO_LARGE
from ..files import name_of, policy_text
from ..findings import Finding
from ..joining import join
from ..places import Source, together
from ..reading import chosen, contents
from .common import DONE, MISTAKEN, add_output, tell_findings

NAME = "join"
POLICIES = ("rules",)


def add(commands) -> None:
    """Adds the command's words."""
    parser = commands.add_parser(
        NAME,
        help="join policies that have equal principals or permissions",
        description="Writes the YAML of a filter whose policies of equal principals (or equal permissions) and the same "
        "condition are one policy. Each request has the same verdict; the policy that matches has another name. Comments "
        "keep the names. `policy diff` compares both.",
    )
    parser.add_argument("file", metavar="FILE", help="a policy file of any form in text; `-` is standard input")
    add_output(parser)
    parser.add_argument("--name", metavar="NAME", help="the filter to take of a file that holds several")


def run(words: argparse.Namespace) -> int:
    """Writes the filter."""
    source = Source(name_of(words.file), policy_text(words.file))
    held = contents(source)
    if held.mistakes:
        raise together(held.mistakes)
    one = chosen(source, held.filters, words.name)
    refused = [found for found in one.findings if found.number and not _is_of_count(found)]
    if refused:
        tell_findings(source, refused)
        output.tell("policy: nothing is joined, since the engine would refuse this filter")
        return MISTAKEN
    message, comments = join(one.message)
    output.write(decode(one.encoding.writer.write(message), comments).encode(), words.output)
    before, after = (len(filter_.get("rules").get("policies") or []) for filter_ in (one.message, message))
    too_many = f"; the engine takes at most {MOST_POLICIES}" if after > MOST_POLICIES else ""
    output.tell(f"policy: {before} policies, and {after} after they are joined{too_many}")
    return MISTAKEN if too_many else DONE


def _is_of_count(found: Finding) -> bool:
    """Whether a filter is refused for the number of its policies."""
    return found.number == TOO_LARGE and found.path == POLICIES
