"""`policy encode`: the bytes of a filter."""
import argparse

from .. import output
from ..encode import encode
from ..files import name_of, policy_text
from ..findings import are_refused
from ..places import Mistake, Source
from ..reading import chosen, contents
from .common import DONE, MISTAKEN, add_steps, add_output, tell_findings

NAME = "encode"
FORCE = "--even-if-refused"


def add(commands) -> None:
    """Adds the command's words."""
    parser = commands.add_parser(
        NAME,
        help="YAML to filter bytes",
        description="Writes the bytes of a filter; status 1 and no bytes where the engine would refuse it. The file "
        "may hold the filter, its rules alone, any of Envoy's wrappings around it, or Istio's AuthorizationPolicy.",
    )
    parser.add_argument("file", metavar="FILE", help="the filter as YAML or JSON; `-` is standard input")
    add_output(parser)
    add_steps(parser)
    parser.add_argument("--name", metavar="NAME", help="the filter to take of a file that holds several")
    parser.add_argument(
        "--dotted", action="store_true", help="attributes in conditions are variables of dotted names, not selects"
    )
    told = "write the bytes exactly as a file with the filter itself says them, although the engine refuses them"
    parser.add_argument(FORCE, action="store_true", help=told)


def run(words: argparse.Namespace) -> int:
    """Writes the bytes."""
    source = Source(name_of(words.file), policy_text(words.file))
    if words.even_if_refused:
        data, findings = encode(source, words.dotted, words.budget)
        tell_findings(source, findings)
        output.write(data, words.output)
        return DONE
    held = contents(source, words.budget, words.dotted)
    if held.mistakes:
        findings = [finding for one in held.filters for finding in one.findings]
        tell_findings(source, held.findings + findings, held.mistakes)
        return MISTAKEN
    one = chosen(source, held.filters, words.name)
    tell_findings(source, held.findings + one.findings)
    if are_refused(one.findings):
        output.tell(f"policy: nothing is written, since the engine would refuse this filter ({FORCE} writes it)")
        return MISTAKEN
    output.write(one.data, words.output)
    return DONE
