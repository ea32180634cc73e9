"""`policy judge`: what a filter decides on one request, and why."""
import argparse
import json
from typing import Dict

from .. import engine, output
from ..asked import facts_of_words, request_of_file, request_of_words
from ..engine import Request
from ..files import name_of
from ..outcomes import NONE, explained, matched_of, quoted, told
from ..places import Mistake
from ..testfiles import filter_of_file
from .common import DONE, MISTAKEN, UNUSABLE, add_budget, add_engine, budget_of, engine_of

NAME = "judge"
# The statuses of `rbacd judge`.
DENIED, FAULTY_HEAD = 3, 4
FIELDS = {"method": "GET", "path": "/", "host": "test", "version": "1.1"}


def add(commands) -> None:
    """Adds the command's words."""
    parser = commands.add_parser(
        NAME,
        help="judge one request by a policy file, with reasons",
        description="Judges one request by the filter of a file of any form, and explains the decision policy by policy, leaf by "
        "leaf. Status 0 if the request passes, 3 if it is denied, 4 if the head has a fault, 1 if the filter is refused or a "
        "file has a mistake, 2 if nothing can be judged.",
    )
    parser.add_argument("file", metavar="FILE", help="a policy file of any form; `-` is standard input")
    for name, plain in FIELDS.items():
        parser.add_argument(f"--{name}", metavar="TEXT", help=f"the {name} of the request (default {plain})")
    told_words = "a header of the request, as in 'x-user: alice'; may be given again"
    parser.add_argument("--header", action="append", default=[], metavar="LINE", help=told_words)
    told_words = "a fact of the connection, as in remote_ip=10.0.0.1; may be given again"
    parser.add_argument("--fact", action="append", default=[], metavar="NAME=VALUE", help=told_words)
    told_words = "take the request from a file: in YAML or JSON as a test has it, or a whole head"
    parser.add_argument("--request", metavar="FILE", help=told_words)
    parser.add_argument("--filter", metavar="NAME", help="the filter to take of a file that holds several")
    parser.add_argument("--json", action="store_true", help="print the engine's answer as one JSON object")
    add_budget(parser)
    add_engine(parser)


def run(words: argparse.Namespace) -> int:
    """Prints the decision and its reasons."""
    data = filter_of_file(words.file, words.filter)
    request = _request(words)
    try:
        with engine_of(words) as asked:
            [answer] = asked.decisions(data, [request], budget_of(words), explain=True)
    except engine.NoEngine as fault:
        output.tell(f"policy: {fault}")
        return UNUSABLE
    if words.json:
        lines = [json.dumps(answer, ensure_ascii=False)]
    else:
        by = f" by {quoted(matched_of(answer))}" if matched_of(answer) != NONE else ""
        lines = [told(answer) + by, *(f"  {line}" for line in explained(answer, data))]
    output.write("".join(output.visible(line) + "\n" for line in lines).encode(errors="replace"))
    if answer.get("refused"):
        output.tell(f"policy: the engine refuses the filter of {name_of(words.file)}; `policy check` says why")
    return _status(answer)


def _request(words: argparse.Namespace) -> Request:
    """The request that is judged."""
    fields: Dict[str, object] = {name: getattr(words, name) for name in FIELDS}
    if words.request is None:
        return request_of_words(fields, words.header, words.fact)
    if words.header or any(value is not None for value in fields.values()):
        raise Mistake("policy: --request gives the whole request; only --fact goes with it")
    found = request_of_file(words.request)
    return found._replace(facts={**found.facts, **facts_of_words(words.fact)})


def _status(answer: dict) -> int:
    if answer.get("refused"):
        return MISTAKEN
    if "head" in answer:
        return FAULTY_HEAD
    if "verdict" not in answer:
        return UNUSABLE
    return DONE if told(answer) == "allow" else DENIED
