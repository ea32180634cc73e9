"""`policy ask`: is there a request that a filter lets pass or denies, and that meets a condition?"""
import argparse
from typing import List

from .. import engine, output, requirements
from ..asked import WHEN, condition_filter
from ..bounds import GREATEST_BUDGET, Budget
from ..compare.drafts import shown
from ..compare.judging import Judges, side_of
from ..files import name_of
from ..outcomes import NONE, matched_of, quoted, told
from ..testfiles import filter_of_file
from .common import DONE, MISTAKEN, NOT_DECIDED, UNUSABLE, add_engine, add_seconds, add_visits, engine_of

NAME = "ask"
WRONG = "not decided: the solver takes this request for an answer, and the engine does not; please report the filter and the question"


def add(commands) -> None:
    """Adds the command's words."""
    parser = commands.add_parser(
        NAME,
        help="ask whether a filter lets a kind of request pass",
        description="Finds a request that the filter of a file answers as is asked and that meets the conditions, or says that there "
        "is none within the limits. The engine confirms each request. It needs python3-z3. Status 0 if there is none, 1 if "
        "there is one, 3 if that was not decided, 2 if it cannot be asked.",
        epilog="""example:
  policy ask service.yaml --allowed --when 'request.path.startsWith("/admin") && !connection.mtls'""",
        formatter_class=argparse.RawDescriptionHelpFormatter,
    )
    parser.add_argument("file", metavar="FILE", help="a policy file of any form; `-` is standard input")
    verdict = parser.add_mutually_exclusive_group()
    verdict.add_argument("--allowed", action="store_const", const="allow", dest="verdict", help="a request that passes")
    verdict.add_argument("--denied", action="store_const", const="deny", dest="verdict", help="a request that is denied")
    parser.add_argument("--by", metavar="POLICY", help="a request that this policy decides")
    told_words = "a request for which this condition in CEL is true; may be given again"
    parser.add_argument(WHEN, action="append", default=[], metavar="CEL", help=told_words)
    parser.add_argument("--filter", metavar="NAME", help="the filter to take of a file that holds several")
    add_seconds(parser)
    add_visits(parser)
    add_engine(parser)


def run(words: argparse.Namespace) -> int:
    """Prints a request, or that there is none."""
    if words.verdict is None and words.by is None and not words.when:
        output.tell(f"policy: nothing is asked: give --allowed, --denied, --by or {WHEN}")
        return UNUSABLE
    missing = requirements.missing_solver()
    if missing:
        output.tell(f"policy: questions are not decided without a solver; {requirements.advice(missing)}")
        return UNUSABLE
    side = side_of(name_of(words.file), filter_of_file(words.file, words.filter))
    conditions = [side_of(WHEN, condition_filter(text)) for text in words.when]
    try:
        with engine_of(words) as asked:
            return _asked(Judges(asked, [side], Budget(GREATEST_BUDGET, words.visits)), words, conditions)
    except engine.NoEngine as fault:
        output.tell(f"policy: {fault}")
        return UNUSABLE


def _asked(judges: Judges, words: argparse.Namespace, conditions: list) -> int:
    """Prints the answer."""
    # these need the solver's package
    from ..compare import asking
    from ..compare.deciding import policies_in

    for side in [*judges.sides, *conditions]:
        for part in side.parts:
            admission = judges.asked.admission(part, judges.budget)
            if admission.number:
                raise engine.NoEngine(f"{side.name}: {admission.line}; `policy check` says why")
    names = [policy.name for policy in policies_in(judges.sides[0]).policies]
    if words.by not in (None, *names):
        output.tell(f"policy: there is no policy {words.by}: they are {', '.join(names)}")
        return UNUSABLE
    reply = asking.ask(judges, asking.Question(words.verdict, words.by, conditions), words.seconds)
    lines, status = _told(reply, asking)
    output.write("".join(output.visible(line) + "\n" for line in lines).encode(errors="replace"))
    return status


def _told(reply, asking) -> tuple:
    """The lines of an answer, and the status."""
    lines: List[str] = []
    if reply.found is not None:
        by = matched_of(reply.found.answer)
        lines.append(told(reply.found.answer) + (f" by {quoted(by)}" if by != NONE else "") + f": {shown(reply.found.draft)}")
    if reply.word == asking.FOUND:
        return lines, MISTAKEN
    if reply.word == asking.UNCONFIRMED:
        return [*lines, WRONG], UNUSABLE
    if reply.word == asking.NONE_FOUND:
        return ["none: no request within the limits"], DONE
    return [f"not decided: {reply.why}"], NOT_DECIDED
