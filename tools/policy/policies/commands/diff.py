"""`policy diff`: whether two filters are equal, or which requests change their verdict between them."""
import argparse
import os
from functools import partial
from typing import List, NamedTuple

from .. import engine, output, requirements
from ..compare.candidates import candidates
from ..compare.drafts import request_of, shown, weight
from ..compare.judging import Difference, Judges, decisions, differences, plainest, side_of
from ..compare.leaves import policies_of
from ..files import name_of, policy_text
from ..outcomes import NONE, matched_of, message_of, quoted, told
from ..places import Source
from ..requests import request_log
from ..testfiles import filter_of_file
from ..workers import in_processes
from .common import DONE, MISTAKEN, NOT_DECIDED, UNUSABLE, add_budget, add_engine, add_seconds, budget_of, engine_of

NAME = "diff"
# Two files of more bytes are read by two processes.
LARGE = 50_000
# So many requests that differ are shown.
MOST_SHOWN = 10
SOLVER_IS_MISSING = "python3-z3 is not installed"
WRONG = "not decided: the solver takes this request for one that differs, and the engine does not; please report both filters"
ALL_TOLD = "these are all that the leaves can tell apart"


class Answer(NamedTuple):
    """What is printed, and the status."""

    lines: List[str]
    status: int


def add(commands) -> None:
    """Adds the command's words."""
    parser = commands.add_parser(
        NAME,
        help="decide whether two filters are equal, or find requests that change their verdict",
        description="Decides whether two filters answer each request within the limits with the same verdict. If they do not, it "
        "prints a request for each pair of policies that decide, the smallest first; the engine has confirmed each. This needs "
        "python3-z3. Without it, and where nothing is decided, requests are made of the rules and conditions of both. With a log "
        "of requests only these are judged. Status 0 if no verdict differs, 1 if one does, 3 if that was not decided, 2 if the "
        "filters cannot be judged.",
    )
    parser.add_argument("old", metavar="OLD", help="a policy file of any form")
    parser.add_argument("new", metavar="NEW", help="another")
    told_words = "a list of requests in YAML, or a JSON object a line"
    parser.add_argument("requests", metavar="REQUESTS", nargs="?", help=told_words)
    add_budget(parser)
    add_engine(parser)
    add_seconds(parser)
    parser.add_argument("--filter", metavar="NAME", help="the filter to take of a file that holds several")
    parser.add_argument("--policies", action="store_true", help="print also where another policy matches")


def run(words: argparse.Namespace) -> int:
    """Prints the requests whose verdicts differ."""
    if [words.old, words.new, words.requests].count("-") > 1:
        output.tell("policy: only one of the files can be standard input")
        return UNUSABLE
    files = [words.old, words.new]
    filters = in_processes(partial(filter_of_file, chosen=words.filter), files, 1 if _are_large(files) else len(files))
    sides = [side_of(name_of(file), data) for file, data in zip(files, filters)]
    try:
        with engine_of(words) as asked:
            judges = Judges(asked, sides, budget_of(words))
            answer = _of_log(judges, words) if words.requests else _of_filters(judges, words)
    except engine.NoEngine as fault:
        output.tell(f"policy: {fault}")
        return UNUSABLE
    output.write("".join(output.visible(line) + "\n" for line in answer.lines).encode(errors="replace"))
    return answer.status


def _are_large(files: List[str]) -> bool:
    """Whether files are read faster by several processes."""
    return all(os.path.isfile(file) for file in files) and min(map(os.path.getsize, files)) > LARGE


def _check(judges: Judges) -> None:
    """Raises NoEngine if a filter is refused."""
    parts = {part: side for side in judges.sides for part in side.parts}
    for side, admission in zip(parts.values(), judges.asked.admissions(parts, judges.budget)):
        if admission.number:
            raise engine.NoEngine(f"{side.name}: {admission.line}; `policy check` says why")


def _of_log(judges: Judges, words: argparse.Namespace) -> Answer:
    """The requests of a log that differ."""
    _check(judges)
    log = request_log(Source(name_of(words.requests), policy_text(words.requests)))
    both = decisions(judges.asked, judges.sides, [request for _, request, _ in log], judges.budget)
    lines: List[str] = []
    for (line, _, name), old, new in zip(log, *both):
        if told(old) != told(new) or words.policies and matched_of(old) != matched_of(new):
            lines.append(f"{name_of(words.requests)}:{line}: {name}: {_words(old)} -> {_words(new)}")
    changed = len(lines)
    lines.append(f"{len(log)} requests: {changed} changed, {len(log) - changed} the same")
    return Answer(lines, MISTAKEN if changed else DONE)


def _of_filters(judges: Judges, words: argparse.Namespace) -> Answer:
    """What is decided of both filters; what is not, by samples."""
    if requirements.missing_solver():
        _check(judges)
        return _of_samples(judges, words.policies, SOLVER_IS_MISSING)
    # it needs the solver's package
    from ..compare import deciding

    found = deciding.decide(judges, words.policies, words.seconds, partial(_check, judges))
    if found.word == deciding.EQUAL:
        what = "the policy that matches" if words.policies else "the verdict"
        return Answer([f"equal: each request within the limits has the same answer, compared by {what}"], DONE)
    lines = _shown(found.differences)
    if found.word == deciding.DIFFER:
        return Answer([*lines, _count(found)], MISTAKEN)
    if found.word == deciding.UNCONFIRMED:
        return Answer([*lines, WRONG], UNUSABLE)
    return _of_samples(judges, words.policies, found.why)


def _count(found) -> str:
    """The line that counts what differs."""
    count = len(found.differences)
    differ = f"{count} pair{'s' if count > 1 else ''} of answers differ{'' if count > 1 else 's'}"
    if found.why:
        return f"{differ}; there may be others: {found.why}"
    others = "; there may be others" if count >= MOST_SHOWN else "; these are all pairs of policies that decide a difference"
    return differ + others


def _of_samples(judges: Judges, with_policies: bool, why: str) -> Answer:
    """Those of the requests that the filters' rules can tell apart which differ, and why no more was decided."""
    policies = [policy for side in judges.sides for policy in policies_of(message_of(side.whole))]
    made = candidates(policies)
    both = decisions(judges.asked, judges.sides, [request_of(draft) for draft in made.drafts], judges.budget)
    found = differences(made.drafts, both, with_policies)
    is_whole = all("verdict" in answer for answers in both for answer in answers)
    gap = made.gap or ("" if is_whole else "some combinations are no requests within the limits")
    tried = f"{len(made.drafts)} requests made of {made.leaves} leaves: "
    tried += f"{len(found)} differ" if found else "no difference was found"
    if not gap:
        return Answer([*_shown(plainest(found)), f"{tried}; {ALL_TOLD}"], MISTAKEN if found else DONE)
    if found:
        return Answer([*_shown(plainest(found)), f"{tried}; there may be others: {gap}; {why}"], MISTAKEN)
    return Answer([f"{tried}; {gap}", f"not decided: {why}"], NOT_DECIDED)


def _shown(found: List[Difference]) -> List[str]:
    """The first differences, the smallest first."""
    ordered = sorted(found, key=lambda one: weight(one.draft))
    lines = [f"{_words(one.old)} -> {_words(one.new)}: {shown(one.draft)}" for one in ordered]
    if len(lines) > MOST_SHOWN:
        lines[MOST_SHOWN:] = [f"{len(lines) - MOST_SHOWN} more pairs of answers are not shown"]
    return lines


def _words(answer: dict) -> str:
    return told(answer) + (f" by {quoted(matched_of(answer))}" if matched_of(answer) != NONE else "")
