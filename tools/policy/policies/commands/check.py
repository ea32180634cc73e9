"""`policy check`: what the tool and the engine say of policy files."""
import argparse
import json
from typing import List

from .. import engine, output
from ..checking import ALWAYS, AUTO, MOST_SOLVED, NEVER, Report, Wanted, check_files
from ..conditions_typing import Bound
from ..bounds import figure
from ..findings import NAMES, Finding, part_name
from ..reportforms import FORMS, GITHUB, JSON, SARIF, TEXT, github_lines, json_lines, sarif_lines
from ..version import version
from ..watching import add_watch, watched
from .common import DONE, MISTAKEN, MOST_TOLD, UNUSABLE, add_budget, add_engine, budget_of, engine_of, in_order

NAME = "check"
ALONE = "--without-engine"


def add(commands) -> None:
    """Adds the command's words."""
    parser = commands.add_parser(
        NAME,
        help="say whether filters are admitted, or each fault with its place",
        description="Checks files of any form (YAML, JSON, bytes; Envoy's wrappings, Istio's policies): tells each "
        "fault with line, field and token, asks the engine, and prints each filter's bound by policy.",
    )
    told = "a policy file, or a folder of them; `-` is standard input"
    parser.add_argument("files", nargs="+", metavar="FILE", help=told)
    add_budget(parser)
    add_engine(parser)
    parser.add_argument(ALONE, action="store_true", help="ask no engine; the answer is the tool's own")
    told = f"when python3-z3 is asked for notes too: always, never, or auto (the default), for at most {MOST_SOLVED} files"
    parser.add_argument("--solver", choices=[AUTO, ALWAYS, NEVER], default=AUTO, metavar="WHEN", help=told)
    told = "the form of the reports: text (the default), json, sarif for code scanning, or github for annotations"
    parser.add_argument("--format", choices=FORMS, default=TEXT, metavar="FORM", help=told)
    parser.add_argument("--json", action="store_const", const=JSON, dest="format", help="the same as --format json")
    parser.add_argument("--fail-on-notes", action="store_true", help="status 1 also if there is a note")
    add_watch(parser)


def run(words: argparse.Namespace) -> int:
    """Prints the reports."""
    return watched(words, words.files, _run)


def _run(words: argparse.Namespace) -> int:
    wanted = Wanted(budget_of(words), words.solver)
    try:
        if words.without_engine:
            reports = check_files(words.files, wanted, None)
        else:
            with engine_of(words) as asked:
                reports = check_files(words.files, wanted, asked)
    except engine.NoEngine as fault:
        output.tell(f"policy: {fault} ({ALONE} answers without it)")
        return UNUSABLE
    left_out = [report.file for report in reports if report.is_left_out]
    reports = [report for report in reports if not report.is_left_out]
    if left_out:
        output.tell(f"policy: left out, since no policy is in them: {', '.join(left_out)}")
    if not reports:
        output.tell("policy: there is no policy to check")
        return UNUSABLE
    output.write("".join(output.visible(line) + "\n" for line in _lines(reports, words)).encode(errors="replace"))
    return _status(reports, words.fail_on_notes)


def _lines(reports: List[Report], words: argparse.Namespace) -> List[str]:
    """The reports in the form that is asked for."""
    if words.format == JSON:
        return json_lines(reports, words.budget)
    if words.format == SARIF:
        return sarif_lines(reports, words.budget, version())
    if words.format == GITHUB:
        return github_lines(reports, words.budget)
    lines = [line for report in reports for line in as_text(report, words.budget)]
    return [*lines, _summary(reports)] if len(reports) > 1 else lines


def _status(reports: List[Report], fail_on_notes: bool) -> int:
    if any(report.is_unread for report in reports):
        return UNUSABLE
    if fail_on_notes and any(_notes(report) for report in reports):
        return MISTAKEN
    return DONE if all(report.is_admitted() for report in reports) else MISTAKEN


def _notes(report: Report) -> List[Finding]:
    return [finding for finding in report.findings if not finding.number]


def _summary(reports: List[Report]) -> str:
    """The line that counts the filters and the notes."""
    admitted = sum(report.is_admitted() for report in reports)
    unread = sum(bool(report.mistakes) for report in reports)
    notes = sum(len(_notes(report)) for report in reports)
    refused = len(reports) - admitted - unread
    return f"{len(reports)} filters: {admitted} admitted, {refused} refused, {unread} not read; {notes} note{'s' if notes != 1 else ''}"


def as_text(report: Report, budget: int) -> List[str]:
    """A report as lines: mistakes and findings in the order of the file, then the answer, then the bound of each policy."""
    told = in_order(report.mistakes, report.findings, lambda finding: _finding_text(report, finding))
    lines = [line for text in told[:MOST_TOLD] for line in text.splitlines()]
    if len(told) > MOST_TOLD:
        lines.append(f"{report.label()}: {len(told) - MOST_TOLD} more of these are not shown")
    lines.append(f"{report.label()}: {answer_of(report, budget)}")
    if report.is_admitted():
        lines += ["  " + _bound_text(bound) for bound in report.bounds]
    return lines


def _finding_text(report: Report, finding: Finding) -> str:
    place = finding.place
    if report.source is not None and place is None and finding.path:
        return f"{report.label()}: {part_name(finding.path)}: {finding.told()}"
    if report.source is not None:
        return report.source.tell(place or (0, 0), finding.told())
    part = part_name(finding.path)
    first, _, rest = finding.words.partition("\n")
    told = finding._replace(words=first).told()
    return f"{report.label()}: {part + ': ' if part else ''}{told}" + (f"\n{rest}" if rest else "")


def answer_of(report: Report, budget: int) -> str:
    """The line of a report that says admitted or refused."""
    if report.is_unread:
        return "not read"
    if report.mistakes:
        count = len(report.mistakes)
        return f"not read: {count} mistake{'s' if count > 1 else ''}"
    if report.admission is not None:
        line = report.admission.line
        return f"{line} of {budget}" if report.is_admitted() else line
    refused = next((finding for finding in report.findings if finding.number), None)
    if refused is not None:
        return f"would be refused: {refused.number} {NAMES[refused.number]} (no engine was asked)"
    total = sum(bound.steps or 0 for bound in report.bounds)
    return f"would be admitted: policies {len(report.bounds)} bound {total} of {budget} (no engine was asked)"


def _bound_text(bound: Bound) -> str:
    name = json.dumps(bound.policy, ensure_ascii=False)
    return f"{name}: condition {figure(bound)} steps" if bound.condition is not None else f"{name}: no condition"
