"""Checks of files: what the tool finds in each filter and what the engine answers, as one report a filter.

Several files are checked by several processes, so that reports hold no messages.
"""
import os
import re
from functools import partial
from typing import List, NamedTuple, Optional, Tuple

from . import engine, lint, profile, requirements
from .bounds import GREATEST_BUDGET, Budget, too_costly
from .conditions_typing import Bound, bounds_of
from .decode import decode
from .encode import Encoding
from .files import BYTES, bounded, files_in, is_binary, kind_of, may_hold_policy, name_of, read_file, text_of_policy
from .findings import Finding, are_refused
from .forms.binary import filters_in
from .lint.silencing import Silencing
from .messages import FILTER, Message, descriptor
from .places import Mistake, Source
from .placing import engine_place, named_node, node_at, origin, place_in_file
from .reader import TOO_LARGE, read
from .reading import Encoded, contents
from .workers import in_processes

# When a solver is asked for notes too; of more files than these it is not, unless it always is.
AUTO, ALWAYS, NEVER = "auto", "always", "never"
MOST_SOLVED = 20


class Report(NamedTuple):
    """What is said of one filter: its file and name, its findings, its bounds, and the engine's answer or none."""

    file: str
    name: str
    source: Optional[Source]
    findings: List[Finding]
    mistakes: List[Mistake]
    bounds: List[Bound]
    admission: Optional[engine.Admission] = None
    # Whether the file could not be read at all, or holds no policy and is only in a folder of some.
    is_unread: bool = False
    is_left_out: bool = False

    def is_admitted(self) -> bool:
        """Whether the filter is admitted; the engine decides where it was asked."""
        if self.mistakes:
            return False
        return not are_refused(self.findings) if self.admission is None else self.admission.number == 0

    def label(self) -> str:
        """The file, and the filter's name where it has one."""
        return f"{self.file}: {self.name}" if self.name else self.file


class Held(NamedTuple):
    """A report, and the filter that the engine is asked about: its bytes, its message, and the places of its parts."""

    report: Report
    data: Optional[bytes] = None
    message: Optional[Message] = None
    encoding: Optional[Encoding] = None


class Wanted(NamedTuple):
    """What is wanted of a check: the budget, and whether a solver is asked too: always, never, or for a few files."""

    budget: Budget
    solver: str = AUTO


def check_files(names: List[str], wanted: Wanted, asked: Optional[engine.Engine]) -> List[Report]:
    """The reports on files, in order; raises NoEngine."""
    files = [(file, is_of_folder) for name in names for file, is_of_folder in _files(name)]
    is_few = wanted.solver == AUTO and len(files) <= MOST_SOLVED
    is_solved = (is_few or wanted.solver == ALWAYS) and not requirements.missing_solver()
    work = partial(_checked, wanted.budget, is_solved, asked)
    return [report for reports in in_processes(work, files) for report in reports]


def _checked(budget: Budget, is_solved: bool, asked: Optional[engine.Engine], file: Tuple[str, bool]) -> List[Report]:
    """The reports on one file; raises NoEngine."""
    held = _held_or_mistakes(*file, budget.steps, is_solved)
    filters = [one.data for one in held if one.data is not None]
    answers = iter(asked.admissions(filters, budget) if asked is not None else ())
    return [one.report if asked is None or one.data is None else _answered(one, next(answers), budget.visits) for one in held]


def _files(name: str) -> List[Tuple[str, bool]]:
    """The files that a name is for, each with whether it is one of a folder."""
    return [(file, True) for file in files_in(name)] if os.path.isdir(name) else [(name, False)]


def _held_or_mistakes(name: str, is_of_folder: bool, budget: int, is_solved: bool) -> List[Held]:
    """The reports on one file before the engine is asked; of one that a folder has beside policies, that it is left out."""
    try:
        data = read_file(name)
        if is_of_folder and not is_binary(data) and not may_hold_policy(data):
            return [Held(Report(name, "", None, [], [], [], is_left_out=True))]
        return _held(name, data, budget, is_solved)
    except Mistake as mistake:
        return [Held(Report(name_of(name), "", None, [], [mistake], []))]
    except OSError as fault:
        unread = Mistake(f"policy: cannot read {name_of(name)}: {fault.strerror}")
        return [Held(Report(name_of(name), "", None, [], [unread], [], is_unread=True))]


def _held(name: str, data: bytes, budget: int, is_solved: bool) -> List[Held]:
    if kind_of(data) == BYTES and is_binary(data):
        held = filters_in(bounded(name, data))
        return [_of_bytes(name_of(name), one, bytes_, budget, is_solved) for one, bytes_ in held]
    source = Source(name_of(name), text_of_policy(name, data))
    held = contents(source, budget)
    reports: List[Held] = []
    about_file = held.findings
    if held.own_mistakes or not held.filters:
        reports.append(Held(Report(source.name, "", source, about_file, held.own_mistakes, [])))
        about_file = []
    silencing = Silencing(source)
    for index, one in enumerate(held.filters, 1):
        is_whole = not one.mistakes and not are_refused(one.findings)
        notes = silencing.kept(_notes(one.message, one.encoding, is_solved and is_whole))
        notes += silencing.unused(is_solved and is_whole) if index == len(held.filters) and not held.mistakes else []
        reports.append(_of_text(source, one, about_file + one.findings + notes))
        about_file = []
    return reports


def _notes(message: Message, encoding: Optional[Encoding], is_solved: bool) -> List[Finding]:
    """The notes on a filter, those of the solver too."""
    found = lint.notes(message, encoding)
    return found + (lint.solved_notes(message, encoding, found) if is_solved else [])


def _of_text(source: Source, one: Encoded, findings: List[Finding]) -> Held:
    bounds = [] if one.mistakes else bounds_of(one.message)
    report = Report(source.name, one.name, source, findings, one.mistakes, bounds)
    return Held(report, None if one.mistakes else one.data, one.message, one.encoding)


def _of_bytes(file: str, name: str, data: bytes, budget: int, is_solved: bool) -> Held:
    """The report on a filter in bytes; a condition's fault has the condition's text."""
    message = read(descriptor(FILTER), data, None)
    found = [
        Finding(note.number, f"byte {note.place}: {note.words}", None, note.path) for note in profile.notes(message)
    ]
    if any(_is_in_condition(one) for one in found):
        lines = _lines_of_texts(file, data)
        found = [_with_origin(_with_line(one, lines), message) for one in found]
    found += too_costly(message, budget)
    found += _notes(message, None, is_solved and not are_refused(found))
    return Held(Report(file, name, None, found, [], bounds_of(message)), data, message)


def _lines_of_texts(file: str, data: bytes) -> dict:
    """For each finding in a condition its line in the YAML that `decode` makes of the bytes."""
    try:
        source = Source(file, decode(data).encode())
        held = contents(source, GREATEST_BUDGET).filters
    except Mistake:
        return {}
    findings = held[0].findings if held and held[0].data == data else []
    return {_key(one): source.tell(one.place, "").split("\n", 1)[1] for one in findings if one.place}


def _key(finding: Finding) -> tuple:
    """What tells that two findings are the same, whether their words begin with an offset or not."""
    return finding.path, finding.number, re.sub(r"^byte \d+: ", "", finding.words)


def _is_in_condition(one: Finding) -> bool:
    """Whether something is found in the tree of a condition."""
    return "expr" in one.path or one.path[3:4] == ("condition",)


def _with_line(one: Finding, texts: dict) -> Finding:
    """A finding of a condition with the line of its text."""
    line = texts.get(_key(one)) if _is_in_condition(one) else None
    return one if line is None else one._replace(words=f"{one.words}\n{line}")


def _with_origin(one: Finding, message: Message) -> Finding:
    """A finding of a condition with the place in the text that it was made of, where `source_info` has it."""
    named = node_at(one.path, message) if _is_in_condition(one) else None
    where = origin(named.condition.message, named.node.id) if named is not None else None
    offset, colon, rest = one.words.partition(": ")
    return one if where is None or not colon else one._replace(words=f"{offset}, {where}: {rest}")


def _answered(held: Held, answer: engine.Admission, visits: int) -> Report:
    """The report with the engine's answer; a refusal that the tool did not find has the engine's place."""
    findings = held.report.findings
    if answer.number and not any(one.number == answer.number for one in findings):
        told = engine_place(answer.answer.get("place"))
        place = place_in_file(told, held.message, held.encoding)
        named = named_node(told, held.message)
        what = "this" if named is None else f"node {named.node.id}, {named.told()}"
        cause = answer.answer.get("cause")
        words = f"the engine refuses {what}" + (f": {cause}" if cause else "")
        # the tool knows the other limits of this number
        words += f"; the limit of visits is {visits} (--visits declares another)" if answer.number == TOO_LARGE else ""
        findings = [*findings, Finding(answer.number, words, place, told.path)]
    return held.report._replace(findings=findings, admission=answer)
