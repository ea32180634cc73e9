"""`policy replay`: what another filter would decide on the requests of a record."""
import argparse
from typing import Dict, List, NamedTuple, Optional, Tuple

from .. import engine, output
from ..bounds import Budget
from ..compare.judging import Side, decisions, side_of
from ..engine import Engine
from ..files import name_of
from ..outcomes import NONE, matched_of, quoted, told
from ..records import Record, Recorded, Response, record_of
from ..testfiles import filter_of_file
from .common import DONE, MISTAKEN, UNUSABLE, add_budget, add_engine, budget_of, engine_of

NAME = "replay"
# So many requests are shown of each pair of answers.
MOST_SHOWN = 10


class Group(NamedTuple):
    """Requests that one old filter judged."""

    old: bytes
    requests: List[Recorded]


def add(commands) -> None:
    """Adds the command's words."""
    parser = commands.add_parser(
        NAME,
        help="find the recorded requests that another filter would decide in another way",
        description="Judges the requests of records of `rbacd serve` by the filter that was in force and by another one. It prints "
        "those whose verdict changes, each with file and line of the record, and counts them by the policies that decide. Status 0 "
        "if no verdict changes, 1 if one does, 2 if the requests cannot be judged.",
    )
    parser.add_argument("records", nargs="+", metavar="RECORD", help="a file of a record")
    parser.add_argument("new", metavar="NEW", help="the other filter, a policy file of any form")
    parser.add_argument("--name", metavar="NAME", help="the filter of the record, if it has several")
    parser.add_argument("--filter", metavar="NAME", help="the filter to take of a policy file that holds several")
    parser.add_argument("--policies", action="store_true", help="print also where another policy matches")
    add_budget(parser)
    add_engine(parser)


def run(words: argparse.Namespace) -> int:
    """Prints the requests whose verdicts change."""
    new = side_of(name_of(words.new), filter_of_file(words.new, words.filter))
    records = [record_of(name) for name in words.records]
    names = sorted({name for record in records for response in record.responses for name in response})
    name = words.name or (names[0] if len(names) == 1 else None)
    if name is None or name not in names:
        known = ", ".join(names) or "none"
        output.tell(f"policy: the records have the filters {known}" + ("; take one by --name" if len(names) > 1 else ""))
        return UNUSABLE
    try:
        with engine_of(words) as asked:
            return _replayed(asked, records, name, new, words)
    except engine.NoEngine as fault:
        output.tell(f"policy: {fault}")
        return UNUSABLE


def _replayed(asked: Engine, records: List[Record], name: str, new: Side, words: argparse.Namespace) -> int:
    """Judges all requests, and prints what changes."""
    for part in new.parts:
        admission = asked.admission(part, budget_of(words))
        if admission.number:
            raise engine.NoEngine(f"{new.name}: {admission.line}; `policy check` says why")
    groups, unready = _groups(asked, records, name, budget_of(words))
    changed: Dict[Tuple[str, str], List[Recorded]] = {}
    count = 0
    for group in groups:
        both = decisions(asked, [Side(name, group.old, [group.old]), new], [one.request for one in group.requests], budget_of(words))
        for one, old, answer in zip(group.requests, *both):
            count += 1
            if told(old) != told(answer) or words.policies and matched_of(old) != matched_of(answer):
                changed.setdefault((_words(old), _words(answer)), []).append(one)
    lines = _lines(changed, count, unready)
    output.write("".join(output.visible(line) + "\n" for line in lines).encode(errors="replace"))
    return MISTAKEN if changed else DONE


def _groups(asked: Engine, records: List[Record], name: str, budget: Budget) -> Tuple[List[Group], int]:
    """The requests by the filter that was in force, and how many came before there was one."""
    found: Dict[bytes, List[Recorded]] = {}
    unready = 0
    for record in records:
        in_force = _in_force(asked, record.responses, name, budget)
        for one in record.requests:
            old = in_force[one.responses]
            if old is None:
                unready += 1
            else:
                found.setdefault(old, []).append(one)
    return [Group(*one) for one in found.items()], unready


def _in_force(asked: Engine, responses: List[Response], name: str, budget: Budget) -> List[Optional[bytes]]:
    """The filter of a name after so many responses: one with a filter that is refused changes nothing."""
    found: List[Optional[bytes]] = [None]
    for response in responses:
        is_taken = name in response and not any(one.number for one in asked.admissions(response.values(), budget))
        found.append(response[name] if is_taken else found[-1])
    return found


def _lines(changed: Dict[Tuple[str, str], List[Recorded]], count: int, unready: int) -> List[str]:
    """The requests that change, and how many of each pair of answers."""
    lines: List[str] = []
    for (old, new), found in changed.items():
        lines += [f"{one.file}:{one.line}: {one.told()}: {old} -> {new}" for one in found[:MOST_SHOWN]]
    total = sum(map(len, changed.values()))
    early = f"; {unready} came before a policy" if unready else ""
    lines.append(f"{count} requests: {total} changed, {count - total} the same{early}")
    ordered = sorted(changed.items(), key=lambda one: -len(one[1]))
    return lines + [f"  {len(found)}: {old} -> {new}" for (old, new), found in ordered]


def _words(answer: dict) -> str:
    return told(answer) + (f" by {quoted(matched_of(answer))}" if matched_of(answer) != NONE else "")
