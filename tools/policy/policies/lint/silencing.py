"""Comments that silence notes: `# policy: ignore NAME, NAME`.

A comment at the end of a line is for what begins on the line, with all that is indented below it; one on a line of its own
is for the next line.
"""
import re
from typing import Dict, List, NamedTuple, Tuple

import yaml

from ..findings import NOTE, Finding
from ..places import Place, Source
from .names import MEANINGS, OTHER_PATHS, SOLVED, UNUSED

COMMENT = re.compile(r"#\s*policy:\s*ignore\s+(?P<names>[\w-]+(?:\s*,\s*[\w-]+)*)\s*\Z")


class Ignore(NamedTuple):
    """A comment: where it is, the names in it, and the first line that it is for and the one after the last."""

    place: Place
    names: Tuple[str, ...]
    start: int
    end: int


class Silencing:
    """The comments of one file that silence notes."""

    def __init__(self, source: Source):
        self.ignores = _ignores(source)
        self.used: Dict[Tuple[Place, str], bool] = {(one.place, name): False for one in self.ignores for name in one.names}

    def kept(self, findings: List[Finding]) -> List[Finding]:
        """The findings that no comment silences; one that many parts of a filter have is at the first of them."""
        kept = [finding for finding in findings if not self._silences(finding)]
        same = sorted((one for one in kept if one.lint == OTHER_PATHS), key=lambda one: one.place or (0, 0))
        if len(same) < 2:
            return kept
        first = same[0]._replace(words=f"{same[0].words} ({len(same) - 1} more of these are in this filter)")
        return [first, *(one for one in kept if one.lint != OTHER_PATHS)]

    def _silences(self, finding: Finding) -> bool:
        if not finding.lint or finding.place is None:
            return False
        found = [one for one in self.ignores if finding.lint in one.names and one.start <= finding.place[0] < one.end]
        for one in found:
            self.used[one.place, finding.lint] = True
        return bool(found)

    def unused(self, is_solved: bool = True) -> List[Finding]:
        """Notes on names in comments that silence nothing, once all findings of the file were asked for; of those that only a
        solver may find, if it was asked. A comment can silence them too, also those on itself."""
        found = []
        for (place, name), is_used in self.used.items():
            if name not in MEANINGS:
                found.append(_unused(f"there is no note of the name {name}: they are {', '.join(MEANINGS)}", place))
            elif not is_used and name != UNUSED and (is_solved or name not in SOLVED):
                found.append(_unused(f"there is no note {name} here to silence", place))
        names = {one.place: one.names for one in self.ignores}
        own = {one.place for one in found if UNUSED in names[one.place]}
        self.used.update({(place, UNUSED): True for place in own})
        kept = [one for one in found if not self._silences(one) and one.place not in own]
        idle = [place for (place, name), is_used in self.used.items() if name == UNUSED and not is_used]
        # whether such a comment is needed is known only if the solver was asked
        return kept + [_unused(f"there is no note {UNUSED} here to silence", place) for place in idle if is_solved]


def _unused(words: str, place: Place) -> Finding:
    """A note on a name in a comment."""
    return Finding(NOTE, words, place, (), UNUSED)


def _ignores(source: Source) -> List[Ignore]:
    lines = [(number, COMMENT.search(line)) for number, line in enumerate(source.lines) if "policy:" in line]
    found = [(number, match) for number, match in lines if match is not None]
    spans = _scalars(source) if found else []
    ignores = []
    for number, match in found:
        place = (number, match.start())
        if not any(start <= place < end for start, end in spans):
            start = number if source.lines[number][: match.start()].strip() else _next(source, number)
            names = tuple(re.split(r"\s*,\s*", match["names"]))
            ignores.append(Ignore(place, names, start, _end(source, start)))
    return ignores


def _scalars(source: Source) -> List[Tuple[Place, Place]]:
    """Where the texts of a file are, in which `#` begins no comment."""
    try:
        tokens = [token for token in yaml.scan(source.text, Loader=yaml.CSafeLoader) if isinstance(token, yaml.ScalarToken)]
    except yaml.YAMLError:
        return []
    marks = [(token.start_mark, token.end_mark) for token in tokens]
    return [((start.line, start.column), (end.line, end.column)) for start, end in marks]


def _is_empty(line: str) -> bool:
    return not line.strip() or line.lstrip().startswith("#")


def _next(source: Source, number: int) -> int:
    """The next line that is neither empty nor a comment."""
    following = range(number + 1, len(source.lines))
    return next((other for other in following if not _is_empty(source.lines[other])), len(source.lines))


def _end(source: Source, start: int) -> int:
    """The line after what begins on a line and is indented below it."""
    if start >= len(source.lines):
        return start
    first = source.lines[start]
    indent, is_item = _indent(first), first.lstrip().startswith("-")
    for number in range(start + 1, len(source.lines)):
        line = source.lines[number]
        is_below = _indent(line) > indent or _indent(line) == indent and line.lstrip().startswith("-") and not is_item
        if not _is_empty(line) and not is_below:
            return number
    return len(source.lines)


def _indent(line: str) -> int:
    return len(line) - len(line.lstrip(" "))
