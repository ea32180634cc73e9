"""What is found in a filter: faults for which the engine refuses it, and notes, each with its place."""
from typing import List, NamedTuple, Optional

from .places import Place
from .refusals import NAMES

NOTE = 0


class Finding(NamedTuple):
    """A refusal's number (0 for a note), words, the place in the file, the path of the part in the filter, and the name of a
    note that a comment can silence."""

    number: int
    words: str
    place: Optional[Place]
    path: tuple = ()
    lint: str = ""

    def told(self) -> str:
        """The words, with the refusal's number and name, or as a note with its name."""
        if self.number:
            return f"{self.words} ({self.number} {NAMES[self.number]})"
        return f"note: {self.words}" + (f" [{self.lint}]" if self.lint else "")


def are_refused(findings: List[Finding]) -> bool:
    """Whether the engine refuses a filter in which this was found."""
    return any(finding.number != NOTE for finding in findings)


def part_name(path: tuple) -> str:
    """What people call a part of a filter: `policy "p": permissions[0].and_rules.rules[2]`."""
    if path[:2] == ("rules", "policies") and len(path) > 2:
        name = str(path[2]).replace("\\", "\\\\").replace('"', '\\"')
        rest = _dotted(path[3:])
        return f'policy "{name}"' + (f": {rest}" if rest else "")
    return _dotted(path)


def _dotted(path: tuple) -> str:
    text = ""
    for step in path:
        text += f"[{step}]" if isinstance(step, int) else f".{step}" if text else str(step)
    return text
