"""Comments by the parts of a message that they are on."""
from typing import Dict, Iterable, List, Tuple


class Remarks:
    """The comments of a part, and the remarks of the parts in it."""

    def __init__(self):
        self.own: List[str] = []
        self.parts: Dict[object, Remarks] = {}

    def part(self, step) -> "Remarks":
        """The remarks on a part."""
        return self.parts.get(step, NONE)

    def all(self) -> List[str]:
        """All comments, of the part and of those in it."""
        return self.own + [text for part in self.parts.values() for text in part.all()]

    def beside(self, steps: Iterable) -> List[str]:
        """The comments of the parts but those."""
        return [text for step, part in self.parts.items() if step not in steps for text in part.all()]


NONE = Remarks()


def remarks_of(comments: Iterable[Tuple[tuple, str]]) -> Remarks:
    """Comments by their paths, each text once at its part."""
    remarks = Remarks()
    for path, text in comments:
        here = remarks
        for step in path:
            here = here.parts.setdefault(step, Remarks())
        if text not in here.own:
            here.own.append(text)
    return remarks
