"""Notes on policies as a whole: those that an earlier one goes before."""
from typing import Dict, Iterator, List, NamedTuple, Tuple

from ..conditions_typing import condition_of
from ..findings import Finding
from ..messages import Message
from ..writer import PLAIN
from .names import ANY_ANY, NEVER_FIRST, Lint

SIDES = ("permissions", "principals")


class _Side(NamedTuple):
    """One side of a policy: its rules as bytes, and whether it matches everything."""

    rules: frozenset
    has_any: bool

    def holds(self, other: "_Side") -> bool:
        """Whether it matches whatever the other does, as far as equal rules tell."""
        return self.has_any or bool(other.rules) and other.rules <= self.rules


def _sides(policy: Message) -> List[_Side]:
    return policy.kept("sides", lambda: _made_sides(policy))


def _made_sides(policy: Message) -> List[_Side]:
    found = []
    for side in SIDES:
        rules = policy.get(side) or []
        found.append(_Side(frozenset(map(PLAIN.write, rules)), any(rule.get("any") for rule in rules)))
    return found


def never_first(policies: Dict[str, Message]) -> Iterator[Tuple[str, Finding]]:
    """Policies that an earlier one without a condition always goes before, each with the note."""
    earlier: Dict[str, List[_Side]] = {}
    for name in sorted(policies, key=str.encode):
        own = _sides(policies[name])
        first = _before(own, earlier)
        if first is not None:
            matches = "every request" if all(side.has_any for side in earlier[first]) else "whatever it matches"
            words = f'policy "{name}" is never the first to match: "{first}" comes before it and matches {matches}'
            yield name, Lint(NEVER_FIRST, words).at(())
        elif condition_of(policies[name]) is None:
            earlier[name] = own


def matches_all(policies: Dict[str, Message], is_deny: bool) -> Iterator[Tuple[str, Finding]]:
    """Policies that match each request, with the note."""
    for name, policy in policies.items():
        if all(side.has_any for side in _sides(policy)) and condition_of(policy) is None:
            yield name, Lint(ANY_ANY, f"this policy matches each request, and the filter {'denies' if is_deny else 'lets pass'} all").at(())


def _before(own: List[_Side], earlier: Dict[str, List[_Side]]):
    """The name of the first earlier policy that matches whatever a policy does, or None."""
    for name, sides in earlier.items():
        if all(side.holds(other) for side, other in zip(sides, own)):
            return name
    return None
