"""Notes on filters that are admitted and may not mean what their writer meant."""
from typing import List

from ..conditions_typing import condition_of
from ..findings import Finding
from ..messages import Message
from ..placing import node_places
from .of_conditions import remarks_of
from .of_paths import Paths
from .of_policies import matches_all, never_first
from .of_rules import rule_notes

DENY, LOG = 1, 2
POLICIES = ("rules", "policies")


def notes(message: Message, encoding) -> List[Finding]:
    """The notes on a filter; `encoding` knows the places of a text's parts, and is None for bytes.

    Policies with mistakes have no notes.
    """
    rules = message.get("rules")
    if rules is None or not rules.is_whole:
        return []
    wrong = [] if encoding is None else encoding.wrong
    if any(path == POLICIES[: len(path)] for path in wrong):
        return []
    is_deny = rules.scalar("action") == DENY and ("rules", "action") not in wrong
    left_out = {path[2] for path in wrong if path[:2] == POLICIES}
    policies = {name: policy for name, policy in rules.get("policies") or [] if name not in left_out}
    paths = Paths(policies.values(), is_deny)
    found = [one for name, policy in policies.items() for one in rule_notes(policy, (*POLICIES, name), paths)]
    of_policies = [*never_first(policies), *(matches_all(policies, is_deny) if rules.scalar("action") != LOG else [])]
    found += [note._replace(path=(*POLICIES, name)) for name, note in of_policies]
    found = [one if encoding is None else one._replace(place=encoding.place_of(one.path)) for one in found]
    for name, policy in policies.items():
        found += remarks_of(policy, paths, (*POLICIES, name), encoding)
    return found


def solved_notes(message: Message, encoding, found: List[Finding]) -> List[Finding]:
    """The notes that the solver finds on a filter that is admitted, beside those that were found without it."""
    # it needs the solver's package
    from . import of_meaning

    notes_ = [_solved(remark, message, encoding) for remark in of_meaning.remarks(message)]
    return [note for note in notes_ if not any(_are_same(note, other) for other in found)]


def _solved(remark, message: Message, encoding) -> Finding:
    """The note of a remark, at its place."""
    from .of_meaning import operands

    found = remark.lint.at(remark.path)
    if encoding is None:
        return found
    if remark.operand is None:
        return found._replace(place=encoding.place_of(remark.path))
    condition = condition_of(dict(message.get("rules").get("policies"))[remark.path[2]])
    tree = condition.tree()
    node = list(operands(tree))[remark.operand]
    return found._replace(place=node_places(tree, remark.path, encoding).get(node))


def _are_same(note: Finding, other: Finding) -> bool:
    """Whether two notes of one name are on the same part, or one on a part of the other's."""
    shorter = min(len(note.path), len(other.path))
    return note.lint == other.lint and note.path[:shorter] == other.path[:shorter]
