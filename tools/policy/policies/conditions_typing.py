"""The types and the costs of conditions in messages, each worked out once for a message."""
from typing import Dict, List, NamedTuple, Optional

from .cel.check import NO_KIND, References, TypeEntries, Typing, check
from .cel.cost import TooMuch, cost
from .cel.limits import is_within_limits
from .cel.tree import Node
from .messages import EXPR, Message
from .trees import NoTree, message_tree, message_type


def entries_of(checked: Message) -> TypeEntries:
    """The entries of a checked condition's type map that can be read, by id."""
    entries = {}
    for number, kind in checked.get("type_map") or []:
        known = message_type(kind)
        if kind.which("type_kind") == "dyn":
            entries[number] = ("dyn",)
        elif is_unsupported(kind):
            entries[number] = NO_KIND
        elif known is not None:
            entries[number] = known
    return entries


def is_unsupported(kind: Message) -> bool:
    """Whether a type that can be read is, anywhere inside, of a kind that the engine does not have."""
    known = message_type(kind)
    return _holds_unsupported(known) if known is not None else kind.is_whole and not kind.faults


def _holds_unsupported(kind: tuple) -> bool:
    if kind[0] in ("dyn", "double"):
        return True
    if kind[0] == "map" and kind[1][0] not in ("bool", "int", "uint", "string"):
        return True
    return any(map(_holds_unsupported, kind[1:]))


def references_of(checked: Message) -> References:
    """The names of a checked condition's references, by id, each with whether it holds a value."""
    entries = checked.get("reference_map") or []
    return {number: (part.scalar("name"), part.get("value") is not None) for number, part in entries}


def typing_of(condition: Message) -> Optional[Typing]:
    """The types of a condition's tree and its faults, or None where it has no tree that the engine would read."""
    return condition.kept("typing", lambda: _typing(condition))


def _typing(condition: Message) -> Optional[Typing]:
    is_unchecked = condition.kind.full_name == EXPR
    tree = tree_of(condition if is_unchecked else condition.get("expr"))
    if tree is None or not is_within_limits(tree):
        return None
    if is_unchecked:
        return check(tree, None, {})
    return check(tree, entries_of(condition), references_of(condition))


def tree_of(expr: Optional[Message]) -> Optional[Node]:
    """The tree of an `Expr`, or None where it does not read."""
    return None if expr is None else expr.kept("tree", lambda: _tree(expr))


def _tree(expr: Message) -> Optional[Node]:
    try:
        return message_tree(expr)
    except NoTree:
        return None


class Condition(NamedTuple):
    """A policy's condition: its message, that of its tree, and the steps from the policy to the tree."""

    message: Message
    expr: Optional[Message]
    path: tuple

    def tree(self) -> Optional[Node]:
        """Its tree, or None where it does not read."""
        return tree_of(self.expr)


def condition_of(policy: Message) -> Optional[Condition]:
    """The condition of a policy, the checked one where it has both, or None."""
    checked, unchecked = policy.get("checked_condition"), policy.get("condition")
    if checked is not None:
        return Condition(checked, checked.get("expr"), ("checked_condition", "expr"))
    return None if unchecked is None else Condition(unchecked, unchecked, ("condition",))


class Bound(NamedTuple):
    """How many steps the condition of a policy may take, None where that is above the greatest budget; and the condition's path
    in the policy, None where there is no condition."""

    policy: str
    steps: Optional[int]
    condition: Optional[tuple]


def bounds_of(message: Message) -> List[Bound]:
    """The bounds of a filter's conditions that have a type, by ascending name of their policies."""
    return message.kept("bounds", lambda: _bounds(message))


def _bounds(message: Message) -> List[Bound]:
    rules = message.get("rules")
    policies: Dict[str, Message] = dict(rules.get("policies") or []) if rules is not None and rules.is_whole else {}
    bounds = []
    for name in sorted(policies, key=str.encode):
        condition = condition_of(policies[name])
        if condition is None:
            bounds.append(Bound(name, 0, None))
            continue
        typing = typing_of(condition.message)
        if typing is not None and typing.is_whole:
            bounds.append(Bound(name, _steps(condition, typing), condition.path))
    return bounds


def _steps(condition: Condition, typing: Typing) -> Optional[int]:
    """How many steps a condition may take, or None where that is above the greatest budget."""

    def made() -> Optional[int]:
        try:
            return cost(condition.tree(), typing.types)
        except TooMuch:
            return None

    return condition.message.kept("steps", made)
