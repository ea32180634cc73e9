"""Notes that the solver finds: policies, rules and conditions that decide nothing, and what an absent part opens under DENY.

This needs the solver's package. A question that is not decided in time has no note.
"""
import time
from typing import Dict, Iterator, List, NamedTuple, Optional, Tuple

import z3

from ..cel.tree import Node, is_call
from ..compare.leaves import Leaf, Policy, policies_of, rule_of
from ..compare.spaces import AUTHORITY, PEER, Presence
from ..conditions_typing import condition_of
from ..meaning.automata import Automata
from ..meaning.children import worked
from ..meaning.domains import SERVER_NAME, header_text
from ..meaning.formulas import FALSE, either, is_false, no
from ..meaning.questions import NotDecided, Reading, Search, read
from ..meaning.terms import NotModelled
from ..messages import Message
from .names import CONSTANT, MISSING, NEEDLESS, NEEDLESS_POLICY, NEVER, NEVER_FIRST, Lint

DENY = 1
POLICIES = ("rules", "policies")
SETS = {"and_rules": "rules", "or_rules": "rules", "and_ids": "ids", "or_ids": "ids"}
SIDES = ("permissions", "principals")
# The seconds for all questions to a filter, and for one.
SECONDS, SECONDS_A_QUESTION = 4.0, 1.0
# Of longer lists of rules, no rule is asked for.
MOST_RULES = 16
NO_REQUEST = "no request meets this policy: its permissions, principals and condition exclude each other"


class Remark(NamedTuple):
    """A note on a part of a filter, or on the part of a condition of that number in the order of its operands."""

    path: tuple
    lint: Lint
    operand: Optional[int] = None


def remarks(message: Message) -> List[Remark]:
    """The notes on a filter that the engine admits."""
    policies = policies_of(message)
    is_deny = message.get("rules").scalar("action") == DENY
    questions = Questions(policies, is_deny)
    found, _ = worked(questions.remarks, SECONDS)
    return found


def operands(node: Node) -> Iterator[Node]:
    """A condition and the operands of its `&&`, `||` and `!`, outside of loops."""
    yield node
    if is_call(node, "_&&_", 2) or is_call(node, "_||_", 2) or is_call(node, "!_", 1):
        for part in node.args:
            yield from operands(part)


class Questions:
    """The questions to one filter, in the process that decides."""

    def __init__(self, policies: List[Policy], is_deny: bool):
        self.policies, self.is_deny = policies, is_deny
        self.until = time.monotonic() + SECONDS
        self.reading: Reading

    def remarks(self) -> Iterator[Remark]:
        """All notes, as they are found."""
        count = len(self.policies)
        self.reading = self._read()
        before = FALSE
        for policy in self.policies:
            yield from self._of_policy(policy, before)
            before = either(before, self.reading.matches(policy))
        for policy in self.policies:
            for side in SIDES:
                yield from self._of_list(policy.policy.get(side) or [], (*POLICIES, policy.name, side), False)
        if self.is_deny and len(self.policies) == count:
            yield from self._opened(before)

    def _read(self) -> Reading:
        """A reading of the policies that the model can say; the others are left out from now on."""
        try:
            return read(Automata, lambda reading: [reading.matches(one) for one in self.policies])
        except NotModelled:
            self.policies = list(filter(_is_readable, self.policies))
            return read(Automata, lambda reading: [reading.matches(one) for one in self.policies])

    def _is_none(self, *formulas: z3.BoolRef) -> bool:
        """Whether surely no request meets formulas."""
        until = min(self.until, time.monotonic() + SECONDS_A_QUESTION)
        try:
            return Search(self.reading, list(formulas), until).next() is None
        except (NotDecided, NotModelled):
            return False

    def _of_policy(self, policy: Policy, before: z3.BoolRef) -> Iterator[Remark]:
        """The notes on a policy as a whole, and on its condition."""
        path, matches = (*POLICIES, policy.name), self.reading.matches(policy)
        constants = list(self._constants(policy, path))
        yield from constants
        if self._is_none(matches):
            if not any(one.operand == 0 and one.lint.name == NEVER for one in constants):
                yield Remark(path, Lint(NEVER, NO_REQUEST))
            return
        if not is_false(before) and self._is_none(matches, no(before)):
            words = f'policy "{policy.name}" is never the first to match: earlier ones match whatever it matches'
            yield Remark(path, Lint(NEVER_FIRST, words))
            return
        others = either(*(self.reading.matches(one) for one in self.policies if one is not policy))
        if not is_false(others) and self._is_none(matches, no(others)):
            words = f'policy "{policy.name}" changes no verdict: others match whatever it matches'
            yield Remark(path, Lint(NEEDLESS_POLICY, words))

    def _constants(self, policy: Policy, path: tuple) -> Iterator[Remark]:
        """The notes on parts of a condition that are the same for each request; of such a part no operand is noted."""
        condition = condition_of(policy.policy)
        if condition is None:
            return
        noted: List[Node] = []
        for number, node in enumerate(operands(condition.tree())):
            if any(node is part for whole in noted for part in operands(whole)):
                continue
            lint = self._constant(node)
            if lint is not None:
                noted.append(node)
                yield Remark((*path, *condition.path), lint, number)

    def _constant(self, node: Node) -> Optional[Lint]:
        true, error = self.reading.tree(node)
        if self._is_none(true):
            return Lint(NEVER, "this is true for no request")
        if self._is_none(no(true)):
            return Lint(CONSTANT, "this is true for each request")
        if self._is_none(no(true), no(error)):
            return Lint(CONSTANT, "this is true for each request, or an error")
        return None

    def _of_list(self, rules: List[Message], path: tuple, are_all: bool) -> Iterator[Remark]:
        """The notes on rules that change nothing beside the others of their list."""
        formulas = [self.reading.rules.matches(rule_of(rule)) for rule in rules]
        needless: List[int] = []
        for number, rule in enumerate(rules if 1 < len(rules) <= MOST_RULES else []):
            others = [one for other, one in enumerate(formulas) if other != number and other not in needless]
            asked = [*others, no(formulas[number])] if are_all else [formulas[number], no(either(*others))]
            if others and not rule.get("any") and self._is_none(*asked) and not self._is_none(formulas[number]):
                needless.append(number)
                words = "the others match no more without it" if are_all else "the others match whatever it matches"
                yield Remark((*path, number), Lint(NEEDLESS, f"this decides nothing: {words}"))
        for number, rule in enumerate(rules):
            yield from self._inside(rule, (*path, number))

    def _inside(self, rule: Message, path: tuple) -> Iterator[Remark]:
        """The notes on the rules in a rule."""
        for member, held in rule.values.items():
            if member in SETS:
                inner = held.get(SETS[member]) or []
                yield from self._of_list(inner, (*path, member, SETS[member]), member.startswith("and"))
            elif member in ("not_rule", "not_id"):
                yield from self._inside(held, (*path, member))

    def _opened(self, denies: z3.BoolRef) -> Iterator[Remark]:
        """The notes on tests of parts that may be absent, where their absence lets a denied request pass."""
        seen: Dict[str, bool] = {}
        for path, leaf in self._leaves():
            name = _optional(leaf)
            if name is None or name in seen:
                continue
            seen[name] = True
            present = self.reading.request.present(name)
            absent = z3.substitute(denies, (present, FALSE))
            if self._is_some(present, denies, no(absent)):
                yield Remark(path, Lint(MISSING, _opening(name, leaf)))

    def _is_some(self, *formulas: z3.BoolRef) -> bool:
        """Whether surely a request meets formulas."""
        try:
            return Search(self.reading, list(formulas), min(self.until, time.monotonic() + SECONDS_A_QUESTION)).next() is not None
        except (NotDecided, NotModelled):
            return False

    def _leaves(self) -> Iterator[Tuple[tuple, Leaf]]:
        """The leaves of all rules, each with its path."""
        for policy in self.policies:
            for side in SIDES:
                for number, rule in enumerate(policy.policy.get(side) or []):
                    yield from _leaves_in(rule, (*POLICIES, policy.name, side, number))


def _is_readable(policy: Policy) -> bool:
    """Whether the model can say a policy."""
    try:
        read(Automata, lambda reading: reading.matches(policy))
        return True
    except NotModelled:
        return False


def _leaves_in(rule: Message, path: tuple) -> Iterator[Tuple[tuple, Leaf]]:
    for member, held in rule.values.items():
        if member in SETS:
            for number, inner in enumerate(held.get(SETS[member]) or []):
                yield from _leaves_in(inner, (*path, member, SETS[member], number))
        elif member in ("not_rule", "not_id"):
            yield from _leaves_in(held, (*path, member))
        else:
            found = rule_of(rule)
            if isinstance(found, Leaf):
                yield (*path, member), found


def _optional(leaf: Leaf) -> Optional[str]:
    """The variable of the part that a test of a value reads and that may be absent, or None."""
    if isinstance(leaf.probe, Presence) or leaf.empty or leaf.dimension in (AUTHORITY, PEER):
        return None
    if leaf.dimension[0] == "header":
        return header_text(leaf.dimension[1])
    is_fact = leaf.dimension[0] == "fact" and leaf.dimension[1] not in ("request.scheme", SERVER_NAME)
    return leaf.dimension[1] if is_fact else None


def _opening(name: str, leaf: Leaf) -> str:
    """The words on a part whose absence lets a request pass."""
    if leaf.dimension[0] != "header":
        return f"a connection without the fact {name} is not matched by this, and DENY lets it through"
    header = leaf.dimension[1]
    inverted = ", inverted or not" if leaf.invert else ""
    instead = f"to deny it too write a rule `not_rule: {{header: {{name: {header}}}}}` beside this"
    return f"a request without the header {header} is not matched by this{inverted}, and DENY lets it through; {instead}"

