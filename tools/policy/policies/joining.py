"""Policies of one filter as fewer policies that together match the same requests.

A policy matches if one of its permissions, one of its principals and its condition do. So policies of equal principals and
the same condition match together what one policy with the permissions of all of them does, and the other way round. Each
request has the same verdict; the policy that is reported is the joined one.
"""
from typing import Dict, List, NamedTuple, Tuple

from .messages import Message
from .writer import PLAIN

SIDES = ("permissions", "principals")
CONDITIONS = ("condition", "checked_condition")
# A comment on a part: its path in the filter, and words.
Comment = Tuple[tuple, str]


class Rule(NamedTuple):
    """A permission or a principal, and the names of the policies that have it."""

    message: Message
    names: List[str]


class Joint:
    """One policy or several that are joined: their names, the rules of each side by their bytes, and the condition."""

    def __init__(self, name: str, policy: Message):
        self.names = [name]
        self.kind = policy.kind
        self.sides: List[Dict[bytes, Rule]] = []
        for side in SIDES:
            self.sides.append({PLAIN.write(rule): Rule(rule, [name]) for rule in policy.get(side) or []})
        self.conditions = {field: policy.get(field) for field in CONDITIONS if policy.get(field) is not None}

    def key(self, side: int) -> tuple:
        """What policies that may be joined have in common: the rules of a side, and the condition."""
        conditions = tuple((field, PLAIN.write(part)) for field, part in self.conditions.items())
        return frozenset(self.sides[side]), conditions

    def add(self, other: "Joint") -> None:
        """Joins another policy, which has the same rules on one side, and the same condition."""
        self.names += other.names
        for rules, more in zip(self.sides, other.sides):
            for data, rule in more.items():
                known = rules.setdefault(data, Rule(rule.message, []))
                known.names.extend(name for name in rule.names if name not in known.names)

    def policy(self) -> Message:
        """The policy that they are together."""
        message = Message(self.kind)
        for side, rules in zip(SIDES, self.sides):
            message.values[side] = [rule.message for rule in rules.values()]
        message.values.update(self.conditions)
        return message

    def comments(self, path: tuple) -> List[Comment]:
        """The names of the policies that it joins, and of those that a rule is from, if it is not from all."""
        found: List[Comment] = [(path, "joins " + ", ".join(self.names))] if len(self.names) > 1 else []
        for side, rules in zip(SIDES, self.sides):
            for index, rule in enumerate(rules.values()):
                if len(rule.names) < len(self.names):
                    found.append(((*path, side, index), "from " + ", ".join(rule.names)))
        return found


def join(message: Message) -> Tuple[Message, List[Comment]]:
    """The filter with its policies joined as far as they can be, and the comments that keep their names."""
    rules = message.get("rules")
    policies = dict(rules.get("policies") or [])
    joints = [Joint(name, policies[name]) for name in sorted(policies, key=str.encode)]
    before = len(joints) + 1
    while len(joints) < before:
        before = len(joints)
        for side in (1, 0):
            joints = _joined(joints, side)
    made = Message(message.kind)
    made.values = dict(message.values)
    made.values["rules"] = inner = Message(rules.kind)
    inner.values = {**rules.values, "policies": [(joint.names[0], joint.policy()) for joint in joints]}
    comments = [found for joint in joints for found in joint.comments(("rules", "policies", joint.names[0]))]
    return made, comments


def _joined(joints: List[Joint], side: int) -> List[Joint]:
    """Policies joined that have equal rules on a side."""
    known: Dict[tuple, Joint] = {}
    for joint in joints:
        key = joint.key(side)
        if key in known:
            known[key].add(joint)
        else:
            known[key] = joint
    return list(known.values())
