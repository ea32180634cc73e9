"""The leaves of a filter's rules: which dimension of a request each tests, and how."""
import ipaddress
from functools import cached_property
from typing import Dict, Iterator, List, NamedTuple, Optional, Tuple, Union

from ..messages import PERMISSION, Message
from .spaces import AUTHORITY, METHOD, PEER, TARGET, Dimension, Presence, Probe, Span
from .texts import CONTAINS, EXACT, PREFIX, SUFFIX, TextTest, lower_ascii

PSEUDO = {":method": METHOD, ":path": TARGET, ":authority": AUTHORITY, ":scheme": ("fact", "request.scheme")}
SERVER_NAME, PORT = ("fact", "connection.requested_server_name"), ("fact", "destination.port")
OLD_TESTS = {"exact_match": EXACT, "prefix_match": PREFIX, "suffix_match": SUFFIX, "contains_match": CONTAINS}
KINDS = (EXACT, PREFIX, SUFFIX, CONTAINS)


class Leaf(NamedTuple):
    """A test of one dimension. Of a header, `invert` turns the answer of a value that is present, and `empty` lets a missing
    one be the empty text."""

    dimension: Dimension
    probe: Probe
    invert: bool = False
    empty: bool = False


class Any(NamedTuple):
    """The rule that always matches."""


class Group(NamedTuple):
    """A rule that asks for all of some rules, for one of them, or for none (`not`, of one)."""

    kind: str
    rules: tuple


Rule = Union[Leaf, Any, Group]
ALL, ONE, NONE_OF = "all", "one", "none"


def rule_of(message: Message) -> Rule:
    """A permission or a principal of a filter that is admitted."""
    member = message.which("rule" if message.kind.full_name == PERMISSION else "identifier") or ""
    held = message.get(member)
    if member == "any":
        return Any()
    if member in ("and_rules", "and_ids", "or_rules", "or_ids"):
        rules = held.get("rules") or held.get("ids")
        return Group(ALL if member.startswith("and") else ONE, tuple(map(rule_of, rules)))
    if member in ("not_rule", "not_id"):
        return Group(NONE_OF, (rule_of(held),))
    return _leaf(member, held)


def _leaf(member: str, held) -> Rule:
    if member == "header":
        return _header(held)
    if member == "url_path":
        return Leaf(TARGET, _text(held.get("path"), of_path=True))
    if member == "authenticated":
        name = held.get("principal_name")
        return Leaf(PEER, Presence() if name is None else _text(name))
    if member == "destination_port":
        return Leaf(PORT, Span(held, held + 1))
    if member == "destination_port_range":
        return Leaf(PORT, Span(held.scalar("start"), held.scalar("end")))
    if member == "requested_server_name":
        return Leaf(SERVER_NAME, _text(held))
    length = held.get("prefix_len")
    bits = 0 if length is None else length.scalar("value")
    return Leaf(("fact", member), ipaddress.ip_network(f"{held.scalar('address_prefix')}/{bits}", strict=False))


def _text(matcher: Message, of_path: bool = False) -> TextTest:
    kind = matcher.which("match_pattern")
    return TextTest(kind, matcher.get(kind), bool(matcher.scalar("ignore_case")), of_path)


def _header(matcher: Message) -> Rule:
    name = lower_ascii(matcher.scalar("name"))
    dimension = PSEUDO.get(name, ("header", name))
    invert, empty = bool(matcher.scalar("invert_match")), bool(matcher.scalar("treat_missing_header_as_empty"))
    member = matcher.which("header_match_specifier")
    if member in (None, "present_match"):
        wanted = member is None or bool(matcher.get(member))
        return Leaf(dimension, Presence(), wanted == invert)
    if member in OLD_TESTS:
        return Leaf(dimension, TextTest(OLD_TESTS[member], matcher.get(member)), invert, empty)
    if member == "string_match":
        return Leaf(dimension, _text(matcher.get(member)), invert, empty)
    span = matcher.get(member)
    return Leaf(dimension, Span(span.scalar("start"), span.scalar("end")), invert, empty)


class Policy:
    """A policy: its name, its message, and the rules of each side, which are made once they are asked for."""

    def __init__(self, name: str, policy: Message):
        self.name, self.policy = name, policy

    @cached_property
    def permissions(self) -> Tuple[Rule, ...]:
        """The rules of what is asked for."""
        return tuple(map(rule_of, self.policy.get("permissions") or []))

    @cached_property
    def principals(self) -> Tuple[Rule, ...]:
        """The rules of who asks."""
        return tuple(map(rule_of, self.policy.get("principals") or []))


def policies_of(message: Message) -> List[Policy]:
    """The policies of a filter, by ascending name; none if it has no rules, which the engine refuses."""
    rules = message.get("rules")
    held: Dict[str, Message] = dict((rules.get("policies") if rules is not None else None) or [])
    return [Policy(name, held[name]) for name in sorted(held, key=str.encode)]


def leaves_of(rules: Tuple[Rule, ...]) -> Iterator[Leaf]:
    """The leaves of some rules."""
    for rule in rules:
        if isinstance(rule, Leaf):
            yield rule
        elif isinstance(rule, Group):
            yield from leaves_of(rule.rules)


def holds(leaf: Leaf, value: object) -> Optional[bool]:
    """Whether a leaf holds of a value of its dimension."""
    probe = leaf.probe
    if leaf.dimension == PEER:
        is_known = bool(value.mtls)
        return is_known and (isinstance(probe, Presence) or value.name is not None and probe.passes(value.name))
    if isinstance(probe, Presence):
        return (value is not None) != leaf.invert
    if leaf.dimension == SERVER_NAME or leaf.empty and value is None:
        value = value or ""
    if value is None:
        return False
    return _passes(probe, value) != leaf.invert


def _passes(probe: Probe, value) -> bool:
    if isinstance(probe, TextTest):
        return probe.passes(value)
    if isinstance(probe, Span):
        number = _number(value)
        return number is not None and probe.start <= number < probe.end
    address = ipaddress.ip_address(value)
    return address.version == probe.version and address in probe


def _number(value: Union[int, str]) -> Optional[int]:
    """The number of 64 bits that a value is or spells."""
    if isinstance(value, int):
        return value
    digits = value[1:] if value[:1] in ("+", "-") else value
    if not (digits.isascii() and digits.isdigit()):
        return None
    number = int(value)
    return number if -(2**63) <= number < 2**63 else None
