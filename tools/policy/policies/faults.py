"""The faults that the engine finds in single messages of a filter, with its numbers for them."""
import ipaddress
from typing import Callable, Dict, Iterator, NamedTuple, Optional, Tuple, Union

from .conditions_typing import tree_of, typing_of
from .messages import (
    CHECKED_EXPR,
    CONSTANT,
    EXPR,
    FILTER,
    HEADER,
    MATCHER,
    PERMISSION,
    POLICY,
    PRINCIPAL,
    RULES,
    TYPE,
    Message,
    name_of,
)
from .reader import BAD_TEXT
from .trees import node_paths

MISSING, OUT_OF_RANGE, UNSUPPORTED, BOTH_CONDITIONS, TOO_LARGE = 4, 5, 6, 7, 8
MOST_POLICIES = 256
NO_RULES = "a filter without rules, by which Envoy lets every request pass: write `rules`, or leave the filter out"
TOO_MANY_POLICIES = f"more than {MOST_POLICIES} policies: `policy join` joins those of equal principals or permissions"
DENY = 1
# Each filter of a chain has to let a request pass.
OF_A_CHAIN = {True: "; or write several filters, which deny what one of them does", False: "; several filters are not the same"}
NOT_ANY = "`any` is true or is not there: for none write `not_rule` or `not_id` around it"
TESTS = "`exact`, `prefix`, `suffix` or `contains`"
ANY_TEXT = " is in every text: for a header leave out the test, else write `any: true`"
NO_ADDRESS = "this text is no address, such as 10.0.0.0 or 2001:db8::, whose length is in prefix_len"


class Fault(NamedTuple):
    """A fault: its field (with the key of its entry, or none for the whole message), the offset of its bytes, the number,
    words, and the name of the field that a policy lacks."""

    field: Union[None, str, tuple]
    place: int
    number: int
    words: str
    about: str = ""


# What a check finds: the members of a fault.
Finding = Union[Tuple[Union[None, str, tuple], int, int, str], Fault]
Check = Callable[[Message], Iterator[Finding]]


def faults(message: Message) -> Iterator[Fault]:
    """The faults of a message's own values."""
    return (Fault(*found) for found in CHECKS.get(name_of(message.kind), _nothing)(message))


def _nothing(message: Message) -> Iterator[Finding]:
    return iter(())


def _filter(message: Message) -> Iterator[Finding]:
    if message.get("rules") is None:
        yield None, message.start, MISSING, NO_RULES


def _rules(message: Message) -> Iterator[Finding]:
    if not 0 <= message.scalar("action") <= 2:
        yield "action", message.place_of("action"), OUT_OF_RANGE, "there is no such action: it is ALLOW, DENY or LOG"
    if len(message.get("policies") or []) > MOST_POLICIES:
        words = TOO_MANY_POLICIES + OF_A_CHAIN[message.scalar("action") == DENY]
        yield None, message.start, TOO_LARGE, words


def _policy(message: Message) -> Iterator[Finding]:
    for name in ("permissions", "principals"):
        if not message.get(name):
            words = f"a policy without {name}: `{name}: [{{any: true}}]` takes all"
            yield Fault(None, message.start, MISSING, words, name)
    if message.get("condition") is None:
        return
    if message.get("checked_condition") is not None:
        yield "condition", message.place_of("condition"), BOTH_CONDITIONS, "both conditions are there: leave out one"
    else:
        yield from _typed(message.get("condition"), message.get("condition"), ("condition",), {})


def _set(field: str) -> Check:
    """The check of a set of rules."""

    def check(message: Message) -> Iterator[Finding]:
        if not message.get(field):
            yield None, message.start, MISSING, f"a set without {field}: write one, or leave out the set"

    return check


def _rule(oneof: str) -> Check:
    """The check of a permission or a principal."""

    def check(message: Message) -> Iterator[Finding]:
        member = message.which(oneof)
        if member is None:
            yield None, message.start, MISSING, "a rule without a member: write one, such as `any: true`"
        elif member == "any" and not message.get("any"):
            yield member, message.place_of(member), OUT_OF_RANGE, NOT_ANY
        elif member == "destination_port" and message.get(member) > 65535:
            yield member, message.place_of(member), OUT_OF_RANGE, "a port is at most 65535"
        elif member == "destination_port_range" and message.get(member).is_whole:
            ports = message.get(member)
            if not 0 <= ports.scalar("start") < ports.scalar("end") <= 65536:
                yield member, message.place_of(member), OUT_OF_RANGE, "ports from 0 to 65536, the start below the end"

    return check


def _matcher(message: Message) -> Iterator[Finding]:
    member = message.which("match_pattern")
    if member is None:
        yield None, message.start, MISSING, f"a matcher without a text: write {TESTS}"
    elif member in ("prefix", "suffix", "contains") and message.get(member) == "":
        yield member, message.place_of(member), OUT_OF_RANGE, f"an empty {member}{ANY_TEXT}"


def _path(message: Message) -> Iterator[Finding]:
    if message.get("path") is None:
        yield None, message.start, MISSING, f"a matcher without a path: write `path` with {TESTS}"


def _header(message: Message) -> Iterator[Finding]:
    if not message.scalar("name"):
        yield None, message.start, MISSING, "a header without a name"
    for member in ("prefix_match", "suffix_match", "contains_match"):
        if message.get(member) == "":
            yield member, message.place_of(member), OUT_OF_RANGE, f"an empty {member}{ANY_TEXT}"


def _cidr(message: Message) -> Iterator[Finding]:
    if any(number == BAD_TEXT for _, number, _ in message.faults):
        return
    bits = _address_bits(message.scalar("address_prefix"))
    length = message.get("prefix_len")
    if bits is None:
        field = "address_prefix" if "address_prefix" in message.values else None
        place = message.places.get("address_prefix", message.start)
        yield field, place, OUT_OF_RANGE, _no_address(message.scalar("address_prefix"))
    elif length is not None and length.is_whole and length.scalar("value") > bits:
        words = f"such an address has {bits} bits: prefix_len is at most {bits}"
        yield "prefix_len", message.place_of("prefix_len"), OUT_OF_RANGE, words


def _no_address(text: str) -> str:
    base, slash, length = text.partition("/")
    if slash and length.isdigit() and _address_bits(base) is not None:
        return f"this text is no address: write `address_prefix: {base}` and `prefix_len: {length}`"
    return NO_ADDRESS


def has_address(message: Message) -> bool:
    """Whether a range of addresses begins with an address."""
    return _address_bits(message.scalar("address_prefix")) is not None


def _address_bits(text: str) -> Optional[int]:
    """The bits of the address that a text spells: four decimal numbers, or groups of hexadecimal digits."""
    try:
        if ":" in text:
            return ipaddress.IPv6Address(text).max_prefixlen if not set("%.") & set(text) else None
        return ipaddress.IPv4Address(text).max_prefixlen
    except ValueError:
        return None


def _checked(message: Message) -> Iterator[Finding]:
    if message.get("expr") is None:
        yield None, message.start, MISSING, "a checked condition without a tree: write `text`, or `expr`"
        return
    places = dict(zip([key for key, _ in message.get("type_map") or []], message.places.get("type_map", [])))
    yield from _typed(message, message.get("expr"), ("expr",), places)


def _typed(condition: Message, expr: Message, path: tuple, places: dict) -> Iterator[Finding]:
    """The faults of a condition's types: `path` leads to its tree, and `places` are those of its type entries."""
    typing = typing_of(condition)
    if typing is None or not typing.faults:
        return
    paths = dict(node_paths(tree_of(expr), path))
    for fault in typing.faults:
        if fault.number == UNSUPPORTED:
            yield ("type_map", fault.entry), places.get(fault.entry, condition.start), fault.number, fault.words
        else:
            yield paths[fault.node], fault.node.place, fault.number, fault.words


def _expr(message: Message) -> Iterator[Finding]:
    if message.which("expr_kind") is None:
        yield None, message.start, MISSING, "a node without a kind"


def _constant(message: Message) -> Iterator[Finding]:
    if message.which("constant_kind") is None:
        yield None, message.start, MISSING, "a constant without a value"


def _select(message: Message) -> Iterator[Finding]:
    if message.get("operand") is None:
        yield None, message.start, MISSING, "a select without an operand"


def _struct(message: Message) -> Iterator[Finding]:
    if message.scalar("message_name"):
        yield "message_name", message.place_of("message_name"), UNSUPPORTED, "the engine does not make messages"


def _entry(message: Message) -> Iterator[Finding]:
    if message.which("key_kind") is None or message.get("value") is None:
        yield None, message.start, MISSING, "an entry without a key or a value"
    if message.scalar("optional_entry"):
        place = message.place_of("optional_entry")
        yield "optional_entry", place, UNSUPPORTED, "the engine does not support optional entries"


def _loop(message: Message) -> Iterator[Finding]:
    parts = "iter_var iter_range accu_var accu_init loop_condition loop_step result".split()
    for name in parts:
        if message.get(name) in (None, ""):
            yield None, message.start, MISSING, f"a loop without {name}"
    names = [message.scalar(name) for name in ("iter_var", "iter_var2", "accu_var")]
    for index, name in enumerate(("iter_var2", "accu_var"), 1):
        if names[index] and names[index] in names[:index]:
            yield name, message.place_of(name), OUT_OF_RANGE, "two names of the loop are the same"


def _type(message: Message) -> Iterator[Finding]:
    member = message.which("type_kind")
    part = message.get(member) if member else None
    if member == "primitive" and not 1 <= part <= 6:
        yield member, message.place_of(member), OUT_OF_RANGE, "there is no such type"
    elif member in ("list_type", "map_type") and part.is_whole:
        for name in {"list_type": ["elem_type"], "map_type": ["key_type", "value_type"]}[member]:
            if part.get(name) is None:
                yield member, message.place_of(member), OUT_OF_RANGE, f"a type without {name}"


CHECKS: Dict[str, Check] = {
    FILTER: _filter,
    RULES: _rules,
    POLICY: _policy,
    PERMISSION: _rule("rule"),
    PRINCIPAL: _rule("identifier"),
    PERMISSION + ".Set": _set("rules"),
    PRINCIPAL + ".Set": _set("ids"),
    MATCHER: _matcher,
    "envoy.type.matcher.v3.PathMatcher": _path,
    HEADER: _header,
    "envoy.config.core.v3.CidrRange": _cidr,
    CHECKED_EXPR: _checked,
    EXPR: _expr,
    CONSTANT: _constant,
    EXPR + ".Select": _select,
    EXPR + ".CreateStruct": _struct,
    EXPR + ".CreateStruct.Entry": _entry,
    EXPR + ".Comprehension": _loop,
    TYPE: _type,
}
