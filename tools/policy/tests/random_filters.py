"""Random filters, written by libprotobuf: a second encoder beside the tool's own.

The same seed gives the same filters. `profile` keeps to members that the engine supports and to values that it takes;
without it any member and any value comes.
"""
import random
import string

from google.protobuf import message_factory
from google.protobuf.descriptor import FieldDescriptor

from policies import messages

WORDS = [
    "",
    "a",
    "GET",
    "/api/",
    "x-user",
    "é",
    "a b",
    "yes",
    "12",
    "null",
    "1e3",
    "# no",
    "- x",
    "a: b",
    '"q"',
    "\n",
    "~",
]
ADDRESSES = [("10.0.0.0", 32), ("255.0.0.1", 32), ("::", 128), ("2001:db8::", 128), ("1:2:3:4:5:6:7::", 128)]
UNSUPPORTED = {
    "metadata",
    "matcher",
    "source_ip",
    "filter_state",
    "safe_regex",
    "safe_regex_match",
    "audit_logging_options",
    "condition",
    "shadow_rules",
    "shadow_rules_stat_prefix",
}
NEVER_EMPTY = {"prefix", "suffix", "contains", "prefix_match", "suffix_match", "contains_match", "name"}
FACTORY = {}


def new(name):
    """An empty message of libprotobuf by its full name."""
    if name not in FACTORY:
        FACTORY[name] = message_factory.MessageFactory().GetPrototype(messages.descriptor(name))
    return FACTORY[name]()


class Maker:
    """Makes random filters."""

    def __init__(self, seed, profile):
        self.random = random.Random(seed)
        self.profile = profile

    def filter_bytes(self):
        """The bytes of a random filter."""
        made = new(messages.FILTER)
        made.rules.SetInParent()
        if self.profile:
            self._rules(made.rules)
        else:
            self._fill(made, 0)
        return made.SerializeToString(deterministic=True)

    def word(self, can_be_empty=True):
        """A short text."""
        if self.random.random() < 0.5:
            word = self.random.choice(WORDS)
        else:
            letters = string.ascii_letters + string.digits + " -_.:/#'\"\\\té\u20ac\U0001f600"
            word = "".join(self.random.choice(letters) for _ in range(self.random.randrange(12)))
        return word or ("" if can_be_empty else "w")

    def number(self, low, high):
        """A number, often a small one or one at an end."""
        near = [low, high, 0, 1, 2, 127, 128, 300, self.random.randint(low, high)]
        return min(max(self.random.choice(near), low), high)

    def _rules(self, rules):
        rules.action = self.random.randrange(3)
        for _ in range(self.random.randrange(4)):
            policy = rules.policies[self.word()]
            del policy.permissions[:], policy.principals[:]
            for _ in range(1 + self.random.randrange(2)):
                self._rule(policy.permissions.add(), 1)
                self._rule(policy.principals.add(), 1)
            policy.ClearField("checked_condition")
            policy.ClearField("condition")
            if self.random.random() < 0.7:
                self.condition(policy)

    def _rule(self, rule, depth):
        """A permission or a principal that the engine takes."""
        members = [field for field in rule.DESCRIPTOR.fields if field.name not in UNSUPPORTED]
        if depth > 4:
            members = [field for field in members if field.name not in ("and_rules", "or_rules", "and_ids", "or_ids")]
        field = self.random.choice(members)
        name = field.name
        if name == "any":
            rule.any = True
        elif name in ("and_rules", "or_rules", "and_ids", "or_ids"):
            parts = getattr(rule, name)
            for _ in range(1 + self.random.randrange(3)):
                self._rule((parts.rules if "rules" in name else parts.ids).add(), depth + 1)
        elif name in ("not_rule", "not_id"):
            self._rule(getattr(rule, name), depth + 1)
        elif name == "destination_port":
            rule.destination_port = self.number(0, 65535)
        elif name == "destination_port_range":
            start = self.number(0, 65535)
            rule.destination_port_range.start, rule.destination_port_range.end = start, self.number(start + 1, 65536)
        elif field.message_type.name == "CidrRange":
            address, bits = self.random.choice(ADDRESSES)
            getattr(rule, name).address_prefix = address
            if self.random.random() < 0.7:
                getattr(rule, name).prefix_len.value = self.number(0, bits)
        else:
            self._leaf(getattr(rule, name))

    def _leaf(self, part):
        """A matcher of texts, paths, headers or peers."""
        part.SetInParent()
        kind = part.DESCRIPTOR.name
        if kind == "PathMatcher":
            self._leaf(part.path)
        elif kind == "Authenticated":
            if self.random.random() < 0.7:
                self._leaf(part.principal_name)
        elif kind == "HeaderMatcher":
            part.name = self.word(False)
            part.invert_match = self.random.random() < 0.3
            part.treat_missing_header_as_empty = self.random.random() < 0.3
            self._member(part, "header_match_specifier", may_be_absent=True)
        else:
            part.ignore_case = self.random.random() < 0.3
            self._member(part, "match_pattern", may_be_absent=False)

    def _member(self, part, oneof, may_be_absent):
        members = [field for field in part.DESCRIPTOR.oneofs_by_name[oneof].fields if field.name not in UNSUPPORTED]
        field = self.random.choice(members + [None] * may_be_absent)
        if field is None:
            return
        if field.name == "string_match":
            self._leaf(part.string_match)
        elif field.name == "range_match":
            part.range_match.start, part.range_match.end = self.number(-(2**63), 2**63 - 1), self.number(-5, 5)
        elif field.type == FieldDescriptor.TYPE_BOOL:
            setattr(part, field.name, self.random.random() < 0.5)
        else:
            setattr(part, field.name, self.word(field.name not in NEVER_EMPTY))

    def condition(self, policy):
        """A condition: a tree of a text mostly, sometimes with other ids or a form that no text has; a checked one may
        have entries."""
        from random_trees import TreeMaker

        maker = TreeMaker(self)
        if self.random.random() < 0.3:
            maker.unchecked(policy.condition)
        else:
            maker.checked(policy.checked_condition)

    def _fill(self, message, depth):
        """Any values in any fields."""
        for field in message.DESCRIPTOR.fields:
            if self.random.random() < (0.5 if depth < 6 else 0.1):
                self._fill_field(message, field, depth)

    def _fill_field(self, message, field, depth):
        if messages.is_map(field):
            for _ in range(self.random.randrange(3)):
                self._fill_entry(getattr(message, field.name), field.message_type, depth)
        elif field.label == FieldDescriptor.LABEL_REPEATED:
            for _ in range(self.random.randrange(3)):
                if field.message_type is None:
                    getattr(message, field.name).append(self._scalar(field))
                else:
                    self._fill(getattr(message, field.name).add(), depth + 1)
        elif field.message_type is None:
            setattr(message, field.name, self._scalar(field))
        elif depth < 12:
            getattr(message, field.name).SetInParent()
            self._fill(getattr(message, field.name), depth + 1)

    def _fill_entry(self, entries, entry, depth):
        key = self._scalar(entry.fields_by_name["key"])
        if entry.fields_by_name["value"].message_type is None:
            entries[key] = self._scalar(entry.fields_by_name["value"])
        else:
            self._fill(entries[key], depth + 1)

    def _scalar(self, field):
        if field.type == FieldDescriptor.TYPE_STRING:
            if field.name == "type_url":
                return self.random.choice(
                    ["type.googleapis.com/" + messages.EXTENSION, "x", "type.googleapis.com/no.T"]
                )
            return self.word()
        if field.type == FieldDescriptor.TYPE_BYTES:
            return self.random.choice([b"", b"\x00", b"\xff\xfe", b"abc", bytes(range(256))])
        if field.type == FieldDescriptor.TYPE_BOOL:
            return self.random.random() < 0.5
        if field.type == FieldDescriptor.TYPE_DOUBLE:
            return self.random.choice([0.0, -0.0, 1.5, -1e300, 5e-324, float("inf"), float("-inf"), float("nan")])
        if field.type == FieldDescriptor.TYPE_ENUM:
            return 0 if messages.is_null(field) else self.number(0, len(field.enum_type.values))
        bits = 32 if field.type in (FieldDescriptor.TYPE_INT32, FieldDescriptor.TYPE_UINT32) else 64
        signed = field.type in (FieldDescriptor.TYPE_INT32, FieldDescriptor.TYPE_INT64)
        return self.number(-(2 ** (bits - 1)) if signed else 0, 2 ** (bits - 1) - 1 if signed else 2**bits - 1)
