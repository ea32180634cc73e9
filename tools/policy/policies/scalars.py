"""Scalars in YAML by the proto3 JSON mapping, both ways.

A text that YAML could take for something else has to be in quotes, as Envoy would refuse it too.
"""
import base64
import binascii
import math
import re
from decimal import Decimal
from typing import Optional

import yaml
from google.protobuf.descriptor import FieldDescriptor

from .messages import is_null

RANGES = {
    FieldDescriptor.TYPE_INT32: (-(2**31), 2**31 - 1),
    FieldDescriptor.TYPE_ENUM: (-(2**31), 2**31 - 1),
    FieldDescriptor.TYPE_INT64: (-(2**63), 2**63 - 1),
    FieldDescriptor.TYPE_UINT32: (0, 2**32 - 1),
    FieldDescriptor.TYPE_UINT64: (0, 2**64 - 1),
}
TAG = "tag:yaml.org,2002:"
TEXT_TAGS = frozenset(TAG + name for name in ("str", "timestamp", "merge", "value"))
CORE_TAGS = TEXT_TAGS | frozenset(TAG + name for name in ("null", "bool", "int", "float"))
NUMBER = re.compile(r"-?(0|[1-9][0-9]*)(\.[0-9]+)?([eE][+-]?[0-9]{1,4})?\Z")
BASE64 = re.compile(r"[A-Za-z0-9+/_-]*={0,2}\Z")
DOUBLES = {"NaN": math.nan, "Infinity": math.inf, "-Infinity": -math.inf}
BOOLS_ELSEWHERE = frozenset("yYnN")
PLAIN = re.compile(r"[A-Za-z_/][A-Za-z0-9_./@+-]*\Z")


class Unfit(Exception):
    """Why a scalar is no value of a field."""


def is_absent(node: yaml.Node) -> bool:
    """Whether a node is null, which leaves a field out."""
    return isinstance(node, yaml.ScalarNode) and node.tag == TAG + "null" and not node.style


def is_text(node: yaml.Node) -> bool:
    """Whether a scalar is a text: in quotes, or nothing that YAML takes for something else."""
    return isinstance(node, yaml.ScalarNode) and (bool(node.style) or node.tag in TEXT_TAGS)


def is_bool(node: yaml.Node) -> bool:
    """Whether a node is true or false."""
    return isinstance(node, yaml.ScalarNode) and not node.style and node.value in ("true", "false")


def read_scalar(field: FieldDescriptor, node: yaml.ScalarNode):
    """The value of a scalar; raises Unfit."""
    if node.tag not in CORE_TAGS:
        raise Unfit(f"the tag {node.tag} has no meaning here")
    if field.type == FieldDescriptor.TYPE_STRING:
        if not is_text(node):
            raise Unfit(f'a text is expected; in quotes this is one: "{node.value}"')
        return node.value
    if field.type == FieldDescriptor.TYPE_BYTES:
        return _read_bytes(node)
    if field.type == FieldDescriptor.TYPE_BOOL:
        return _read_bool(node)
    if field.type == FieldDescriptor.TYPE_ENUM:
        return _read_enum(field, node)
    if field.type == FieldDescriptor.TYPE_DOUBLE:
        return _read_double(node)
    return _read_int(field.type, node.value)


def read_key(field: FieldDescriptor, node: yaml.ScalarNode):
    """The key of a map, which JSON writes as a text whatever its type; raises Unfit."""
    if field.type != FieldDescriptor.TYPE_STRING:
        return _read_int(field.type, node.value)
    if is_absent(node):
        raise Unfit('a name is expected; the empty one is ""')
    return node.value


def _read_bool(node: yaml.ScalarNode) -> bool:
    if is_bool(node):
        return node.value == "true"
    raise Unfit("true or false is expected")


def _read_int(kind: int, text: str) -> int:
    low, high = RANGES[kind]
    wanted = f"a whole number from {low} to {high} is expected"
    if not NUMBER.match(text):
        raise Unfit(wanted)
    number = Decimal(text)
    if number != number.to_integral_value() or not low <= number <= high:
        raise Unfit(wanted)
    return int(number)


def _read_enum(field: FieldDescriptor, node: yaml.ScalarNode):
    value = field.enum_type.values_by_name.get(node.value)
    if value is not None:
        return value.number
    if is_null(field) and is_absent(node):
        return 0
    if not NUMBER.match(node.value):
        raise Unfit("one of these is expected: " + ", ".join(field.enum_type.values_by_name))
    return _read_int(field.type, node.value)


def _read_double(node: yaml.ScalarNode) -> float:
    if node.value in DOUBLES:
        return DOUBLES[node.value]
    if not NUMBER.match(node.value) or math.isinf(float(node.value)):
        raise Unfit("a number is expected")
    return float(node.value)


def _read_bytes(node: yaml.ScalarNode) -> bytes:
    text = node.value
    if not is_text(node) or not BASE64.match(text):
        raise Unfit("bytes are expected, as a text in base64")
    text = text.rstrip("=").translate(str.maketrans("-_", "+/"))
    try:
        return base64.b64decode(text + "=" * (-len(text) % 4), validate=True)
    except binascii.Error:
        raise Unfit("bytes are expected, as a text in base64") from None


def scalar_text(field: FieldDescriptor, value) -> str:
    """The YAML of a scalar value."""
    if field.type == FieldDescriptor.TYPE_STRING:
        return text_scalar(value)
    if field.type == FieldDescriptor.TYPE_BYTES:
        return text_scalar(base64.b64encode(value).decode())
    if field.type == FieldDescriptor.TYPE_BOOL:
        return "true" if value else "false"
    if is_null(field) and value == 0:
        return "null"
    if field.type == FieldDescriptor.TYPE_ENUM:
        named = field.enum_type.values_by_number.get(value)
        return named.name if named is not None else str(value)
    if field.type == FieldDescriptor.TYPE_DOUBLE:
        return _double_text(value)
    return str(value)


def _double_text(value: float) -> str:
    if math.isfinite(value):
        return repr(value)
    return "NaN" if math.isnan(value) else "Infinity" if value > 0 else "-Infinity"


def text_scalar(text: str) -> str:
    """A text in YAML: plain where it is safe, else in double quotes."""
    resolved = yaml.resolver.Resolver.yaml_implicit_resolvers.get(text[:1], []) if text else []
    if PLAIN.match(text) and text not in BOOLS_ELSEWHERE and not any(kind.match(text) for _, kind in resolved):
        return text
    return '"' + "".join(map(_quoted_character, text)) + '"'


def plain_line(text: str) -> Optional[str]:
    """A text of one line without quotes, or None where YAML would not read it back as that text."""
    try:
        node = yaml.compose(f"k: {text}\n", Loader=yaml.CSafeLoader)
    except yaml.YAMLError:
        return None
    if not isinstance(node, yaml.MappingNode) or len(node.value) != 1:
        return None
    value = node.value[0][1]
    return text if is_text(value) and not value.style and value.value == text else None


def _quoted_character(character: str) -> str:
    named = {'"': '\\"', "\\": "\\\\", "\n": "\\n", "\r": "\\r", "\t": "\\t"}
    if character in named:
        return named[character]
    if character.isprintable() and character != "\ufeff":
        return character
    point = ord(character)
    return f"\\x{point:02x}" if point < 256 else f"\\u{point:04x}" if point < 65536 else f"\\U{point:08x}"
