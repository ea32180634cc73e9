"""The messages: their fields by the `.proto` files, and what one message of them holds."""
import pathlib
import subprocess
from functools import lru_cache
from typing import Callable, Dict, Iterator, List, NamedTuple, Optional, Tuple, Union

from google.protobuf import descriptor_pb2, descriptor_pool
from google.protobuf.descriptor import Descriptor, FieldDescriptor

from .wire import WIRE_TYPES

PROTO = pathlib.Path(__file__).parent.parent / "proto"
FILES = (
    "envoy/extensions/filters/http/rbac/v3/rbac.proto",
    "envoy/service/discovery/v3/discovery.proto",
    "envoy/config/core/v3/extension.proto",
)
FILTER = "envoy.extensions.filters.http.rbac.v3.RBAC"
EXTENSION = "envoy.config.core.v3.TypedExtensionConfig"
RESPONSE = "envoy.service.discovery.v3.DiscoveryResponse"
ANY = "google.protobuf.Any"
WRAPPER = "google.protobuf.UInt32Value"
NULL = "google.protobuf.NullValue"
EXPR = "google.api.expr.v1alpha1.Expr"
CHECKED_EXPR = "google.api.expr.v1alpha1.CheckedExpr"
TYPE = "google.api.expr.v1alpha1.Type"
CONSTANT = "google.api.expr.v1alpha1.Constant"
RULES = "envoy.config.rbac.v3.RBAC"
POLICY = "envoy.config.rbac.v3.Policy"
PERMISSION = "envoy.config.rbac.v3.Permission"
PRINCIPAL = "envoy.config.rbac.v3.Principal"
MATCHER = "envoy.type.matcher.v3.StringMatcher"
HEADER = "envoy.config.route.v3.HeaderMatcher"
PREFIX = "type.googleapis.com/"


@lru_cache(maxsize=None)
def _files() -> Tuple[descriptor_pool.DescriptorPool, Dict[str, frozenset]]:
    """The pool of all messages, and the names that each message reserves."""
    command = ["protoc", "-I", str(PROTO), "--include_imports", "--descriptor_set_out=/dev/stdout", *FILES]
    compiled = subprocess.run(command, stdout=subprocess.PIPE, check=True).stdout
    pool = descriptor_pool.DescriptorPool()
    reserved: Dict[str, frozenset] = {}
    for file in descriptor_pb2.FileDescriptorSet.FromString(compiled).file:
        pool.Add(file)
        _collect_reserved(file.package, file.message_type, reserved)
    return pool, reserved


def _collect_reserved(prefix: str, messages, reserved: Dict[str, frozenset]) -> None:
    for message in messages:
        name = f"{prefix}.{message.name}"
        reserved[name] = frozenset(message.reserved_name)
        _collect_reserved(name, message.nested_type, reserved)


@lru_cache(maxsize=None)
def descriptor(name: str) -> Descriptor:
    """The message of a full name; KeyError where there is none."""
    return _files()[0].FindMessageTypeByName(name)


@lru_cache(maxsize=None)
def _members(kind: Descriptor, oneof: str) -> frozenset:
    """The names of a oneof's members."""
    return frozenset(field.name for field in kind.oneofs_by_name[oneof].fields)


class Part(NamedTuple):
    """What a field is, kept since descriptors are slow to ask."""

    field: FieldDescriptor
    name: str
    number: int
    is_map: bool
    is_repeated: bool
    is_message: bool
    is_null: bool
    oneof: Optional[str]
    message_type: Optional[Descriptor]
    wire_type: int


@lru_cache(maxsize=None)
def parts_by_name(kind: Descriptor) -> Dict[str, Part]:
    """The fields of a message by each of their names, in snake_case and camelCase."""
    found = {}
    for part in parts_by_number(kind).values():
        found[part.name] = found[part.field.json_name] = part
    return found


@lru_cache(maxsize=None)
def parts_by_number(kind: Descriptor) -> Dict[int, Part]:
    """The fields of a message by their numbers."""
    return {field.number: _part(field) for field in kind.fields}


def _part(field: FieldDescriptor) -> Part:
    oneof = field.containing_oneof
    return Part(
        field,
        field.name,
        field.number,
        is_map(field),
        is_repeated(field),
        is_message(field),
        is_null(field),
        oneof.name if oneof else None,
        field.message_type,
        WIRE_TYPES[field.type],
    )


@lru_cache(maxsize=None)
def name_of(kind: Descriptor) -> str:
    """The full name of a message."""
    return kind.full_name


def reserved_names(message: Descriptor) -> frozenset:
    """The names that the public message has and ours leaves out."""
    return _files()[1][message.full_name]


def label(kind: Descriptor) -> str:
    """What people call a message: its name without its package."""
    if kind.full_name == FILTER:
        return "the HTTP RBAC filter"
    return kind.full_name[len(kind.file.package) + 1 :]


def is_repeated(field: FieldDescriptor) -> bool:
    """Whether a field is a list (and no map)."""
    return field.label == FieldDescriptor.LABEL_REPEATED and not is_map(field)


def is_map(field: FieldDescriptor) -> bool:
    """Whether a field is a map, held as entries."""
    return field.message_type is not None and field.message_type.GetOptions().map_entry


def is_message(field: FieldDescriptor) -> bool:
    """Whether a field holds messages."""
    return field.message_type is not None


def is_null(field: FieldDescriptor) -> bool:
    """Whether a field's one value is null."""
    return field.enum_type is not None and field.enum_type.full_name == NULL


def has_presence(field: FieldDescriptor) -> bool:
    """Whether a scalar field of the default value is on the wire: that of a oneof is."""
    return field.containing_oneof is not None


def default_of(field: FieldDescriptor):
    """The value of a scalar field that is absent."""
    if field.type == FieldDescriptor.TYPE_STRING:
        return ""
    if field.type == FieldDescriptor.TYPE_BYTES:
        return b""
    if field.type == FieldDescriptor.TYPE_BOOL:
        return False
    return 0.0 if field.type == FieldDescriptor.TYPE_DOUBLE else 0


class Message:
    """A message: its values by field name, and its own bytes where they are not the plain spelling of the values.

    A value is a number, a text, bytes, a Message, a list of these, or for a map a list of pairs. What was read from
    bytes also has places: `start` is the offset of its first byte, `places` that of each field, a list for repeated
    fields.
    """

    __slots__ = ("kind", "values", "wire", "start", "places", "faults", "raw", "is_whole", "memo")

    def __init__(self, kind: Descriptor, start: int = 0):
        self.kind = kind
        self.values: Dict[str, object] = {}
        self.wire: Optional[bytes] = None
        self.start = start
        self.places: Dict[str, object] = {}
        self.faults: List[Tuple[int, int, str]] = []
        self.raw: Union[bytes, memoryview] = b""
        self.is_whole = True
        self.memo: Optional[Dict[str, object]] = None

    def kept(self, name: str, make: Callable[[], object]):
        """What is made of the message, once: it has to be whole by then, and stays as it is."""
        if self.memo is None:
            self.memo = {}
        if name not in self.memo:
            self.memo[name] = make()
        return self.memo[name]

    def get(self, name: str):
        """The value of a field, or None where the field is absent."""
        return self.values.get(name)

    def scalar(self, name: str):
        """The value of a scalar field, the default where it is absent."""
        value = self.values.get(name)
        return default_of(self.kind.fields_by_name[name]) if value is None else value

    def place_of(self, name: str) -> int:
        """The offset of a field's last occurrence; that of the message where it was not read from bytes."""
        return self.places.get(name, self.start)

    def parts(self) -> Iterator["Message"]:
        """The messages in this one."""
        for value in self.values.values():
            for one in value if isinstance(value, list) else [value]:
                part = one[1] if isinstance(one, tuple) else one
                if isinstance(part, Message):
                    yield part

    def which(self, oneof: str) -> Optional[str]:
        """The name of a oneof's member that the message has."""
        members = _members(self.kind, oneof)
        return next((name for name in self.values if name in members), None)
