"""Messages to bytes: fields in ascending order of number, defaults omitted.

Go's encoder puts the members of oneofs after the other fields; a writer can do so too.
"""
from typing import Callable, Dict

from google.protobuf.descriptor import Descriptor, FieldDescriptor

from .messages import Message, Part, default_of, parts_by_name
from .wire import LENGTH, WIRE_TYPES, field_of, scalar_payload, tag


class Writer:
    """A writer of messages; it has one order of fields."""

    def __init__(self, oneofs_last: bool = False):
        self.oneofs_last = oneofs_last
        self.orders: Dict[Descriptor, Dict[str, tuple]] = {}

    def write(self, message: Message) -> bytes:
        """The bytes of a message: its own where it has some, else the plain spelling of its values."""
        return message.wire if message.wire is not None else self.spell(message, self.write)

    def spell(self, message: Message, write_part: Callable[[Message], bytes]) -> bytes:
        """The plain spelling of a message's values, where `write_part` gives the bytes of the messages in it."""
        order = self.orders.get(message.kind)
        if order is None:
            order = self.orders[message.kind] = self._order(message.kind)
        names = message.values
        if len(names) > 1:
            names = sorted(names, key=order.__getitem__)
        return b"".join(_write_field(order[name][2], message.values[name], write_part) for name in names)

    def _order(self, kind: Descriptor) -> Dict[str, tuple]:
        """The place of each field by its name, and the field."""
        order = {}
        for field in kind.fields:
            is_last = self.oneofs_last and field.containing_oneof is not None
            order[field.name] = (is_last, field.number, parts_by_name(kind)[field.name])
        return order


PLAIN = Writer()
ONEOFS_LAST = Writer(oneofs_last=True)


def _write_field(part: Part, value, write_part) -> bytes:
    field = part.field
    if part.is_map:
        return b"".join(field_of(part.number, _entry(field, pair, write_part)) for pair in value)
    if part.is_repeated and part.is_message:
        return b"".join(field_of(part.number, write_part(one)) for one in value)
    if part.is_message:
        return field_of(part.number, write_part(value))
    if part.is_repeated and _is_packed(field):
        packed = b"".join(scalar_payload(field.type, one) for one in value)
        return field_of(field.number, packed) if value else b""
    if part.is_repeated:
        return b"".join(_write_scalar(field, one) for one in value)
    if part.oneof is None and _is_default(field, value):
        return b""
    return _write_scalar(field, value)


def _is_packed(field: FieldDescriptor) -> bool:
    return WIRE_TYPES[field.type] != LENGTH


def _is_default(field: FieldDescriptor, value) -> bool:
    if field.type == FieldDescriptor.TYPE_DOUBLE:
        return scalar_payload(field.type, value) == bytes(8)
    return value == default_of(field)


def _write_scalar(field: FieldDescriptor, value) -> bytes:
    return tag(field.number, WIRE_TYPES[field.type]) + scalar_payload(field.type, value)


def _entry(field: FieldDescriptor, pair: tuple, write_part) -> bytes:
    """An entry of a map: the key and the value, both always there."""
    key, value = (field.message_type.fields_by_number[number] for number in (1, 2))
    held = field_of(2, write_part(pair[1])) if value.message_type is not None else _write_scalar(value, pair[1])
    return _write_scalar(key, pair[0]) + held
