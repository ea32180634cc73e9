"""The wire format of Protocol Buffers: fields of a payload, and scalars as bytes."""
import math
import struct
from functools import lru_cache
from typing import List, NamedTuple, Union

from google.protobuf.descriptor import FieldDescriptor

VARINT, EIGHT_BYTES, LENGTH, FOUR_BYTES = 0, 1, 2, 5
WIRE_TYPES = {
    FieldDescriptor.TYPE_BOOL: VARINT,
    FieldDescriptor.TYPE_INT32: VARINT,
    FieldDescriptor.TYPE_INT64: VARINT,
    FieldDescriptor.TYPE_UINT32: VARINT,
    FieldDescriptor.TYPE_UINT64: VARINT,
    FieldDescriptor.TYPE_ENUM: VARINT,
    FieldDescriptor.TYPE_DOUBLE: EIGHT_BYTES,
    FieldDescriptor.TYPE_STRING: LENGTH,
    FieldDescriptor.TYPE_BYTES: LENGTH,
    FieldDescriptor.TYPE_MESSAGE: LENGTH,
}
GREATEST_NUMBER = 2**29 - 1
SHORT = [bytes([value]) for value in range(128)]
# A payload of more bytes is viewed and not copied, so that nested ones are not copied for each level; a view takes more
# than a copy of fewer bytes.
SMALL = 256


class Broken(Exception):
    """Bytes that are no fields, from this offset on."""

    def __init__(self, offset: int, why: str):
        super().__init__(why)
        self.offset = offset
        self.why = why


class Field(NamedTuple):
    """One field: the offset of its tag, and of its payload; a varint's value or a view of the payload's bytes."""

    number: int
    wire_type: int
    place: int
    start: int
    payload: Union[int, memoryview]


def read_fields(data: memoryview, offset: int) -> List[Field]:
    """All fields of a payload whose first byte is at an offset; raises Broken."""
    fields = []
    at = 0
    while at < len(data):
        tag, start = _read_varint(data, at, offset)
        number, wire_type = tag >> 3, tag & 7
        if not 1 <= number <= GREATEST_NUMBER:
            raise Broken(offset + at, f"{number} is no number of a field")
        if wire_type == VARINT:
            payload, end = _read_varint(data, start, offset)
        else:
            start, end = _payload_bounds(data, start, wire_type, offset)
            payload = data[start:end] if end - start > SMALL else bytes(data[start:end])
        fields.append(Field(number, wire_type, offset + at, offset + start, payload))
        at = end
    return fields


def _payload_bounds(data: memoryview, at: int, wire_type: int, offset: int):
    start, length = at, {EIGHT_BYTES: 8, FOUR_BYTES: 4}.get(wire_type)
    if wire_type == LENGTH:
        length, start = _read_varint(data, at, offset)
    if length is None:
        raise Broken(offset + at, f"{wire_type} is no type of a field")
    if start + length > len(data):
        raise Broken(offset + start, f"{length} bytes are expected here, and there are {len(data) - start}")
    return start, start + length


def _read_varint(data: memoryview, at: int, offset: int):
    """The number at a place, and the place after it."""
    value = 0
    for index in range(10):
        if at + index >= len(data):
            raise Broken(offset + at, "a number is cut short here")
        byte = data[at + index]
        value |= (byte & 127) << (7 * index)
        if byte < 128:
            if value >= 2**64:
                break
            return value, at + index + 1
    raise Broken(offset + at, "a number here is longer than 64 bits")


def read_varints(data: memoryview) -> List[int]:
    """The numbers of a packed list; raises Broken."""
    numbers = []
    at = 0
    while at < len(data):
        value, at = _read_varint(data, at, 0)
        numbers.append(value)
    return numbers


def scalar_of(kind: int, payload: Union[int, memoryview]):
    """The value of a field's payload by the field's type; UnicodeDecodeError where it is a text that is not UTF-8."""
    if kind == FieldDescriptor.TYPE_BOOL:
        return payload != 0
    if kind in (FieldDescriptor.TYPE_INT32, FieldDescriptor.TYPE_ENUM):
        return _signed(payload, 32)
    if kind == FieldDescriptor.TYPE_INT64:
        return _signed(payload, 64)
    if kind == FieldDescriptor.TYPE_UINT32:
        return payload % 2**32
    if kind == FieldDescriptor.TYPE_DOUBLE:
        value = struct.unpack("<d", payload)[0]
        return math.nan if math.isnan(value) else value
    if kind == FieldDescriptor.TYPE_STRING:
        return str(payload, "utf-8")
    return bytes(payload) if kind == FieldDescriptor.TYPE_BYTES else payload


def _signed(value: int, bits: int) -> int:
    value %= 2**bits
    return value - 2**bits if value >= 2 ** (bits - 1) else value


def varint(value: int) -> bytes:
    """A number from 0 to 2^64 - 1 in as few bytes as it takes."""
    if value < 128:
        return SHORT[value]
    out = bytearray()
    while value >= 128:
        out.append(value % 128 + 128)
        value //= 128
    out.append(value)
    return bytes(out)


def scalar_payload(kind: int, value) -> bytes:
    """A scalar value by its field's type, without the tag, and with the length where the type has one."""
    if kind == FieldDescriptor.TYPE_DOUBLE:
        return struct.pack("<d", value)
    if kind == FieldDescriptor.TYPE_STRING:
        value = value.encode()
    if isinstance(value, bytes):
        return varint(len(value)) + value
    return varint(int(value) % 2**64)


@lru_cache(maxsize=None)
def tag(number: int, wire_type: int) -> bytes:
    """The tag of a field."""
    return varint(number * 8 + wire_type)


def field_of(number: int, payload: bytes) -> bytes:
    """A field that holds a payload of bytes."""
    return tag(number, LENGTH) + varint(len(payload)) + payload
