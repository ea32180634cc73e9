"""Bytes to messages, by the engine's own rules of reading.

Of a scalar the last occurrence counts, occurrences of a message merge, and of a oneof the last member counts with its
trailing run. What the plain spelling of the values would not give back keeps its bytes (`Message.wire`).
"""
from typing import Dict, List, Optional, Tuple

from google.protobuf.descriptor import Descriptor

from .messages import Message, Part, label, parts_by_number
from .wire import LENGTH, Broken, Field, read_fields, read_varints, scalar_of
from .writer import PLAIN, Writer

BAD_WIRE, BAD_TEXT, UNKNOWN_FIELD, TOO_LARGE = 1, 2, 3, 8
DEEPEST = 300
# Views of the bytes that are read, so that what is inside of messages is not copied for each of them.
Pieces = List[Tuple[int, memoryview]]


def read(kind: Descriptor, data: bytes, writer: Optional[Writer] = PLAIN) -> Message:
    """The message of some bytes; it keeps those of each part that the writer, if there is one, would not give back."""
    message = _read(kind, [(0, memoryview(data))], 1)
    if writer is not None:
        _keep_bytes(message, writer)
    return message


def _read(kind: Descriptor, pieces: Pieces, depth: int) -> Message:
    """The message of payloads in order, each whole fields by itself, `depth` levels down."""
    message = Message(kind, pieces[0][0])
    message.raw = pieces[0][1] if len(pieces) == 1 else b"".join(data for _, data in pieces)
    if depth > DEEPEST:
        return _unread(message, message.start, TOO_LARGE, f"nested more than {DEEPEST} messages deep, not read further")
    try:
        fields = [field for offset, data in pieces for field in read_fields(data, offset)]
    except Broken as fault:
        return _unread(message, fault.offset, BAD_WIRE, fault.why)
    _fill(message, fields, depth)
    return message


def _keep_bytes(message: Message, writer: Writer) -> None:
    """Lets each message whose values the writer spells otherwise have its own bytes."""
    for part in message.parts():
        _keep_bytes(part, writer)
    if not message.is_whole or writer.spell(message, lambda part: part.raw) != message.raw:
        message.wire = bytes(message.raw)


def _unread(message: Message, place: int, number: int, why: str) -> Message:
    message.is_whole = False
    message.faults.append((place, number, why))
    return message


def _fill(message: Message, fields: List[Field], depth: int) -> None:
    """Sorts the fields by number and takes each number's value; a member of a oneof drops those of other members."""
    kinds = parts_by_number(message.kind)
    known: Dict[int, List[Field]] = {}
    members: Dict[str, int] = {}
    for field in fields:
        kind = kinds.get(field.number)
        if kind is None or not _fits(kind, field):
            message.faults.append((field.place, UNKNOWN_FIELD, _unknown(message.kind, kind, field)))
            continue
        if kind.oneof is not None:
            before = members.get(kind.oneof, kind.number)
            if before != kind.number:
                del known[before]
            members[kind.oneof] = kind.number
        known.setdefault(field.number, []).append(field)
    for number in sorted(known) if len(known) > 1 else known:
        _take(message, kinds[number], known[number], depth)


def _fits(kind: Part, field: Field) -> bool:
    if field.wire_type == kind.wire_type:
        return True
    return kind.is_repeated and kind.wire_type == 0 and field.wire_type == LENGTH


def _unknown(message: Descriptor, kind: Optional[Part], field: Field) -> str:
    if kind is None:
        return f"{label(message)} has no field {field.number}"
    return f"field {field.number} ({kind.name}) is not of wire type {field.wire_type}"


def _take(message: Message, kind: Part, fields: List[Field], depth: int) -> None:
    """Puts the value of all occurrences of one field into the message."""
    if kind.is_map:
        _take_map(message, kind, fields, depth)
    elif kind.is_repeated:
        _take_list(message, kind, fields, depth)
    elif kind.is_message:
        pieces = [(field.start, field.payload) for field in fields]
        message.values[kind.name] = _read(kind.message_type, pieces, depth + 1)
        message.places[kind.name] = fields[-1].place
    else:
        _take_scalar(message, kind, fields[-1])


def _take_scalar(message: Message, kind: Part, field: Field) -> None:
    try:
        message.values[kind.name] = scalar_of(kind.field.type, field.payload)
        message.places[kind.name] = field.place
    except UnicodeDecodeError:
        message.faults.append((field.place, BAD_TEXT, f"{kind.name} is a text that is not UTF-8"))


def _take_list(message: Message, kind: Part, fields: List[Field], depth: int) -> None:
    values, places = [], []
    for field in fields:
        try:
            if kind.is_message:
                more = [_read(kind.message_type, [(field.start, field.payload)], depth + 1)]
            elif kind.wire_type != LENGTH and field.wire_type == LENGTH:
                more = [scalar_of(kind.field.type, number) for number in read_varints(field.payload)]
            else:
                more = [scalar_of(kind.field.type, field.payload)]
        except UnicodeDecodeError:
            message.faults.append((field.place, BAD_TEXT, f"{kind.name} has a text that is not UTF-8"))
            continue
        except Broken as fault:
            message.faults.append((field.start + fault.offset, BAD_WIRE, fault.why))
            continue
        values += more
        places += [field.place] * len(more)
    message.values[kind.name] = values
    message.places[kind.name] = places


def _take_map(message: Message, kind: Part, fields: List[Field], depth: int) -> None:
    """The last entry of a key counts, at the place of the first; an entry with a fault is left out."""
    pairs, places = {}, {}
    value_type = kind.message_type.fields_by_name["value"].message_type
    for field in fields:
        entry = _read(kind.message_type, [(field.start, field.payload)], depth + 1)
        if entry.faults:
            message.faults += entry.faults
            continue
        key = entry.scalar("key")
        value = entry.get("value")
        if value is None and value_type is not None:
            value = _read(value_type, [(field.start, memoryview(b""))], depth + 2)
        pairs[key] = entry.scalar("value") if value is None else value
        places[key] = field.place
    message.values[kind.name] = list(pairs.items())
    message.places[kind.name] = list(places.values())
