"""Messages to YAML: what `encode` reads back as the same bytes, with the profile's remarks as comments."""
from typing import Iterable, List, Optional, Tuple

from google.protobuf.descriptor import FieldDescriptor

from .cel.printing import describe
from .cel.tree import ACCUMULATOR
from .cel.typetext import type_text
from .conditions import ACCUMULATOR_KEY, DOTTED_KEY, IDS_KEY, TEXT_KEY, TextForm, text_form
from .encode import LAST, ORDER_KEY, TYPE_KEY, WIRE_KEY, held_type
from .messages import (
    ANY,
    CHECKED_EXPR,
    EXPR,
    FILTER,
    POLICY,
    TYPE,
    WRAPPER,
    Message,
    default_of,
    descriptor,
    has_presence,
    is_map,
    is_message,
    is_repeated,
)
from .profile import notes
from .reader import read
from .remarks import NONE, Remarks, remarks_of
from .scalars import plain_line, scalar_text, text_scalar
from .trees import NoTree, message_tree, message_type, type_message
from .wire import VARINT, WIRE_TYPES
from .writer import ONEOFS_LAST, PLAIN, Writer
from .yamltext import Block, Pair, Part, comment_lines, lines_of

WIDTH = 32


def decode(data: bytes, comments: Iterable[Tuple[tuple, str]] = ()) -> str:
    """The YAML of a filter's bytes, in the order of fields in which more of them is plain; with comments on its parts."""
    message, writer = read(descriptor(FILTER), data, PLAIN), PLAIN
    odd = _count_odd(message)
    if odd:
        other = read(descriptor(FILTER), data, ONEOFS_LAST)
        if _count_odd(other) < odd:
            message, writer = other, ONEOFS_LAST
    remarks = remarks_of([*((note.path, note.text()) for note in notes(message)), *comments])
    pairs = _Decoding(writer).pairs(message, remarks)
    if writer is ONEOFS_LAST:
        words = "members of oneofs come after the other fields of a message, as Go's encoder puts them"
        pairs.insert(0, Pair(f'"{ORDER_KEY}"', LAST, [words]))
    return "\n".join(comment_lines(remarks.own) + lines_of(pairs)) + "\n"


def _count_odd(message: Message) -> int:
    """How many messages in one are spelled by their own bytes."""
    return (message.wire is not None) + sum(map(_count_odd, message.parts()))


def _hex(data: bytes):
    digits = [data[at : at + WIDTH].hex(" ") for at in range(0, len(data), WIDTH)]
    return Block(digits) if len(digits) > 1 else f'"{digits[0] if digits else ""}"'


def _wire(message: Message) -> List[Pair]:
    """The bytes of a message that its values do not spell."""
    if message.wire is None:
        return []
    words = f"byte {message.start}: the bytes as they came"
    if message.values:
        words += ", since the plain spelling of the fields beside them differs"
    return [Pair(f'"{WIRE_KEY}"', _hex(message.wire), [words])]


def _shown(message: Message) -> List[FieldDescriptor]:
    """The fields of a message that are in its mapping, by ascending number."""
    fields = sorted(message.kind.fields, key=lambda field: field.number)
    return [field for field in fields if field.name in message.values and not _is_default(field, message)]


def _is_default(field: FieldDescriptor, message: Message) -> bool:
    value = message.values[field.name]
    if is_map(field) or is_repeated(field):
        return not value
    if is_message(field) or has_presence(field):
        return False
    return value == default_of(field) and str(value) == str(default_of(field))


def _short_form(message: Message) -> Optional[str]:
    """A message that is written as a scalar, or None."""
    if message.kind.full_name == WRAPPER and message.wire is None:
        return str(message.scalar("value"))
    if message.kind.full_name == TYPE:
        kind = message_type(message)
        if kind is not None and PLAIN.write(type_message(kind)) == message.raw:
            return type_text(kind)
    return None


def _text(text: str):
    """A text of one line in YAML: without quotes where it can be so, in single quotes, or on a line of its own."""
    if plain_line(text):
        return text
    return f"'{text}'" if "'" not in text else Block([text])


def _described(message: Message) -> List[str]:
    """A comment that shows a tree that no text makes."""
    expr = message.get("expr") if message.kind.full_name == CHECKED_EXPR else message
    try:
        return ["the tree below is that of no text; it reads: " + describe(message_tree(expr))]
    except NoTree:
        return []


class _Decoding:
    """The YAML of one filter, whose fields are in the order of a writer."""

    def __init__(self, writer: Writer):
        self.writer = writer

    def pairs(self, message: Message, remarks: Remarks) -> List[Pair]:
        """The keys of a message's mapping."""
        if message.kind.full_name == ANY:
            return self._any(message)
        fields = [self._field(message, field, remarks.part(field.name)) for field in _shown(message)]
        return _wire(message) + fields

    def _field(self, message: Message, field: FieldDescriptor, remarks: Remarks) -> Pair:
        value = message.values.get(field.name, [])
        if is_map(field):
            key_field, value_field = (field.message_type.fields_by_number[number] for number in (1, 2))
            if WIRE_TYPES[value_field.type] == VARINT:
                return Pair(field.name, "{" + ", ".join(f"{key}: {part}" for key, part in value) + "}", remarks.all())
            entries = []
            for key, part in value:
                entries.append(Pair(scalar_text(key_field, key), *self._value(value_field, part, remarks.part(key))))
            return Pair(field.name, entries, remarks.own)
        if is_repeated(field) and WIRE_TYPES[field.type] == VARINT:
            return Pair(field.name, f"[{', '.join(map(str, value))}]", remarks.all())
        if is_repeated(field):
            parts = [Part(*self._value(field, part, remarks.part(index))) for index, part in enumerate(value)]
            return Pair(field.name, parts, remarks.own)
        if message.kind.full_name == POLICY and field.message_type.full_name in (EXPR, CHECKED_EXPR):
            return Pair(field.name, *self._condition(value, remarks))
        return Pair(field.name, *self._value(field, value, remarks))

    def _value(self, field: FieldDescriptor, value, remarks: Remarks):
        """A value and the comments before it."""
        if not is_message(field):
            return scalar_text(field, value), remarks.all()
        short = _short_form(value)
        if short is not None:
            return short, remarks.all()
        return self.pairs(value, remarks), remarks.own

    def _any(self, message: Message) -> List[Pair]:
        """A message of any type: its fields where we have the type and they spell it, else its bytes.

        Bytes beside a type are those of the message held, bytes alone are those of the `Any`.
        """
        url, data = message.scalar("type_url"), message.scalar("value")
        if message.wire is not None or not url:
            return [Pair(f'"{WIRE_KEY}"', _hex(message.raw))] if message.raw else []
        pairs = [Pair(f'"{TYPE_KEY}"', text_scalar(url))]
        held = held_type(url)
        part = None if held is None else read(held, data, self.writer)
        if part is not None and part.wire is None:
            return pairs + self.pairs(part, NONE)
        return pairs + [Pair(f'"{WIRE_KEY}"', _hex(data))]

    def _condition(self, message: Message, remarks: Remarks):
        """A condition as text where it has one, else as a tree with a comment that shows it."""
        form = text_form(message, self.writer)
        if form is None:
            return self.pairs(message, remarks), remarks.own + _described(message)
        beside = self._beside_text(message, form, remarks)
        comments = remarks.beside([pair.key for pair in beside])
        pairs = _wire(message) + [Pair(TEXT_KEY, _text(form.text), comments)]
        if form.dotted:
            pairs.append(Pair(DOTTED_KEY, "true"))
        if form.accumulator != ACCUMULATOR:
            pairs.append(Pair(ACCUMULATOR_KEY, f'"{form.accumulator}"'))
        if form.ids is not None:
            pairs.append(Pair(IDS_KEY, f"[{', '.join(map(str, form.ids))}]"))
        return pairs + beside, remarks.own

    def _beside_text(self, message: Message, form: TextForm, remarks: Remarks) -> List[Pair]:
        """The fields of a checked condition beside its text."""
        if message.kind.full_name == EXPR:
            return []
        fields = [field for field in _shown(message) if field.name not in ("expr", "type_map")]
        if form.has_own_types:
            fields.insert(0, message.kind.fields_by_name["type_map"])
        return [self._field(message, field, remarks.part(field.name)) for field in fields]
