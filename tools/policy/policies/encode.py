"""YAML to messages: the proto3 JSON mapping, and also texts of conditions and of types."""
import difflib
from typing import Dict, List, Optional, Set, Tuple

import yaml
from google.protobuf.descriptor import Descriptor, FieldDescriptor

from . import bounds, conditions, profile
from .bounds import GREATEST_FILTER, TOO_LONG
from .cel.limits import MOST_NODES, TOO_LARGE, TOO_MANY_NODES
from .cel.mistake import TextMistake
from .cel.tree import Node
from .cel.typetext import read_type
from .faults import UNSUPPORTED
from .findings import Finding
from .forms.nodes import camel
from .instead import instead, shape
from .messages import (
    ANY,
    CHECKED_EXPR,
    EXPR,
    FILTER,
    POLICY,
    PREFIX,
    TYPE,
    WRAPPER,
    Message,
    Part,
    descriptor,
    is_message,
    is_null,
    label,
    name_of,
    parts_by_name,
    reserved_names,
)
from .output import Progress
from .places import Mistake, Place, Source, start_of, together
from .reader import DEEPEST, read
from .scalars import Unfit, is_absent, is_text, read_key, read_scalar
from .trees import type_message
from .writer import ONEOFS_LAST, PLAIN

WIRE_KEY = "@wire"
TYPE_KEY = "@type"
ORDER_KEY = "@oneofs"
LAST = "last"
MERGE_KEY = "<<"
ROOT = ()
# A list of so many parts has a line of progress of its own.
LONG_LIST = 1000


class TooLong(Mistake):
    """A filter that is longer than the engine takes, which is not read further."""


class Encoding:
    """One file on its way to a message; if it is bounded, no further than the engine would take it.

    `marks` keeps the node of each part by its path, `texts` the trees of conditions' texts by the paths of their
    messages, and `findings` what the engine refuses or skips. `conditions` are what was made of texts, `trees` the texts'.
    """

    def __init__(self, source: Source, dotted: bool = False, is_bounded: bool = False):
        self.source = source
        self.dotted = dotted
        self.is_bounded = is_bounded
        # At least as many bytes are made so far, and so many nodes of the condition that is read.
        self.size = 0
        self.nodes = 0
        self.writer = PLAIN
        self.marks: Dict[tuple, yaml.Node] = {}
        self.texts: Dict[tuple, Node] = {}
        self.conditions: Dict[tuple, conditions.Written] = {}
        self.trees: Dict[tuple, Node] = {}
        self.told_texts: Set[int] = set()
        self.wrong_texts: Dict[str, TextMistake] = {}
        self.findings: List[Finding] = []
        self.mistakes: List[Mistake] = []
        # The paths of the parts that have the mistakes.
        self.wrong: List[tuple] = []

    def mistake(self, node, message: str, number: int = 0) -> Mistake:
        """The mistake at the start of a node."""
        return self.source.mistake(start_of(node), message, number)

    def grow(self, node: yaml.Node, size: int) -> None:
        """Counts bytes that a node makes; raises TooLong above the most that the engine takes."""
        self.size += size
        if self.is_bounded and self.size > GREATEST_FILTER:
            raise TooLong(self.source.tell(start_of(node), TOO_LONG), start_of(node), TOO_LONG)

    def keep(self, mistake: Mistake, path: tuple) -> None:
        """Keeps a mistake of a part, after which reading goes on."""
        if isinstance(mistake, TooLong):
            raise mistake
        self.mistakes += [mistake, *mistake.rest]
        self.wrong.append(path)

    def filter_of(self, node: Optional[yaml.Node]) -> Message:
        """The message of a filter's node, without the parts that have mistakes."""
        kind = descriptor(FILTER)
        if node is None or is_absent(node):
            return Message(kind)
        try:
            return self.message(kind, self._without_order(node), ROOT, 1)
        except Mistake as mistake:
            self.mistakes.append(mistake)
            self.wrong.append(ROOT)
            return Message(kind)

    def _without_order(self, node: yaml.Node) -> yaml.Node:
        """The file's mapping without the key that says in what order the fields of a message are written."""
        if not isinstance(node, yaml.MappingNode):
            return node
        rest = []
        for key, value in node.value:
            if not isinstance(key, yaml.ScalarNode) or key.value != ORDER_KEY:
                rest.append((key, value))
            elif not is_text(value) or value.value != LAST:
                raise self.mistake(value, f"`{LAST}` is expected here: members of oneofs come after the other fields")
            else:
                self.writer = ONEOFS_LAST
        return yaml.MappingNode(node.tag, rest, node.start_mark, node.end_mark)

    def find_faults(self, message: Message, budget: int) -> None:
        """Finds what the engine refuses or skips of a message, at the parts of the file that say it."""
        told = {(found.path, found.number, found.words) for found in self.findings}
        for note in profile.notes(message):
            key = (note.path, note.number, note.words)
            if key not in told and not self._is_told_constant(note.path, note.number) and self._is_certain(note):
                told.add(key)
                self.findings.append(Finding(note.number, note.words, self.place_of(note.path), note.path))
        if not self.mistakes:
            self.findings += [self._placed(found) for found in bounds.too_costly(message, budget)]

    def _is_certain(self, note: profile.Note) -> bool:
        """Whether a remark holds whatever the parts with mistakes were to say."""
        length = len(note.path)
        for path in self.wrong:
            if path == note.path[: len(path)]:
                return False
            if path[:length] == note.path and not (note.about and _is_other(path[length], note.about)):
                return False
        return True

    def _is_told_constant(self, path: tuple, number: int) -> bool:
        """Whether a part is a literal of a condition's text, which has its place in the text."""
        inside = any(path[:length] in self.texts for length in range(len(path)))
        return inside and number == UNSUPPORTED and path[-1] in ("null_value", "double_value")

    def _placed(self, found: Finding) -> Finding:
        return found._replace(place=self.place_of(found.path))

    def place_of(self, path: tuple) -> Place:
        """The place of the part of the file that says a part of the filter, or of what is around it."""
        while path not in self.marks and path:
            path = path[:-1]
        return start_of(self.marks[path]) if path in self.marks else (0, 0)

    def message(self, kind: Descriptor, node: yaml.Node, path: tuple, depth: int) -> Message:
        """The message of a node, `depth` levels down."""
        self.marks[path] = node
        if isinstance(node, yaml.ScalarNode):
            return self._short_form(kind, node)
        pairs = self.pairs(node, kind)
        if WIRE_KEY in pairs:
            return self._with_wire(kind, node, pairs, path, depth)
        name = name_of(kind)
        if name == WRAPPER:
            raise self.mistake(node, "a number is expected here")
        if depth > DEEPEST:
            raise self.mistake(node, f"this is nested more than {DEEPEST} messages deep")
        if name == ANY:
            return self._any(kind, node, pairs, path, depth)
        self._check_type(kind, pairs)
        if name in (EXPR, CHECKED_EXPR) and conditions.TEXT_KEY in pairs:
            return conditions.encode_text(self, kind, pairs, path, depth)
        if name == EXPR and self.is_bounded:
            self.nodes = 1 if path[-1] in ("expr", conditions.CONDITION) else self.nodes + 1
            if self.nodes == MOST_NODES + 1:
                raise self.mistake(node, TOO_MANY_NODES, TOO_LARGE)
            if self.nodes > MOST_NODES:
                return Message(kind)
        return self.fields(kind, pairs, path, depth)

    def pairs(self, node: yaml.Node, kind: Descriptor, entries_of: str = "") -> Dict[str, tuple]:
        """The keys of a mapping, each with its key's node and its value's node."""
        if not isinstance(node, yaml.MappingNode) or node.tag != "tag:yaml.org,2002:map":
            if entries_of:
                raise self.mistake(node, f"the entries of {entries_of} are expected here, as `name: value`")
            raise self.mistake(node, f"the fields of {label(kind)} are expected here, {shape(label(kind))}")
        pairs = {}
        for key, value in node.value:
            if not isinstance(key, yaml.ScalarNode):
                raise self.mistake(key, "a name is expected here")
            if key.value in pairs:
                raise self.mistake(key, f"`{key.value}` is here twice")
            pairs[key.value] = key, value
        return pairs

    def fields(self, kind: Descriptor, pairs: Dict[str, tuple], path: tuple, depth: int) -> Message:
        """The message whose fields are pairs."""
        message = Message(kind)
        for name, (key, node) in pairs.items():
            try:
                field = self._field(kind, name, key)
                if field.name in message.values:
                    raise self.mistake(key, f"`{field.name}` is here twice")
                if is_absent(node) and not field.is_null:
                    continue
                other = field.oneof and message.values and message.which(field.oneof)
                if other:
                    raise self.mistake(
                        key, f"`{name}` cannot be used together with `{other}`: {label(kind)} has one of them"
                    )
                message.values[field.name] = self._value(field, node, path + (field.name,), depth)
            except Mistake as mistake:
                self.keep(mistake, path + (name,))
        return message

    def _field(self, kind: Descriptor, name: str, key: yaml.Node) -> Part:
        """The field of a name in snake_case or camelCase."""
        part = parts_by_name(kind).get(name)
        if part is not None:
            return part
        for reserved in reserved_names(kind):
            if name in (reserved, camel(reserved)):
                told = (
                    f"the engine does not know `{name}` of {label(kind)} and would refuse the filter{instead(reserved)}"
                )
                raise self.mistake(key, told)
        if name == MERGE_KEY:
            raise self.mistake(key, "merge keys are not read: write out what `<<` means, or use an alias alone")
        if kind.full_name == FILTER and name in parts_by_name(descriptor(POLICY)):
            told = f"`{name}` is a field of a policy, which is in a filter as `rules: {{policies: {{NAME: {{..}}}}}}`"
            raise self.mistake(key, told)
        names = [field.name for field in kind.fields]
        if kind.full_name in (EXPR, CHECKED_EXPR):
            names.insert(0, conditions.TEXT_KEY)
        near = difflib.get_close_matches(name, names, 1)
        hint = f"; do you mean `{near[0]}`?" if near else f"; it has {', '.join(names)}" if names else ""
        raise self.mistake(key, f"{label(kind)} has no field `{name}`{hint}")

    def _value(self, field: Part, node: yaml.Node, path: tuple, depth: int):
        self.marks[path] = node
        if field.is_map:
            return self._map(field.field, node, path, depth)
        if not field.is_repeated:
            return self._one(field.field, node, path, depth)
        listed = node.value
        if not isinstance(node, yaml.SequenceNode):
            told = f"a list is expected here, since `{field.name}` may hold several"
            self.keep(self.mistake(node, told), path)
            # what would be the only part has perhaps mistakes of its own
            listed = [node] if isinstance(node, yaml.MappingNode) and field.is_message else []
        parts: list = []
        progress = Progress(f"encoding {field.name}", len(listed)) if len(listed) >= LONG_LIST else None
        for index, part in enumerate(listed):
            if progress is not None:
                progress.step()
            try:
                parts.append(self._one(field.field, part, path + (index,), depth))
            except Mistake as mistake:
                self.keep(mistake, path + (index,))
        return parts

    def _map(self, field: FieldDescriptor, node: yaml.Node, path: tuple, depth: int) -> list:
        key_field, value_field = (field.message_type.fields_by_number[number] for number in (1, 2))
        entries: dict = {}
        pairs = self.pairs(node, field.message_type, field.name).values()
        progress = Progress("encoding policy", len(pairs) if field.name == "policies" else 0)
        for key, value in pairs:
            progress.step()
            try:
                name = read_key(key_field, key)
            except Unfit as why:
                raise self.mistake(key, str(why)) from None
            if name in entries:
                raise self.mistake(key, f"`{key.value}` is here twice")
            try:
                self._check_indent(value_field, key, value)
                entries[name] = self._one(value_field, value, path + (name,), depth + 1)
            except Mistake as mistake:
                self.keep(mistake, path + (name,))
        return list(entries.items())

    def _check_indent(self, field: FieldDescriptor, key: yaml.Node, value: yaml.Node) -> None:
        """Tells an entry whose name is a field of the entries themselves: it is indented too little."""
        kind = field.message_type
        if kind is None or isinstance(value, yaml.MappingNode):
            return
        if key.value in parts_by_name(kind):
            raise self.mistake(key, f"`{key.value}` is a field of {label(kind)}: indent it below the entry it is of")
        if is_absent(value):
            raise self.mistake(key, f"`{key.value}` is empty: indent below it what belongs to it, {shape(label(kind))}")

    def _one(self, field: FieldDescriptor, node: yaml.Node, path: tuple, depth: int):
        """The value of a field that holds one, or one of several."""
        if is_absent(node) and not is_null(field):
            raise self.mistake(node, "a value is expected here")
        if is_message(field):
            self.grow(node, 2)
            return self.message(field.message_type, node, path, depth + 1)
        self.marks[path] = node
        if not isinstance(node, yaml.ScalarNode):
            raise self.mistake(node, f"one value of `{field.name}` is expected here")
        value = self.scalar(field, node)
        self.grow(node, len(value) if isinstance(value, (str, bytes)) else 0)
        return value

    def scalar(self, field: FieldDescriptor, node: yaml.ScalarNode):
        """The value of a scalar node by a field's type."""
        try:
            return read_scalar(field, node)
        except Unfit as why:
            raise self.mistake(node, str(why)) from None

    def number(self, field: FieldDescriptor, node: yaml.Node):
        """The value of a node that is to be a number."""
        if not isinstance(node, yaml.ScalarNode):
            raise self.mistake(node, "a number is expected here")
        return self.scalar(field, node)

    def _short_form(self, kind: Descriptor, node: yaml.ScalarNode) -> Message:
        """A message that is written as a scalar: a wrapped number, or the text of a type."""
        if kind.full_name == WRAPPER:
            message = Message(kind)
            message.values["value"] = self.scalar(kind.fields_by_name["value"], node)
            return message
        if kind.full_name == TYPE and is_text(node):
            spelt = read_type(node.value)
            if spelt is None:
                raise self.mistake(node, "a type is expected, such as `int`, `list(string)` or `map(string, bool)`")
            return type_message(spelt)
        raise self.mistake(node, f"the fields of {label(kind)} are expected here, {shape(label(kind))}")

    def _check_type(self, kind: Descriptor, pairs: Dict[str, tuple]) -> None:
        """Takes `@type` off the pairs, which has to name the message itself."""
        if TYPE_KEY in pairs:
            _, node = pairs.pop(TYPE_KEY)
            if not is_text(node) or node.value != PREFIX + kind.full_name:
                raise self.mistake(node, f"this message is {PREFIX}{kind.full_name}")

    def _with_wire(self, kind: Descriptor, node: yaml.Node, pairs: Dict[str, tuple], path: tuple, depth: int):
        """A message with its own bytes; fields beside them have to say what the bytes say."""
        key, wire = pairs.pop(WIRE_KEY)
        if kind.full_name == ANY and TYPE_KEY in pairs:
            message = Message(kind)
            message.values = {"type_url": self._type_url(pairs.pop(TYPE_KEY)[1]), "value": self._hex(wire)}
            for other, _ in pairs.values():
                raise self.mistake(other, f"no other field goes with `{TYPE_KEY}` and `{WIRE_KEY}`")
            return message
        message, before = read(kind, self._hex(wire), self.writer), len(self.mistakes)
        if pairs:
            said = self._beside_wire(kind, node, pairs, path, depth)
            if len(self.mistakes) == before and self._spelling(said) != self._spelling(message):
                raise self.mistake(
                    key, "these bytes do not say what the fields beside them say: leave out one or the other"
                )
        message.wire = bytes(message.raw)
        return message

    def _beside_wire(
        self, kind: Descriptor, node: yaml.Node, pairs: Dict[str, tuple], path: tuple, depth: int
    ) -> Message:
        """The message that the fields beside bytes say."""
        if kind.full_name == WRAPPER:
            return self.fields(kind, pairs, path, depth)
        rest = yaml.MappingNode(node.tag, list(pairs.values()), node.start_mark, node.end_mark)
        return self.message(kind, rest, path, depth)

    def _spelling(self, message: Message) -> bytes:
        """What the values of a message are in bytes, whatever bytes of its own it has."""
        return self.writer.spell(message, self.writer.write)

    def _hex(self, node: yaml.Node) -> bytes:
        if isinstance(node, yaml.ScalarNode):
            try:
                return bytes.fromhex("".join(node.value.split()))
            except ValueError:
                pass
        raise self.mistake(node, 'bytes are expected here, as pairs of hexadecimal digits: "0a 02"')

    def _type_url(self, node: yaml.Node) -> str:
        if not is_text(node):
            raise self.mistake(node, "the name of a type is expected here")
        return node.value

    def _any(self, kind: Descriptor, node: yaml.Node, pairs: Dict[str, tuple], path: tuple, depth: int) -> Message:
        """A message of any type: `@type` names it, and its fields are beside that."""
        message = Message(kind)
        if not pairs:
            return message
        if TYPE_KEY not in pairs:
            raise self.mistake(node, "`@type` is expected here, to tell what the fields are")
        _, name = pairs.pop(TYPE_KEY)
        url = self._type_url(name)
        held = held_type(url)
        if held is None:
            raise self.mistake(name, f"this type is not known here: give its bytes as `{WIRE_KEY}`")
        message.values = {"type_url": url, "value": self.writer.write(self.fields(held, pairs, path, depth + 1))}
        return message


def _is_other(key: object, missing: str) -> bool:
    """Whether a key of a policy is a field of it, and not the one that is missing."""
    part = parts_by_name(descriptor(POLICY)).get(str(key))
    return part is not None and part.name != missing


def held_type(url: str) -> Optional[Descriptor]:
    """The message that a type's URL names, or None where we do not have it."""
    try:
        return descriptor(url[len(PREFIX) :]) if url.startswith(PREFIX) else None
    except KeyError:
        return None


def encode(source: Source, dotted: bool = False, budget: int = bounds.BUDGET) -> Tuple[bytes, List[Finding]]:
    """The bytes of a file's filter, and what the engine will refuse or skip of it; raises Mistake."""
    encoding = Encoding(source, dotted)
    message = encoding.filter_of(source.compose())
    if encoding.mistakes:
        raise together(encoding.mistakes)
    encoding.find_faults(message, budget)
    return encoding.writer.write(message), encoding.findings
