"""What of a filter the engine refuses or skips, as far as reading alone tells it.

These are the faults of the messages themselves and of the types of conditions, with the engine's numbers.
"""
from typing import Dict, List, NamedTuple

from .cel.limits import MOST_LEVELS, MOST_NODES, TOO_MANY_NODES
from .faults import CHECKS, MISSING, TOO_LARGE, UNSUPPORTED, faults
from .findings import NAMES
from .instead import instead
from .messages import (
    CHECKED_EXPR,
    CONSTANT,
    EXPR,
    FILTER,
    HEADER,
    MATCHER,
    PERMISSION,
    POLICY,
    PRINCIPAL,
    RULES,
    TYPE,
    Message,
    Part,
    name_of,
    parts_by_name,
)
from .reader import BAD_TEXT, BAD_WIRE, UNKNOWN_FIELD

SKIPPED = 0
CONDITION = "condition"
UNSUPPORTED_FIELDS = {
    RULES: ("audit_logging_options",),
    PERMISSION: ("metadata", "matcher"),
    PRINCIPAL: ("source_ip", "metadata", "filter_state"),
    MATCHER: ("safe_regex",),
    HEADER: ("safe_regex_match",),
    CONSTANT: ("null_value", "double_value"),
    EXPR + ".CreateList": ("optional_indices",),
    EXPR + ".CreateStruct.Entry": ("field_key",),
}
SKIPPED_FIELDS = {
    FILTER: ("shadow_rules", "shadow_rules_stat_prefix"),
    CHECKED_EXPR: ("source_info", "expr_version"),
}
SPECIAL = frozenset(
    field for fields in (UNSUPPORTED_FIELDS, SKIPPED_FIELDS) for names in fields.values() for field in names
)
DEEPEST = {PERMISSION: ("rules", 32), PRINCIPAL: ("rules", 32), EXPR: ("nodes", MOST_LEVELS), TYPE: ("types", 64)}


class Note(NamedTuple):
    """A remark on a part: its path, the offset of its bytes, the number of the refusal (0: skipped), words, and the name of
    the field that a policy lacks."""

    path: tuple
    place: int
    number: int
    words: str
    about: str = ""

    def told(self) -> str:
        """The words with the refusal's number and name."""
        return f"{self.words} ({self.number} {NAMES[self.number]})" if self.number else self.words

    def text(self) -> str:
        """The remark with the offset of the bytes."""
        return f"byte {self.place}: {self.told()}"


def _steps(field) -> tuple:
    """The steps of a path that a finding's field is."""
    return () if field is None else field if isinstance(field, tuple) else (field,)


def notes(message: Message) -> List[Note]:
    """All remarks on a filter or on a condition; their paths begin there."""
    walk = _Walk()
    walk.message(message, (), int(name_of(message.kind) == EXPR))
    return walk.found


class _Walk:
    """A walk over a message; what it counts is that of the condition around."""

    def __init__(self):
        self.nodes = 0
        self.found: List[Note] = []

    def tell(self, path: tuple, place: int, number: int, words: str, about: str = "") -> None:
        """Keeps a remark."""
        self.found.append(Note(path, place, number, words, about))

    def message(self, message: Message, path: tuple, depth: int) -> None:
        """The remarks on a message, `depth` rules, nodes or types of its own kind deep."""
        for place, number, words in message.faults:
            self.tell(path, place, number, words)
        if not message.is_whole:
            return
        name = name_of(message.kind)
        if name in CHECKS:
            self._check(message, path)
        if name == EXPR:
            self.nodes += 1
            if self.nodes == MOST_NODES + 1:
                self.tell(path, message.start, TOO_LARGE, TOO_MANY_NODES)
        known = parts_by_name(message.kind)
        for field in message.values if len(message.values) < 2 else _in_order(message, known):
            part = known[field]
            if part.is_message or field in SPECIAL:
                self._field(message, name, part, path + (field,), depth)

    def _check(self, message: Message, path: tuple) -> None:
        """The faults of the message's own values."""
        fields_are_known = all(number not in (BAD_WIRE, BAD_TEXT, UNKNOWN_FIELD) for _, number, _ in message.faults)
        for fault in faults(message):
            if fault.number != MISSING or fields_are_known:
                self.tell(path + _steps(fault.field), fault.place, fault.number, fault.words, fault.about)

    def _field(self, message: Message, name: str, field: Part, path: tuple, depth: int) -> None:
        value, place = message.values[field.name], message.places.get(field.name, message.start)
        if field.name in UNSUPPORTED_FIELDS.get(name, ()):
            first = place[0] if isinstance(place, list) and place else place
            if value != []:
                words = f"the engine does not support {field.name}{instead(field.name)}"
                self.tell(path, first or message.start, UNSUPPORTED, words)
        elif field.name in SKIPPED_FIELDS.get(name, ()):
            if name == FILTER and value != "":
                self.tell(path, place, SKIPPED, f"the engine skips {field.name}")
        elif field.is_message and not (name == TYPE and field.name not in ("list_type", "map_type")):
            self._parts(value, field, place, path, depth)

    def _parts(self, value, field: Part, place, path: tuple, depth: int) -> None:
        places = place if isinstance(place, list) else [place] * len(value) if isinstance(value, list) else []
        if field.is_map:
            for (key, part), where in zip(value, places):
                if isinstance(part, Message):
                    self._part(part, where, path + (key,), depth)
        elif field.is_repeated:
            for index, (part, where) in enumerate(zip(value, places)):
                self._part(part, where, path + (index,), depth)
        else:
            self._part(value, place, path, depth)

    def _part(self, part: Message, place: int, path: tuple, depth: int) -> None:
        """The remarks on a message in a message; the depth of rules, nodes and types counts on."""
        name = name_of(part.kind)
        if name == CHECKED_EXPR or name == EXPR and path[-1] == CONDITION:
            self.found += [note._replace(path=path + note.path) for note in part.kept("notes", lambda: notes(part))]
            return
        if name in DEEPEST:
            what, most = DEEPEST[name]
            if name == EXPR and path[-1] == "expr":
                self.nodes, depth = 0, 0
            if depth == most:
                self.tell(path, place, TOO_LARGE, f"{what} are nested more than {most} deep")
                return
            depth += 1
        elif name == POLICY:
            depth = 0
        self.message(part, path, depth)


def _in_order(message: Message, known: Dict[str, Part]) -> List[str]:
    """The names of a message's fields by ascending number."""
    return sorted(message.values, key=lambda field: known[field].number)
