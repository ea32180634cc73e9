"""Conditions as texts of CEL: `text`, with `ids`, `dotted`, `accumulator` and the maps of types and references where
they are given.

These keys are instead of `expr`. Without `ids` they run in the order of the text, from 1; without `type_map` the
entries are those of the empty literals whose types the text tells. `accumulator` is the name that macros give theirs.
"""
from typing import Callable, List, NamedTuple, Optional

import yaml

from .cel.attributes import spellings
from .cel.check import BAD_REFERENCE, BAD_TYPE_ENTRY, NEEDS_TYPE, UNSUPPORTED, Fault
from .cel.infer import types_of_empty
from .cel.limits import is_within_limits
from .cel.mistake import TextMistake
from .cel.parse import parse
from .cel.printing import text_of
from .cel.tree import (
    ACCUMULATOR,
    NEW_ACCUMULATOR,
    Comprehension,
    Const,
    Node,
    in_order,
    rename_accumulators,
)
from .conditions_typing import tree_of, typing_of
from .findings import Finding
from .messages import CHECKED_EXPR, EXPR, Message, descriptor
from .places import Mistake
from .spelling import index_of, spread
from .scalars import is_bool, is_text
from .trees import NoTree, message_tree, node_paths, tree_message, type_message
from .writer import PLAIN, Writer

CONDITION = "condition"
# Faults that the maps beside a text may be the reason of.
OF_MAPS = (UNSUPPORTED, BAD_TYPE_ENTRY, BAD_REFERENCE, NEEDS_TYPE)
TEXT_KEY, IDS_KEY, DOTTED_KEY, ACCUMULATOR_KEY = "text", "ids", "dotted", "accumulator"
ODD_CONSTANTS = {
    "double": "the profile has no doubles: write a whole number",
    "null": "the profile has no null: ask for a key with `in` or `has`",
}


def type_entries(tree: Node) -> list:
    """The entries of the type map that a tree's empty literals get, by ascending id."""
    known = {literal.id: kind for literal, kind in types_of_empty(tree).items() if kind is not None}
    return [(number, type_message(known[number])) for number in sorted(known)]


class Written(NamedTuple):
    """A condition that was given as text: the tree of the text, the message that is made of it, and whether some of it has a
    mistake."""

    tree: Optional[Node]
    message: Message
    is_partial: bool


def encode_text(encoding, kind, pairs: dict, path: tuple, depth: int) -> Message:
    """The `CheckedExpr` or `Expr` of a condition given as text; one that is given again is made once."""
    _, node = pairs.pop(TEXT_KEY)
    if not is_text(node):
        raise encoding.mistake(node, "a text of CEL is expected here; put it in quotes")
    beside = tuple(sorted((name, id(value)) for name, (_, value) in pairs.items()))
    key = (kind.full_name, node.value, encoding.dotted, beside)
    written = encoding.conditions.get(key)
    if written is None:
        written = encoding.conditions[key] = _Beside(encoding, kind, pairs, path).written(node, depth)
        written.message.wire = encoding.writer.write(written.message)
    encoding.grow(node, len(written.message.wire))
    if written.is_partial:
        encoding.wrong.append(path + (TEXT_KEY,))
    if written.tree is not None:
        _keep_places(encoding, node, written, path)
    return written.message


class _Beside:
    """The fields beside the text of one condition; mistakes are kept."""

    def __init__(self, encoding, kind, pairs: dict, path: tuple):
        self.encoding = encoding
        self.kind = kind
        self.pairs = pairs
        self.path = path

    def written(self, node: yaml.ScalarNode, depth: int) -> Written:
        """The condition of a text."""
        before = len(self.encoding.mistakes)
        dotted, accumulator, ids = self._dotted(), self._accumulator(), self.pairs.pop(IDS_KEY, None)
        key = (node.value, dotted, accumulator)
        tree = self.encoding.trees.get(key) if ids is None else None
        if tree is None:
            tree = self._tried(lambda: _parse(self.encoding, node, dotted, accumulator))
        if tree is not None and ids is not None:
            self._give_ids(tree, ids[1])
        elif tree is not None:
            self.encoding.trees[key] = tree
        message = self._message(tree, depth)
        return Written(tree, message, len(self.encoding.mistakes) > before)

    def _tried(self, make: Callable):
        """What is made, or None if there is a mistake, which is kept."""
        try:
            return make()
        except Mistake as mistake:
            self.encoding.keep(mistake, self.path + (TEXT_KEY,))
            return None

    def _tell(self, node: yaml.Node, words: str) -> None:
        self.encoding.keep(self.encoding.mistake(node, words), self.path + (TEXT_KEY,))

    def _message(self, tree: Optional[Node], depth: int) -> Message:
        """The message of a condition's tree, with the fields beside its text."""
        is_checked = self.kind.full_name == CHECKED_EXPR
        for name in list(self.pairs):
            if not is_checked or name == "expr":
                self._tell(self.pairs.pop(name)[0], f"`{name}` cannot be used together with `{TEXT_KEY}`")
        if not is_checked:
            return Message(self.kind) if tree is None else tree_message(tree)
        message = self.encoding.fields(self.kind, self.pairs, self.path, depth)
        if tree is not None:
            message.values["expr"] = tree_message(tree)
            if "type_map" not in message.values and is_within_limits(tree):
                message.values["type_map"] = type_entries(tree)
        return message

    def _dotted(self) -> bool:
        if DOTTED_KEY not in self.pairs:
            return self.encoding.dotted
        _, node = self.pairs.pop(DOTTED_KEY)
        if not is_bool(node):
            self._tell(node, "true or false is expected")
        return getattr(node, "value", "") == "true"

    def _accumulator(self) -> str:
        if ACCUMULATOR_KEY not in self.pairs:
            return ACCUMULATOR
        _, node = self.pairs.pop(ACCUMULATOR_KEY)
        if is_text(node) and node.value in (ACCUMULATOR, NEW_ACCUMULATOR):
            return node.value
        names = f'"{NEW_ACCUMULATOR}" or {ACCUMULATOR}'
        self._tell(node, f"the name of cel-go's accumulators is expected here: {names}")
        return ACCUMULATOR

    def _give_ids(self, tree: Node, node: yaml.Node) -> None:
        """Gives the tree the ids of a list, in the order of the text."""
        nodes = list(in_order(tree))
        listed = node.value if isinstance(node, yaml.SequenceNode) else None
        if listed is None or len(listed) != len(nodes):
            self._tell(node, f"a list of {len(nodes)} numbers is expected here, one for each node of the tree")
        field = descriptor(EXPR).fields_by_name["id"]
        for part, scalar in zip(nodes, listed or []):
            number = self._tried(lambda: self.encoding.number(field, scalar))
            part.id = number or 0


def _keep_places(encoding, node: yaml.ScalarNode, written: Written, path: tuple) -> None:
    """Keeps where a condition's text is, and its faults, each once for a text in the file."""
    is_checked = written.message.kind.full_name == CHECKED_EXPR
    if is_checked:
        path += ("expr",)
    encoding.marks[path] = node
    if path[0] != "rules" or not is_checked and path[-1] != CONDITION:
        return
    encoding.texts[path] = written.tree
    if id(node) not in encoding.told_texts:
        encoding.told_texts.add(id(node))
        _tell_faults(encoding, node, written, path)


def _tell_faults(encoding, node: yaml.ScalarNode, written: Written, path: tuple) -> None:
    """Keeps the faults of a condition's text with their places in it; the path is that of its tree."""
    untold = OF_MAPS if written.is_partial else (UNSUPPORTED,)
    is_unchecked = written.message.kind.full_name == EXPR
    typing, expr = typing_of(written.message), written.message if is_unchecked else written.message.get("expr")
    faults = [fault for fault in typing.faults if fault.number not in untold] if typing is not None else []
    known = tree_of(expr)
    faults += _odd_constants(known)
    if not faults:
        return
    paths, indices = dict(node_paths(known, path)), spread(encoding.source, node)
    in_text = {part: other.place for part, other in zip(in_order(known), in_order(written.tree))}
    for fault in faults:
        place = encoding.source.place_of(indices[in_text[fault.node]])
        encoding.findings.append(Finding(fault.number, fault.words, place, paths[fault.node]))


def _parse(encoding, node: yaml.ScalarNode, dotted: bool, accumulator: str) -> Node:
    """The tree of a condition's text; raises Mistake."""
    try:
        if node.value in encoding.wrong_texts:
            raise encoding.wrong_texts[node.value]
        return rename_accumulators(parse(node.value, dotted), ACCUMULATOR, accumulator)
    except TextMistake as fault:
        encoding.wrong_texts[node.value] = fault
        index = index_of(encoding.source, node, fault.place)
        raise encoding.source.mistake(encoding.source.place_of(index), fault.message, fault.number) from None


def _odd_constants(tree: Node) -> List[Fault]:
    """The literals of kinds that the engine does not have."""
    odd = [part for part in in_order(tree) if isinstance(part, Const) and part.kind in ODD_CONSTANTS]
    return [Fault(part, UNSUPPORTED, ODD_CONSTANTS[part.kind]) for part in odd]


class TextForm(NamedTuple):
    """A condition as text: whether attributes are dotted, the accumulators' name, the ids where they are not 1, 2, ..,
    and whether the type map is the one that the text gets by itself."""

    text: str
    dotted: bool
    accumulator: str
    ids: Optional[List[int]]
    has_own_types: bool


def text_form(message: Message, writer: Writer) -> Optional[TextForm]:
    """The text that `encode_text` makes the same condition of with that writer, or None."""
    is_checked = message.kind.full_name == CHECKED_EXPR
    expr = message.get("expr") if is_checked else message
    try:
        tree = message_tree(expr)
    except NoTree:
        return None
    dotted = any(is_variable for _, is_variable in spellings(tree))
    accumulator = ACCUMULATOR
    if any(isinstance(node, Comprehension) and node.accu_var == NEW_ACCUMULATOR for node in in_order(tree)):
        accumulator = NEW_ACCUMULATOR
    text = text_of(rename_accumulators(tree, accumulator, ACCUMULATOR), dotted)
    if text is None:
        return None
    ids = [node.id for node in in_order(tree)]
    again = rename_accumulators(parse(text, dotted), ACCUMULATOR, accumulator)
    for node, number in zip(in_order(again), ids):
        node.id = number
    if writer.write(tree_message(again)) != expr.raw:
        return None
    has_own_types = is_checked and _entry_bytes(type_entries(tree)) != _entry_bytes(message.get("type_map") or [])
    other_ids = None if ids == list(range(1, len(ids) + 1)) else ids
    return TextForm(text, dotted, accumulator, other_ids, has_own_types)


def _entry_bytes(entries: list) -> list:
    return [(key, PLAIN.write(value)) for key, value in entries]
