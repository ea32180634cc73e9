"""Trees of CEL and types to their messages, and back."""
from typing import Iterator, Optional, Tuple

from .cel.tree import Call, Comprehension, Const, Entry, Ident, ListLiteral, Node, Select, StructLiteral
from .messages import EXPR, TYPE, Message, descriptor

PRIMITIVES = {"bool": 1, "int": 2, "uint": 3, "double": 4, "string": 5, "bytes": 6}
PRIMITIVE_NAMES = {number: name for name, number in PRIMITIVES.items()}


class NoTree(Exception):
    """A message that is no tree of the language's text."""


def _part(name: str, values: dict) -> Message:
    """A message with the values that are not None."""
    message = Message(descriptor(name))
    message.values = {key: value for key, value in values.items() if value is not None and value != []}
    return message


def tree_message(node: Node) -> Message:
    """The `Expr` of a tree."""
    member, part = _member(node)
    return _part(EXPR, {"id": node.id, member: part})


def _member(node: Node):
    if isinstance(node, Const):
        name = f"{node.kind}_value"
        value = 0 if node.kind == "null" else node.value
        return "const_expr", _part("google.api.expr.v1alpha1.Constant", {name: value})
    if isinstance(node, Ident):
        return "ident_expr", _part(EXPR + ".Ident", {"name": node.name})
    if isinstance(node, Select):
        values = {"operand": tree_message(node.operand), "field": node.field, "test_only": node.test_only}
        return "select_expr", _part(EXPR + ".Select", values)
    if isinstance(node, Call):
        target = None if node.target is None else tree_message(node.target)
        values = {"target": target, "function": node.function, "args": [tree_message(part) for part in node.args]}
        return "call_expr", _part(EXPR + ".Call", values)
    if isinstance(node, ListLiteral):
        return "list_expr", _part(EXPR + ".CreateList", {"elements": [tree_message(part) for part in node.elements]})
    if isinstance(node, StructLiteral):
        values = {"message_name": node.message_name, "entries": [_entry_message(entry) for entry in node.entries]}
        return "struct_expr", _part(EXPR + ".CreateStruct", values)
    values = {"iter_var": node.iter_var, "accu_var": node.accu_var, "iter_var2": node.iter_var2}
    for name in LOOP_PARTS:
        values[name] = tree_message(getattr(node, name))
    return "comprehension_expr", _part(EXPR + ".Comprehension", values)


LOOP_PARTS = ("iter_range", "accu_init", "loop_condition", "loop_step", "result")


def _entry_message(entry: Entry) -> Message:
    key = {"field_key": entry.key} if isinstance(entry.key, str) else {"map_key": tree_message(entry.key)}
    return _part(EXPR + ".CreateStruct.Entry", {"id": entry.id, **key, "value": tree_message(entry.value)})


def message_tree(message: Optional[Message]) -> Node:
    """The tree of an `Expr`, places being offsets of bytes; raises NoTree where a part is absent or in no text."""
    if message is None:
        raise NoTree()
    member = message.which("expr_kind")
    if member is None:
        raise NoTree()
    node = READERS[member](message.get(member))
    node.id = message.scalar("id")
    node.place = message.start
    return node


def _const(part: Message) -> Node:
    member = part.which("constant_kind")
    if member is None:
        raise NoTree()
    kind = member[: -len("_value")]
    return Const(kind, None if kind == "null" else part.get(member))


def _select(part: Message) -> Node:
    return Select(message_tree(part.get("operand")), part.scalar("field"), part.scalar("test_only"))


def _call(part: Message) -> Node:
    target = part.get("target")
    args = [message_tree(one) for one in part.get("args") or []]
    return Call(part.scalar("function"), args, None if target is None else message_tree(target))


def _list(part: Message) -> Node:
    if "optional_indices" in part.values:
        raise NoTree()
    return ListLiteral([message_tree(one) for one in part.get("elements") or []])


def _struct(part: Message) -> Node:
    return StructLiteral([_entry(one) for one in part.get("entries") or []], part.scalar("message_name"))


def _entry(part: Message) -> Entry:
    member = part.which("key_kind")
    if member is None or part.scalar("optional_entry"):
        raise NoTree()
    key = part.get(member)
    entry = Entry(key if member == "field_key" else message_tree(key), message_tree(part.get("value")))
    entry.id = part.scalar("id")
    entry.place = part.start
    return entry


def _loop(part: Message) -> Node:
    names = {name: part.scalar(name) for name in ("iter_var", "accu_var", "iter_var2")}
    parts = {name: message_tree(part.get(name)) for name in LOOP_PARTS}
    return Comprehension(**names, **parts)


READERS = {
    "const_expr": _const,
    "ident_expr": lambda part: Ident(part.scalar("name")),
    "select_expr": _select,
    "call_expr": _call,
    "list_expr": _list,
    "struct_expr": _struct,
    "comprehension_expr": _loop,
}


def node_paths(node: Node, path: tuple = ()) -> Iterator[Tuple[Node, tuple]]:
    """The nodes of a tree, each with the steps from the tree's message to its own."""
    yield node, path
    for part, steps in _parts_of(node):
        yield from node_paths(part, path + steps)


def _parts_of(node: Node) -> Iterator[Tuple[Node, tuple]]:
    """The nodes in a node, each with the steps to it."""
    if isinstance(node, Select):
        yield node.operand, ("select_expr", "operand")
    elif isinstance(node, Call):
        if node.target is not None:
            yield node.target, ("call_expr", "target")
        for index, part in enumerate(node.args):
            yield part, ("call_expr", "args", index)
    elif isinstance(node, ListLiteral):
        for index, part in enumerate(node.elements):
            yield part, ("list_expr", "elements", index)
    elif isinstance(node, StructLiteral):
        for index, entry in enumerate(node.entries):
            if isinstance(entry.key, Node):
                yield entry.key, ("struct_expr", "entries", index, "map_key")
            yield entry.value, ("struct_expr", "entries", index, "value")
    elif isinstance(node, Comprehension):
        for name in LOOP_PARTS:
            yield getattr(node, name), ("comprehension_expr", name)


def type_message(kind: tuple) -> Message:
    """The `Type` of a type."""
    if kind[0] in PRIMITIVES:
        return _part(TYPE, {"primitive": PRIMITIVES[kind[0]]})
    if kind[0] == "dyn":
        return _part(TYPE, {"dyn": _part("google.protobuf.Empty", {})})
    parts = [type_message(part) for part in kind[1:]]
    if kind[0] == "list":
        return _part(TYPE, {"list_type": _part(TYPE + ".ListType", {"elem_type": parts[0]})})
    return _part(TYPE, {"map_type": _part(TYPE + ".MapType", {"key_type": parts[0], "value_type": parts[1]})})


def message_type(message: Optional[Message]) -> Optional[tuple]:
    """The type of a `Type`, or None where it has no text."""
    member = message.which("type_kind") if message is not None else None
    part = message.get(member) if member else None
    if member == "primitive" and part in PRIMITIVE_NAMES:
        return (PRIMITIVE_NAMES[part],)
    if member == "dyn":
        return ("dyn",)
    if member == "list_type":
        parts = [message_type(part.get("elem_type"))]
    elif member == "map_type":
        parts = [message_type(part.get("key_type")), message_type(part.get("value_type"))]
    else:
        return None
    return None if None in parts else (member[: -len("_type")], *parts)
