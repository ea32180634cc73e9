"""Trees of CEL, as the messages of `google.api.expr.v1alpha1` hold them.

A node has an id, and the place that it was read from: that of a character in the text, or of a byte in the message.
"""
from dataclasses import dataclass, field
from typing import Iterator, Optional, Union

ROOTS = ("request", "source", "destination", "connection")
ACCUMULATOR = "__result__"
# The same in the trees of newer versions of cel-go.
NEW_ACCUMULATOR = "@result"
NOT_STRICTLY_FALSE = "@not_strictly_false"


@dataclass(eq=False)
class Node:
    """What all nodes have."""

    place: int = field(default=-1, kw_only=True)
    id: int = field(default=0, kw_only=True)


@dataclass(eq=False)
class Const(Node):
    """A literal; `kind` is null, bool, int64, uint64, double, string or bytes."""

    kind: str
    value: object


@dataclass(eq=False)
class Ident(Node):
    """A variable by its name, which may be a dotted one."""

    name: str


@dataclass(eq=False)
class Select(Node):
    """A field of a value, or with `test_only` whether it is there."""

    operand: Node
    field: str
    test_only: bool = False


@dataclass(eq=False)
class Call(Node):
    """A call of a function or an operator."""

    function: str
    args: list
    target: Optional[Node] = None


@dataclass(eq=False)
class ListLiteral(Node):
    """A list of elements."""

    elements: list


@dataclass(eq=False)
class Entry(Node):
    """One entry of a map (the key is a node) or one field of a message (the key is its name)."""

    key: Union[Node, str]
    value: Node


@dataclass(eq=False)
class StructLiteral(Node):
    """A map where `message_name` is empty, else a message."""

    entries: list
    message_name: str = ""


@dataclass(eq=False)
class Comprehension(Node):
    """A loop over a list or a map.

    With one variable, it is an element of the list or a key of the map. With `iter_var2`, the first is the index or the
    key, and the second the element or the value.
    """

    iter_var: str
    iter_range: Node
    accu_var: str
    accu_init: Node
    loop_condition: Node
    loop_step: Node
    result: Node
    iter_var2: str = field(default="", kw_only=True)

    def variables(self) -> list:
        """The names of its one or two variables."""
        return [self.iter_var, self.iter_var2] if self.iter_var2 else [self.iter_var]


BINARY = {
    "||": "_||_",
    "&&": "_&&_",
    "<": "_<_",
    "<=": "_<=_",
    ">=": "_>=_",
    ">": "_>_",
    "==": "_==_",
    "!=": "_!=_",
    "in": "@in",
    "+": "_+_",
    "-": "_-_",
    "*": "_*_",
    "/": "_/_",
    "%": "_%_",
}
INFIX = frozenset(BINARY.values()) | {"_[_]"}


def is_infix(node: Node) -> bool:
    """Whether a node is a call that is between its two operands, or after its first as an index is."""
    return isinstance(node, Call) and node.target is None and node.function in INFIX and len(node.args) == 2


def is_conditional(node: Node) -> bool:
    """Whether a node is `c ? a : b`."""
    return isinstance(node, Call) and node.target is None and node.function == "_?_:_" and len(node.args) == 3


def is_call(node: object, function: str, count: int) -> bool:
    """Whether a node is a call of that function without a target and with that many arguments."""
    return isinstance(node, Call) and node.target is None and node.function == function and len(node.args) == count


def in_order(node: Node) -> Iterator[Node]:
    """The nodes and entries of a tree in the order of its text.

    An operator is where its sign is: an infix operator and `?` after the first operand, a prefix operator and a
    function before its arguments, `.` after its operand, an entry between its key and its value. A loop is after
    its range, before its other parts.
    """
    if isinstance(node, Select):
        yield from in_order(node.operand)
        yield node
    elif isinstance(node, Call):
        yield from _call_in_order(node)
    elif isinstance(node, ListLiteral):
        yield node
        for element in node.elements:
            yield from in_order(element)
    elif isinstance(node, StructLiteral):
        yield node
        for entry in node.entries:
            if isinstance(entry.key, Node):
                yield from in_order(entry.key)
            yield entry
            yield from in_order(entry.value)
    elif isinstance(node, Comprehension):
        yield from in_order(node.iter_range)
        yield node
        for part in (node.accu_init, node.loop_condition, node.loop_step, node.result):
            yield from in_order(part)
    else:
        yield node


def _call_in_order(call: Call) -> Iterator[Node]:
    before = [call.target] if call.target is not None else []
    after = list(call.args)
    if is_infix(call) or is_conditional(call):
        before.append(after.pop(0))
    for part in before:
        yield from in_order(part)
    yield call
    for part in after:
        yield from in_order(part)


def rename_accumulators(tree: Node, old: str, new: str) -> Node:
    """Gives the accumulators of one name another, and answers the same tree."""
    for node in in_order(tree):
        if isinstance(node, Comprehension) and node.accu_var == old:
            node.accu_var = new
        elif isinstance(node, Ident) and node.name == old:
            node.name = new
    return tree


def number(tree: Node) -> Node:
    """Gives the ids 1, 2, .. in the order of the text, and answers the same tree."""
    for count, node in enumerate(in_order(tree), 1):
        node.id = count
    return tree


def shape(node: Union[Node, str]) -> tuple:
    """The tree without ids and places, as a value that can be compared."""
    if isinstance(node, str):
        return ("name", node)
    if isinstance(node, Const):
        return ("const", node.kind, repr(node.value))
    if isinstance(node, Ident):
        return ("ident", node.name)
    if isinstance(node, Select):
        return ("select", shape(node.operand), node.field, node.test_only)
    if isinstance(node, Call):
        target = shape(node.target) if node.target is not None else None
        return ("call", target, node.function, tuple(map(shape, node.args)))
    if isinstance(node, ListLiteral):
        return ("list", tuple(map(shape, node.elements)))
    if isinstance(node, StructLiteral):
        entries = tuple((shape(entry.key), shape(entry.value)) for entry in node.entries)
        return ("struct", node.message_name, entries)
    parts = (node.iter_range, node.accu_init, node.loop_condition, node.loop_step, node.result)
    return ("loop", node.iter_var, node.iter_var2, node.accu_var, tuple(map(shape, parts)))
