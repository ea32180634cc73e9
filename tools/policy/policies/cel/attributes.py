"""The attributes of a request, and their two spellings: a field of a root, and a variable of a dotted name.

A root is `request`, `source`, `destination` or `connection` where no variable of a loop has that name.
"""
from typing import Callable, FrozenSet, Iterator, Optional, Tuple

from .overloads import MEMBERSHIP
from .tree import ROOTS, Call, Comprehension, Const, Entry, Ident, ListLiteral, Node, Select, StructLiteral

STRINGS = (
    "request.path request.url_path request.host request.scheme request.method request.referer request.useragent "
    "request.id request.protocol request.query source.address destination.address connection.requested_server_name "
    "connection.tls_version connection.subject_peer_certificate connection.dns_san_peer_certificate "
    "connection.uri_san_peer_certificate"
)
TYPES = {
    **{name: ("string",) for name in STRINGS.split()},
    "source.port": ("int",),
    "destination.port": ("int",),
    "connection.mtls": ("bool",),
    "connection.id": ("uint",),
    "request.headers": ("map", ("string",), ("string",)),
}
HEADERS = "request.headers"
# Attributes that are headers, which a request may lack.
OF_HEADERS = {"request.referer": "referer", "request.useragent": "user-agent", "request.id": "x-request-id"}
Scope = FrozenSet[str]


def attribute_name(node: Node, scope: Scope) -> Optional[str]:
    """The dotted name that a select of a root or a dotted variable spells where loops bind these names, or None."""
    if isinstance(node, Select) and isinstance(node.operand, Ident) and not node.test_only:
        root = node.operand.name
        return f"{root}.{node.field}" if root in ROOTS and root not in scope else None
    if isinstance(node, Ident) and node.name not in scope:
        root, dot, field = node.name.partition(".")
        return node.name if root in ROOTS and dot and field else None
    return None


def header_key(node: Node, scope: Scope) -> Optional[Tuple[str, str]]:
    """The name of a header that a node reads or asks for, and how: attribute, index, select, has or in."""
    attribute = OF_HEADERS.get(attribute_name(node, scope) or "")
    if attribute is not None:
        return attribute, "attribute"
    if isinstance(node, Select) and attribute_name(node.operand, scope) == HEADERS:
        return node.field, "has" if node.test_only else "select"
    if not isinstance(node, Call) or len(node.args) != 2:
        return None
    container, key, way = node.args[0], node.args[1], "index"
    if node.function in MEMBERSHIP:
        container, key, way = key, container, "in"
    elif node.function != "_[_]":
        return None
    if attribute_name(container, scope) != HEADERS or not isinstance(key, Const) or key.kind != "string":
        return None
    return key.value, way


def join_attributes(node: Node, scope: Scope = frozenset()) -> Node:
    """The tree with each select of a root as a variable of the dotted name."""
    name = attribute_name(node, scope)
    if name is not None:
        return Ident(name, place=node.place)
    _replace_parts(node, scope, join_attributes)
    return node


def spellings(node: Node, scope: Scope = frozenset()) -> Iterator[Tuple[Node, bool]]:
    """The attributes of a tree, each with whether it is a dotted variable."""
    if attribute_name(node, scope) is not None:
        yield node, isinstance(node, Ident)
        return
    for part, inner in parts_of(node, scope):
        yield from spellings(part, inner)


def parts_of(node: Node, scope: Scope) -> Iterator[Tuple[Node, Scope]]:
    """The parts of a node that are nodes, each with the names that loops bind there."""
    if isinstance(node, Select):
        yield node.operand, scope
    elif isinstance(node, Call):
        for part in [node.target, *node.args]:
            if part is not None:
                yield part, scope
    elif isinstance(node, ListLiteral):
        for element in node.elements:
            yield element, scope
    elif isinstance(node, StructLiteral):
        for entry in node.entries:
            if isinstance(entry.key, Node):
                yield entry.key, scope
            yield entry.value, scope
    elif isinstance(node, Comprehension):
        inside = scope | {*node.variables(), node.accu_var}
        yield node.iter_range, scope
        yield node.accu_init, scope
        yield node.loop_condition, inside
        yield node.loop_step, inside
        yield node.result, scope | {node.accu_var}


def _replace_parts(node: Node, scope: Scope, change: Callable[[Node, Scope], Node]) -> None:
    """Puts each part's change in its place."""
    if isinstance(node, Select):
        node.operand = change(node.operand, scope)
    elif isinstance(node, Call):
        node.target = None if node.target is None else change(node.target, scope)
        node.args = [change(part, scope) for part in node.args]
    elif isinstance(node, ListLiteral):
        node.elements = [change(part, scope) for part in node.elements]
    elif isinstance(node, StructLiteral):
        node.entries = [_changed_entry(entry, scope, change) for entry in node.entries]
    elif isinstance(node, Comprehension):
        inside = scope | {*node.variables(), node.accu_var}
        node.iter_range = change(node.iter_range, scope)
        node.accu_init = change(node.accu_init, scope)
        node.loop_condition = change(node.loop_condition, inside)
        node.loop_step = change(node.loop_step, inside)
        node.result = change(node.result, scope | {node.accu_var})


def _changed_entry(entry: Entry, scope: Scope, change: Callable[[Node, Scope], Node]) -> Entry:
    if isinstance(entry.key, Node):
        entry.key = change(entry.key, scope)
    entry.value = change(entry.value, scope)
    return entry


def free_names(node: Node) -> FrozenSet[str]:
    """The names of the variables in a tree that no loop in it binds, those of roots and dotted ones included."""
    if isinstance(node, Ident):
        return frozenset([node.name])
    names: set = set()
    for part, bound in parts_of(node, frozenset()):
        names |= free_names(part) - bound
    return frozenset(names)
