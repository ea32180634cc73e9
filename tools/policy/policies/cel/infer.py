"""The types of empty literals, worked out from what is around them.

An empty list or map has no element to tell its type; the other side of an operator, the branch beside it, the elements
beside it or a loop over it may. Each function's operands and result are tied together as the function table does;
what contradicts itself is left alone here, since telling it is the engine's part.
"""
from typing import Callable, Dict, List, Optional

from .attributes import TYPES, attribute_name
from .tree import Call, Comprehension, Const, Ident, ListLiteral, Node, Select, StructLiteral

BOOL, INT, UINT, DOUBLE, STRING, BYTES = ((name,) for name in "bool int uint double string bytes".split())
CONSTANTS = {"bool": BOOL, "int64": INT, "uint64": UINT, "double": DOUBLE, "string": STRING, "bytes": BYTES}
SAME_TO_BOOL = frozenset(["_==_", "_!=_", "_<_", "_<=_", "_>=_", "_>_"])
SAME_TO_SAME = frozenset(["_+_", "_-_", "_*_", "_/_", "_%_", "-_"])
BOOLS_TO_BOOL = frozenset(["_&&_", "_||_", "!_", "@not_strictly_false", "__not_strictly_false__"])
MEMBERSHIP = frozenset(["@in", "_in_", "in"])
RESULTS = {
    "size": INT,
    "contains": BOOL,
    "startsWith": BOOL,
    "endsWith": BOOL,
    "int": INT,
    "uint": UINT,
    "string": STRING,
    "bytes": BYTES,
}
# What all operands of a function are; `string` takes several types.
OPERANDS = {**dict.fromkeys(["contains", "startsWith", "endsWith", "bytes"], STRING), "int": UINT, "uint": INT}


class Unknown:
    """A type that is not known yet; it may become another."""

    def __init__(self):
        self.stands_for = None


def types_of_empty(tree: Node) -> Dict[Node, Optional[tuple]]:
    """Each empty list or map literal of a tree, in the order it was met, with its type or None where nothing tells it.

    A type is a tuple: its name, then its parts (`("list", element)`, `("map", key, value)`).
    """
    inference = _Inference()
    inference.type_of(tree, {})
    inference.settle()
    return {literal: _known(kind) for literal, kind in inference.empty.items()}


def _resolve(kind):
    while isinstance(kind, Unknown) and kind.stands_for is not None:
        kind = kind.stands_for
    return kind


def _known(kind) -> Optional[tuple]:
    """The type with nothing unknown in it, or None."""
    kind = _resolve(kind)
    if isinstance(kind, Unknown):
        return None
    parts = [_known(part) for part in kind[1:]]
    return None if None in parts else (kind[0], *parts)


def _occurs(unknown: Unknown, kind) -> bool:
    kind = _resolve(kind)
    if isinstance(kind, Unknown):
        return kind is unknown
    return any(_occurs(unknown, part) for part in kind[1:])


def _tie(left, right) -> None:
    """Makes two types one, as far as they do not contradict each other."""
    left, right = _resolve(left), _resolve(right)
    if left is right:
        return
    if isinstance(left, Unknown):
        if not _occurs(left, right):
            left.stands_for = right
    elif isinstance(right, Unknown):
        _tie(right, left)
    elif left[0] == right[0]:
        for one, other in zip(left[1:], right[1:]):
            _tie(one, other)


class _Inference:
    def __init__(self):
        self.empty: Dict[Node, object] = {}
        self.waiting: List[Callable[[], bool]] = []

    def settle(self) -> None:
        """Asks what waits for a container's kind again until nothing new is learnt."""
        learnt = True
        while learnt:
            before = self.waiting
            self.waiting = []
            for ask in before:
                self._when_known(ask)
            learnt = len(self.waiting) < len(before)

    def _when_known(self, ask: Callable[[], bool]) -> None:
        if not ask():
            self.waiting.append(ask)

    def type_of(self, node: Node, scope: dict):
        """The type of a node where the loops bind these names to these types."""
        if isinstance(node, Const):
            return CONSTANTS.get(node.kind) or Unknown()
        attribute = attribute_name(node, frozenset(scope))
        if attribute is not None:
            return TYPES.get(attribute) or Unknown()
        if isinstance(node, Ident):
            return scope.get(node.name) or Unknown()
        if isinstance(node, Select):
            return self._select(node, scope)
        if isinstance(node, Call):
            return self._call(node, scope)
        if isinstance(node, ListLiteral):
            return self._list(node, scope)
        if isinstance(node, StructLiteral):
            return self._struct(node, scope)
        return self._loop(node, scope)

    def _select(self, node: Select, scope: dict):
        value = Unknown()
        _tie(self.type_of(node.operand, scope), ("map", STRING, value))
        return BOOL if node.test_only else value

    def _list(self, node: ListLiteral, scope: dict):
        element = Unknown()
        for part in node.elements:
            _tie(element, self.type_of(part, scope))
        if not node.elements:
            self.empty[node] = ("list", element)
        return ("list", element)

    def _struct(self, node: StructLiteral, scope: dict):
        key, value = Unknown(), Unknown()
        for entry in node.entries:
            if isinstance(entry.key, Node):
                _tie(key, self.type_of(entry.key, scope))
                _tie(value, self.type_of(entry.value, scope))
            else:
                self.type_of(entry.value, scope)
        if node.message_name:
            return Unknown()
        if not node.entries:
            self.empty[node] = ("map", key, value)
        return ("map", key, value)

    def _call(self, call: Call, scope: dict):
        operands = [] if call.target is None else [call.target]
        kinds = [self.type_of(operand, scope) for operand in operands + call.args]
        if call.function in SAME_TO_BOOL | SAME_TO_SAME:
            for kind in kinds[1:]:
                _tie(kinds[0], kind)
            return BOOL if call.function in SAME_TO_BOOL else kinds[0] if kinds else Unknown()
        if call.function in BOOLS_TO_BOOL:
            for kind in kinds:
                _tie(kind, BOOL)
            return BOOL
        if call.function == "_?_:_" and len(kinds) == 3:
            _tie(kinds[0], BOOL)
            _tie(kinds[1], kinds[2])
            return kinds[1]
        if call.function == "_[_]" and len(kinds) == 2:
            return self._index(*kinds)
        if call.function in MEMBERSHIP and len(kinds) == 2:
            self._membership(*kinds)
            return BOOL
        if call.function in OPERANDS:
            for kind in kinds:
                _tie(kind, OPERANDS[call.function])
        return RESULTS.get(call.function) or Unknown()

    def _index(self, container, index):
        result = Unknown()
        self._index_of(container, index, result)
        return result

    def _index_of(self, container, index, result) -> None:
        """Ties an index or a key, and what a list or a map holds there."""

        def ask() -> bool:
            kind = _resolve(container)
            if isinstance(kind, Unknown):
                return False
            if kind[0] == "list":
                _tie(index, INT)
                _tie(kind[1], result)
            elif kind[0] == "map":
                _tie(index, kind[1])
                _tie(kind[2], result)
            return True

        self._when_known(ask)

    def _membership(self, item, container) -> None:
        def ask() -> bool:
            kind = _resolve(container)
            if isinstance(kind, Unknown):
                return False
            if kind[0] in ("list", "map"):
                _tie(item, kind[1])
            return True

        self._when_known(ask)

    def _loop(self, loop: Comprehension, scope: dict):
        walked = self.type_of(loop.iter_range, scope)
        variables = {name: Unknown() for name in loop.variables()}
        if loop.iter_var2:
            self._index_of(walked, variables[loop.iter_var], variables[loop.iter_var2])
        else:
            self._membership(variables[loop.iter_var], walked)
        accumulator = self.type_of(loop.accu_init, scope)
        inside = {**scope, loop.accu_var: accumulator, **variables}
        _tie(self.type_of(loop.loop_condition, inside), BOOL)
        _tie(accumulator, self.type_of(loop.loop_step, inside))
        return self.type_of(loop.result, {**scope, loop.accu_var: accumulator})
