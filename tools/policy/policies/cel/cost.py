"""What a condition costs: the most steps that its code takes on any request within the limits.

A size bounds a value: ("flat",), ("text", n), ("many", n, element) and ("table", n, key, value). A cost above the
greatest budget is `TooMuch`, since its figure may be as long as one likes.
"""
from typing import Dict, NamedTuple, Tuple

from .attributes import attribute_name, free_names
from .overloads import EQUALITY, LOGIC, MEMBERSHIP, ORDER, TEXT_TESTS
from .tree import Call, Comprehension, Const, Ident, ListLiteral, Node, Select, StructLiteral

GREATEST_BUDGET = 100_000_000
FLAT = ("flat",)
# The longest text of a number: of a uint, or of an int with its sign.
MOST_DIGITS = 20


class TooMuch(Exception):
    """The cost is above the greatest budget."""


class Limits(NamedTuple):
    """The limits of a request's parts, in bytes; `fields` counts header fields."""

    fields: int = 64
    name: int = 128
    value: int = 4096
    method: int = 32
    target: int = 4096
    text: int = 1024


def cost(tree: Node, types: Dict[Node, tuple], limits: Limits = Limits()) -> int:
    """The cost of a condition without faults, whose nodes have these types; raises TooMuch."""
    return _Measure(types, limits).of(tree, {})[0]


def mass(size: tuple) -> int:
    """The mass of a value of a size."""
    if size[0] == "flat":
        return 1
    if size[0] == "text":
        return 1 + size[1]
    return 1 + size[1] * sum(map(mass, size[2:]))


def join(one: tuple, other: tuple) -> tuple:
    """The greater of each part."""
    if one[0] == "flat" or one == other:
        return other if one[0] == "flat" else one
    return (one[0], max(one[1], other[1]), *map(join, one[2:], other[2:])) if other[0] != "flat" else one


def least(kind: tuple) -> tuple:
    """The least size of a type."""
    if kind[0] in ("string", "bytes"):
        return ("text", 0)
    if kind[0] == "list":
        return ("many", 0, least(kind[1]))
    return ("table", 0, least(kind[1]), least(kind[2])) if kind[0] == "map" else FLAT


def attribute_size(name: str, kind: tuple, limits: Limits) -> tuple:
    """The size of an attribute."""
    if name == "request.headers":
        return ("table", limits.fields, ("text", limits.name), ("text", limits.value))
    if kind != ("string",):
        return FLAT
    if name in ("request.host", "request.referer", "request.useragent", "request.id"):
        return ("text", limits.value)
    if name in ("request.path", "request.url_path", "request.query"):
        return ("text", limits.target)
    return ("text", limits.method if name == "request.method" else limits.text)


class _Measure:
    """Costs and sizes of trees; a scope says of what size each local is."""

    def __init__(self, types: Dict[Node, tuple], limits: Limits):
        self.types = types
        self.limits = limits
        # What loops take and are of, by the sizes of the locals that they read.
        self.loops: Dict[tuple, Tuple[int, tuple]] = {}
        self.read: Dict[Node, Tuple[str, ...]] = {}

    def of(self, node: Node, scope: dict) -> Tuple[int, tuple]:
        """The cost and the size of a node."""
        found, size = self._of(node, scope)
        if found > GREATEST_BUDGET:
            raise TooMuch()
        return found, size

    def _of(self, node: Node, scope: dict) -> Tuple[int, tuple]:
        name = attribute_name(node, frozenset(scope))
        if name is not None:
            return 1, attribute_size(name, self.types[node], self.limits)
        if isinstance(node, Const):
            return 1, _constant_size(node)
        if isinstance(node, Ident):
            return 1, scope[node.name]
        if isinstance(node, Select):
            found, size = self.of(node.operand, scope)
            charge = 1 + (1 + len(node.field.encode())) * size[1]
            return found + charge, FLAT if node.test_only else size[3]
        if isinstance(node, Call):
            return self._call(node, scope)
        if isinstance(node, ListLiteral):
            return self._list(node, scope)
        if isinstance(node, StructLiteral):
            return self._struct(node, scope)
        return self._known_loop(node, scope)

    def _known_loop(self, loop: Comprehension, scope: dict) -> Tuple[int, tuple]:
        """The cost and the size of a loop, which is measured once for locals of the same sizes."""
        if loop not in self.read:
            self.read[loop] = tuple(sorted(free_names(loop)))
        key = (loop, tuple(scope.get(name) for name in self.read[loop]))
        if key not in self.loops:
            self.loops[key] = self._loop(loop, scope)
        return self.loops[key]

    def _list(self, node: ListLiteral, scope: dict) -> Tuple[int, tuple]:
        parts = [self.of(part, scope) for part in node.elements]
        size = least(self.types[node])
        if parts:
            size = ("many", len(parts), _join_all(size for _, size in parts))
        return sum(found for found, _ in parts) + 1 + len(parts), size

    def _struct(self, node: StructLiteral, scope: dict) -> Tuple[int, tuple]:
        keys = [self.of(entry.key, scope) for entry in node.entries]
        values = [self.of(entry.value, scope) for entry in node.entries]
        size = least(self.types[node])
        if keys:
            size = ("table", len(keys), _join_all(size for _, size in keys), _join_all(size for _, size in values))
        charge = 1 + len(keys) * sum(mass(size) for _, size in keys)
        return sum(found for found, _ in keys + values) + charge, size

    def _call(self, call: Call, scope: dict) -> Tuple[int, tuple]:
        operands = ([] if call.target is None else [call.target]) + call.args
        parts = [self.of(operand, scope) for operand in operands]
        costs, sizes = [found for found, _ in parts], [size for _, size in parts]
        if call.function in LOGIC:
            return sum(costs) + 2, FLAT
        if call.function == "_?_:_":
            return costs[0] + 1 + max(costs[1:]) + 1, join(*sizes[1:])
        charge, size = _strict(call.function, sizes)
        return sum(costs) + charge, size

    def _loop(self, loop: Comprehension, scope: dict) -> Tuple[int, tuple]:
        range_cost, size = self.of(loop.iter_range, scope)
        count = size[1]
        init_cost, accumulator = self.of(loop.accu_init, scope)
        found = range_cost + 1 + count + init_cost + 1
        variables = _variable_sizes(loop, size)
        turn = 0
        while turn < count:
            inside = {**scope, loop.accu_var: accumulator, **variables}
            condition, _ = self.of(loop.loop_condition, inside)
            step, grown = self.of(loop.loop_step, inside)
            grown = join(accumulator, grown)
            turns = count - turn if grown == accumulator else 1
            found += turns * (condition + step + 4)
            if found > GREATEST_BUDGET:
                raise TooMuch()
            turn, accumulator = turn + turns, grown
        result, size = self.of(loop.result, {**scope, loop.accu_var: accumulator})
        return found + 1 + result, size


def _variable_sizes(loop: Comprehension, size: tuple) -> Dict[str, tuple]:
    """The sizes of a loop's variables by the size of its range: of two, the first is an index or a key."""
    if not loop.iter_var2:
        return {loop.iter_var: size[2]}
    if size[0] == "many":
        return {loop.iter_var: FLAT, loop.iter_var2: size[2]}
    return {loop.iter_var: size[2], loop.iter_var2: size[3]}


def _constant_size(node: Const) -> tuple:
    if node.kind == "string":
        return ("text", len(node.value.encode()))
    return ("text", len(node.value)) if node.kind == "bytes" else FLAT


def _join_all(sizes) -> tuple:
    whole = None
    for size in sizes:
        whole = size if whole is None else join(whole, size)
    return whole


def _strict(function: str, sizes: list) -> Tuple[int, tuple]:
    """The charge of a strict call's instruction, and the size of its answer."""
    if function in EQUALITY or function in ORDER or function in TEXT_TESTS:
        return 1 + mass(sizes[0]) + mass(sizes[1]), FLAT
    if function == "_+_" and sizes[0] != FLAT:
        together = sizes[0][1] + sizes[1][1]
        parts = map(join, sizes[0][2:], sizes[1][2:])
        return 1 + together, (sizes[0][0], together, *parts)
    if function == "string" and sizes[0] == FLAT:
        return 1 + MOST_DIGITS, ("text", MOST_DIGITS)
    if function in ("string", "bytes"):
        return 1 + sizes[0][1], sizes[0]
    if function == "size":
        return 1 + sizes[0][1] if sizes[0][0] == "text" else 1, FLAT
    if function == "_[_]":
        if sizes[0][0] == "many":
            return 1, sizes[0][2]
        return 1 + mass(sizes[1]) * sizes[0][1], sizes[0][3]
    if function in MEMBERSHIP:
        if sizes[1][0] == "many":
            return 1 + mass(sizes[1]) + sizes[1][1] * mass(sizes[0]), FLAT
        return 1 + mass(sizes[0]) * sizes[1][1], FLAT
    return 1, FLAT
