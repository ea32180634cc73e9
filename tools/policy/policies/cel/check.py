"""The types of a condition's tree as the engine finds them, and each fault with its node.

A node with a fault has no type, and nothing more is said of the nodes around it.
"""
from typing import Dict, Iterator, List, NamedTuple, Optional, Tuple

from . import words
from .attributes import TYPES, attribute_name, parts_of
from .fold import fold
from .nearest import NAMESPACES
from .overloads import BOOL, CONVERSIONS, FUNCTIONS, INT, KEYS, STRING, has_shape, result_type
from .tree import ROOTS, Call, Comprehension, Const, Ident, ListLiteral, Node, Select, StructLiteral
from .typetext import type_text

UNSUPPORTED, TOO_LARGE, UNKNOWN_NAME, NO_OVERLOAD, BAD_TYPE_ENTRY, BAD_REFERENCE, NOT_BOOL, NEEDS_TYPE = (
    6,
    8,
    *range(9, 15),
)
CONSTANTS = {"bool": BOOL, "int64": INT, "uint64": ("uint",), "string": STRING, "bytes": ("bytes",)}
MOST_LOCALS = 64
# Instead of a type entry that the engine does not support.
NO_KIND = ("unsupported",)
TypeEntries = Dict[int, tuple]
# By id: the name of a reference, and whether it holds a value.
References = Dict[int, Tuple[str, bool]]


class Fault(NamedTuple):
    """A fault of a condition: its node, the refusal's number, words, and the id of the type entry that is at fault."""

    node: Node
    number: int
    words: str
    entry: Optional[int] = None


class Typing(NamedTuple):
    """The type of each node that has one, the faults, and whether each node has a type and there is no fault."""

    types: Dict[Node, tuple]
    faults: List[Fault]
    is_whole: bool


def check(tree: Node, entries: Optional[TypeEntries], references: References) -> Typing:
    """The types of a condition and its faults, in the order of the tree; an unchecked condition has no entries."""
    checker = _Checker(entries, references)
    kind = checker.type_of(tree, {}, None)
    checker.tell_locals(tree, 0)
    if kind is not None and kind != BOOL:
        told = f"the condition {words.shown(tree)} is {words.a(kind)}; a condition is a bool"
        checker.tell(tree, NOT_BOOL, told)
    return Typing(checker.types, checker.faults, checker.all_known and not checker.faults)


class _Checker:
    def __init__(self, entries: Optional[TypeEntries], references: References):
        self.is_checked = entries is not None
        self.entries: TypeEntries = entries or {}
        self.references = references
        self.types: Dict[Node, tuple] = {}
        self.starts: Dict[Node, str] = {}
        # The tests of macros, which are typed before the step that they are in.
        self.tests: Dict[Node, tuple] = {}
        self.faults: List[Fault] = []
        self.all_known = True

    def tell(self, node: Node, number: int, told: str, entry: Optional[int] = None) -> None:
        """Keeps a fault."""
        self.faults.append(Fault(node, number, told, entry))

    def tell_locals(self, node: Node, around: int) -> None:
        """Tells the loops in which more variables than the limit are bound at once."""
        bound = len(node.variables()) + 1 if isinstance(node, Comprehension) else 0
        if around <= MOST_LOCALS < around + bound:
            self.tell(node, TOO_LARGE, f"more than {MOST_LOCALS} variables of loops in one another")
        for part, inside in _parts_of(node, around):
            self.tell_locals(part, inside)

    def type_of(self, node: Node, scope: dict, parent: Optional[Node]) -> Optional[tuple]:
        """The type of a node where loops bind these names, or None where it has none; its entry is compared."""
        if node in self.tests:
            return self.tests[node]
        if isinstance(node, Ident) and node.name in ROOTS and node.name not in scope:
            self.tell(node, UNKNOWN_NAME, words.bare_root(node.name, parent))
            return None
        dashed = words.dashed_header(parent) if isinstance(node, Ident) and node.name not in scope else None
        if dashed is not None:
            self.tell(node, UNKNOWN_NAME, dashed)
            return None
        kind = self._found(node, scope)
        is_empty = getattr(node, "elements", None) == [] or getattr(node, "entries", None) == []
        entry = self.entries.get(node.id)
        if entry == NO_KIND:
            self.tell(node, UNSUPPORTED, f"the engine does not support the type of node {node.id}", node.id)
        elif entry not in (None, ("dyn",)) and not is_empty and kind is not None and entry != kind:
            told = f"the type map says {type_text(entry)} of {words.shown(node)}, which is {words.a(kind)}"
            self.tell(node, BAD_TYPE_ENTRY, told, node.id)
        if kind is None:
            self.all_known = False
        else:
            self.types[node] = kind
        return kind

    def _found(self, node: Node, scope: dict) -> Optional[tuple]:
        if isinstance(node, Const):
            return CONSTANTS.get(node.kind)
        name = attribute_name(node, frozenset(scope))
        if name is not None:
            return self._attribute(node, name)
        if isinstance(node, Ident):
            return self._variable(node, scope)
        if isinstance(node, Select):
            return self._select(node, scope)
        if isinstance(node, Call):
            return self._call(node, scope)
        if isinstance(node, ListLiteral):
            return self._list(node, scope)
        if isinstance(node, StructLiteral):
            return self._struct(node, scope)
        return self._loop(node, scope)

    def _attribute(self, node: Node, name: str) -> Optional[tuple]:
        self._compare_reference(node, name)
        if name not in TYPES:
            self.tell(node, UNKNOWN_NAME, words.unknown_attribute(name))
        return TYPES.get(name)

    def _compare_reference(self, node: Node, name: str) -> None:
        said, has_value = self.references.get(node.id, (name, False))
        if said != name or has_value:
            what = "holds a value" if has_value else f"says {said}"
            self.tell(node, BAD_REFERENCE, f"the reference of {name} {what}; it has to name {name} alone")

    def _variable(self, node: Ident, scope: dict) -> Optional[tuple]:
        self._compare_reference(node, node.name)
        if node.name in scope:
            return scope[node.name]
        self.tell(node, UNKNOWN_NAME, words.unknown_variable(node.name, scope))
        return None

    def _select(self, node: Select, scope: dict) -> Optional[tuple]:
        operand = node.operand
        if isinstance(operand, Ident) and operand.name in ROOTS and operand.name not in scope:
            self.tell(node, UNKNOWN_NAME, words.tested_attribute(f"{operand.name}.{node.field}"))
            return None
        kind = self.type_of(operand, scope, node)
        if kind is None:
            return BOOL if node.test_only else None
        if kind[0] != "map" or kind[1] != STRING:
            self.tell(node, NO_OVERLOAD, words.no_field(node, kind))
            return None
        return BOOL if node.test_only else kind[2]

    def _call(self, call: Call, scope: dict) -> Optional[tuple]:
        namespace = call.target.name if isinstance(call.target, Ident) else ""
        if namespace in NAMESPACES and namespace not in scope:
            told = words.unknown_in_namespace(namespace, call.function)
            self.tell(call.target, UNKNOWN_NAME, told)
            return None
        if call.function not in FUNCTIONS:
            self.tell(call, UNKNOWN_NAME, words.unknown_function(call))
            if call.function not in words.MACROS and call.function not in words.MAKE_MAPS:
                self._types_of(call, scope)
            return None
        operands, kinds = self._types_of(call, scope)
        if not has_shape(call.function, call.target is not None, len(call.args)):
            self.tell(call, NO_OVERLOAD, words.wrong_shape(call.function))
            return None
        if None in kinds:
            return _certain_result(call.function, kinds)
        kind = result_type(call.function, kinds)
        if kind is None:
            self.tell(call, NO_OVERLOAD, words.no_overload(call, operands, kinds))
            return _certain_result(call.function, kinds)
        return kind

    def _types_of(self, call: Call, scope: dict):
        operands = ([] if call.target is None else [call.target]) + call.args
        return operands, [self.type_of(operand, scope, call) for operand in operands]

    def _list(self, node: ListLiteral, scope: dict) -> Optional[tuple]:
        if not node.elements:
            return self._empty(node, "list")
        element = self._same(node, node.elements, scope, "elements of a list")
        return None if element is None else ("list", element)

    def _struct(self, node: StructLiteral, scope: dict) -> Optional[tuple]:
        if node.message_name or any(isinstance(entry.key, str) for entry in node.entries):
            for entry in node.entries:
                self.type_of(entry.value, scope, node)
            return None
        if not node.entries:
            return self._empty(node, "map")
        key = self._same(node, [entry.key for entry in node.entries], scope, "keys of a map")
        value = self._same(node, [entry.value for entry in node.entries], scope, "values of a map")
        if key is not None and key not in KEYS:
            self.tell(
                node.entries[0].key, NO_OVERLOAD, words.other_type("a key", key, "keys are bool, int, uint or string")
            )
            return None
        return None if key is None or value is None else ("map", key, value)

    def _same(self, node: Node, parts: List[Node], scope: dict, what: str) -> Optional[tuple]:
        """The one type of all parts; the first that has another one is a fault."""
        kinds = [self.type_of(part, scope, node) for part in parts]
        known = [(part, kind) for part, kind in zip(parts, kinds) if kind is not None]
        for part, kind in known[1:]:
            if kind != known[0][1]:
                told = f"{words.shown(part)} is {words.a(kind)} and {words.shown(known[0][0])} {words.a(known[0][1])}"
                self.tell(part, NO_OVERLOAD, f"{told}; {what} have one type")
                return None
        return kinds[0] if None not in kinds else None

    def _empty(self, node: Node, container: str) -> Optional[tuple]:
        entry = self.entries.get(node.id)
        if entry == NO_KIND:
            return None
        if entry is not None and entry != ("dyn",):
            if entry[0] == container:
                return entry
            told = f"the type map says {type_text(entry)} of an empty {container}"
            self.tell(node, BAD_TYPE_ENTRY, told, node.id)
            return None
        guess = ("list", INT) if container == "list" else ("map", STRING, INT)
        known = {
            **{number: kind for number, kind in self.entries.items() if kind[0] in ("list", "map")},
            node.id: guess,
        }
        entries = ", ".join(f'{number}: "{type_text(known[number])}"' for number in sorted(known))
        told = f"nothing tells the type of this empty {container}; `type_map: {{{entries}}}` would tell one"
        if not self.is_checked:
            told = (
                f"{self.starts.get(node, f'an empty {container}')} has no type in `condition`, which has no type map: "
                "write `checked_condition`"
            )
        self.tell(node, NEEDS_TYPE, told)
        return None

    def _loop(self, loop: Comprehension, scope: dict) -> Optional[tuple]:
        folded = fold(loop)
        name = folded.name if folded else None
        range_kind = self.type_of(loop.iter_range, scope, loop)
        if range_kind is not None and range_kind[0] not in ("list", "map"):
            told = (
                f"{words.shown(loop.iter_range)} is {words.a(range_kind)}; {name or 'a loop'} goes over a list or a map"
            )
            self.tell(loop, NO_OVERLOAD, told)
            range_kind = None
        if name is not None:
            self.starts[loop.accu_init] = f"the empty list with which `{name}` starts"
        accumulator = self.type_of(loop.accu_init, scope, loop)
        inside = {**scope, **_variable_types(loop, range_kind), loop.accu_var: accumulator}
        if folded and folded.test is not None and not self._tests_bool(folded.name, folded.test, inside, loop):
            return BOOL if folded.name in words.QUANTIFIERS else accumulator
        return self._turn(loop, inside, scope, accumulator)

    def _tests_bool(self, name: str, test: Node, inside: dict, loop: Comprehension) -> bool:
        """Whether the test of a macro is a bool; else that is the loop's only fault."""
        if name in ("map", "filter") and isinstance(test, Ident) and not _is_known(test.name, inside):
            self.tell(test, UNKNOWN_NAME, words.second_variable(test.name, inside))
            return False
        before = len(self.faults)
        kind = self.type_of(test, inside, loop)
        if kind is not None and kind != BOOL:
            self.tell(test, NO_OVERLOAD, f"{words.shown(test)} is {words.a(kind)}; {name} takes a test that is a bool")
        fits = kind == BOOL and len(self.faults) == before
        if fits:
            self.tests[test] = BOOL
        return fits

    def _turn(self, loop: Comprehension, inside: dict, scope: dict, accumulator: Optional[tuple]) -> Optional[tuple]:
        """The types of a loop's condition, step and result."""
        condition = self.type_of(loop.loop_condition, inside, loop)
        if condition is not None and condition != BOOL:
            told = words.other_type("the condition of a loop", condition, "it is a bool")
            self.tell(loop.loop_condition, NO_OVERLOAD, told)
        step = self.type_of(loop.loop_step, inside, loop)
        if step is not None and accumulator is not None and step != accumulator:
            told = f"a loop's step is {words.a(step)} and its start {words.a(accumulator)}; both have one type"
            self.tell(loop, NO_OVERLOAD, told)
        return self.type_of(loop.result, {**scope, loop.accu_var: accumulator}, loop)


def _is_known(name: str, scope: dict) -> bool:
    """Whether a loop binds a name, or it may be of an attribute."""
    return name in scope or name.partition(".")[0] in ROOTS


def _variable_types(loop: Comprehension, kind: Optional[tuple]) -> Dict[str, Optional[tuple]]:
    """The types of a loop's variables by the type of its range: of two, the first is an index or a key."""
    if kind is None:
        return dict.fromkeys(loop.variables())
    if not loop.iter_var2:
        return {loop.iter_var: kind[1]}
    return {loop.iter_var: INT if kind[0] == "list" else kind[1], loop.iter_var2: kind[-1]}


def _parts_of(node: Node, around: int) -> Iterator[Tuple[Node, int]]:
    """The parts of a node, each with how many variables of loops are bound there."""
    if not isinstance(node, Comprehension):
        return ((part, around) for part, _ in parts_of(node, frozenset()))
    inside = around + len(node.variables()) + 1
    parts = (node.iter_range, node.accu_init, node.loop_condition, node.loop_step, node.result)
    return zip(parts, (around, around, inside, inside, around + 1))


def _certain_result(function: str, kinds: List[Optional[tuple]]) -> Optional[tuple]:
    """The type of a call's result where its function alone tells it."""
    if function in ("_+_", "_-_", "_*_", "_/_", "_%_", "-_", "_?_:_", "_[_]"):
        return None
    if function in CONVERSIONS:
        return CONVERSIONS[function][1]
    return INT if function == "size" else BOOL
