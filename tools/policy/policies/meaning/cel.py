"""Conditions as formulas: when each is true, and when it is an error."""
from typing import Dict, Optional, Tuple

import z3

from ..cel.attributes import HEADERS as ALL_HEADERS
from ..cel.attributes import OF_HEADERS, attribute_name
from ..cel.overloads import MEMBERSHIP
from ..cel.tree import Call, Comprehension, Const, Ident, ListLiteral, Node, Select, StructLiteral
from ..compare.texts import EXACT
from .domains import METHOD_TEXT, PATH, QUERY, SCHEME_TEXT, TARGET_TEXT, WHOLE
from .formulas import FALSE, TRUE, both, either, no
from .loops import Loops
from .operations import ARITHMETIC, ORDERS, TEXT_TESTS, added, arithmetic, converted, equal, logic, ordered, size
from .request import MTLS, NUMBERS, RequestModel
from .terms import EMPTY, Chosen, Literal, NotModelled, Variable, compared
from .values import (
    BOOL,
    HEADERS,
    INT,
    LIST,
    MAP,
    STRING,
    UINT,
    Possible,
    Value,
    bool_of,
    choice,
    errors_of,
    list_of,
    text_of,
    truth,
)

OF_TARGET = {"request.path": WHOLE, "request.url_path": PATH, "request.query": QUERY}
CONSTANTS = {"bool": BOOL, "int64": INT, "uint64": UINT, "string": STRING}
# The keys of a map are compared with each other.
MOST_ENTRIES = 64
Scope = Dict[str, Value]


class Conditions:
    """Conditions over one request."""

    def __init__(self, request: RequestModel):
        self.request, self.way = request, request.way
        self.loops = Loops(self)

    def matches(self, tree: Node) -> Tuple[z3.BoolRef, z3.BoolRef]:
        """When a condition is true, and when it is an error."""
        found = self.of(tree, {})
        return truth(found), found.error

    def of(self, node: Node, scope: Scope) -> Value:
        """The value of a part, where loops bind some names."""
        if isinstance(node, Const):
            return _constant(node)
        if isinstance(node, Ident) and node.name in scope:
            return scope[node.name]
        name = attribute_name(node, frozenset(scope))
        if name is not None:
            return self._attribute(name)
        if isinstance(node, Select):
            return self._entry(self.of(node.operand, scope), text_of(Literal(node.field)), node.test_only)
        if isinstance(node, ListLiteral):
            parts = [self.of(one, scope) for one in node.elements]
            return list_of([Possible(TRUE, parts)], errors_of(parts))
        if isinstance(node, StructLiteral):
            return self._map(node, scope)
        if isinstance(node, Comprehension):
            return self.loops.value(node, scope)
        if isinstance(node, Call):
            return self._call(node, scope)
        raise NotModelled(type(node).__name__)

    def _attribute(self, name: str) -> Value:
        request = self.request
        if name == ALL_HEADERS:
            return Value(HEADERS, None)
        if name in OF_TARGET:
            return text_of(request.text(TARGET_TEXT, OF_TARGET[name]))
        if name in ("request.method", "request.scheme"):
            return text_of(request.text(METHOD_TEXT if name == "request.method" else SCHEME_TEXT))
        if name == "request.protocol":
            request.authority()
            return text_of(Chosen(request.http11, Literal("HTTP/1.1"), Literal("HTTP/1.0")))
        if name == "request.host" or name in OF_HEADERS:
            header = request.header(OF_HEADERS.get(name, ":authority"))
            return text_of(header.text, no(header.present))
        absent = no(request.present(name))
        if name in NUMBERS:
            return Value(UINT if name == "connection.id" else INT, request.number(name), absent)
        if name == MTLS:
            return bool_of(request.mtls, absent)
        return text_of(request.text(name), absent)

    def _map(self, node: StructLiteral, scope: Scope) -> Value:
        """A map; one that repeats a key is an error."""
        if len(node.entries) > MOST_ENTRIES:
            raise NotModelled(f"a map of more than {MOST_ENTRIES} entries")
        pairs = [(self.of(entry.key, scope), self.of(entry.value, scope)) for entry in node.entries]
        keys = [key for key, _ in pairs]
        repeated = [equal(self.way, one, other) for number, one in enumerate(keys) for other in keys[:number]]
        return Value(MAP, pairs, either(errors_of(part for pair in pairs for part in pair), *repeated))

    def _entry(self, map_: Value, key: Value, is_test: bool = False) -> Value:
        """The value of a key, or whether there is one."""
        found, value = self._header_at(key) if map_.kind == HEADERS else self._pair_at(map_, key)
        error = either(map_.error, key.error)
        if is_test:
            return bool_of(found, error)
        if value is None:
            raise NotModelled("an entry of an empty map")
        return value._replace(error=either(error, no(found), value.error))

    def _header_at(self, key: Value) -> Tuple[z3.BoolRef, Value]:
        """When there is a header of a name, and its text."""
        if isinstance(key.value, Literal):
            header = self.request.header(key.value.text)
            return header.present, text_of(header.text)
        if isinstance(key.value, Variable) and key.value.name.startswith("n:"):
            header = self.request.other(int(key.value.name[2:]))
            return header.present, text_of(header.text)
        if self.loops.depth:
            raise NotModelled("a header whose name is made in a loop over headers")
        self.request.ask_others(1)
        found, text = FALSE, EMPTY
        for header in self.request.headers():
            same = both(header.present, compared(self.way, EXACT, header.name, key.value))
            found, text = either(found, same), Chosen(same, header.text, text)
        return found, text_of(text)

    def _pair_at(self, map_: Value, key: Value) -> Tuple[z3.BoolRef, Optional[Value]]:
        """When a map has a key, and the value there, if it has any."""
        found, value = FALSE, None
        for one, held in reversed(map_.value):
            same = equal(self.way, one, key)
            found, value = either(found, same), held if value is None else choice(same, held, value)
        return found, value

    def _call(self, node: Call, scope: Scope) -> Value:
        """The value of a call, by its function."""
        name = node.function
        parts = [self.of(part, scope) for part in ([node.target] if node.target else []) + node.args]
        if name in ("_&&_", "_||_"):
            return logic(name, *parts)
        if name == "_?_:_":
            found = choice(parts[0].value, *parts[1:])
            return found._replace(error=either(parts[0].error, found.error))
        error = errors_of(parts)
        if name == "_[_]":
            return self._element(*parts) if parts[0].kind == LIST else self._entry(*parts)
        if name in MEMBERSHIP:
            return bool_of(self._is_in(*parts), error)
        if name == "size":
            return Value(INT, size(self.request, parts[0]), error)
        if name == "_+_":
            return added(parts, error)
        if name in ARITHMETIC:
            return arithmetic(name, parts, error)
        if name in ("int", "uint", "string"):
            return converted(name, parts[0], error)
        return bool_of(self._test(name, parts), error)

    def _test(self, name: str, parts: list) -> z3.BoolRef:
        """When a test holds whose operands are no errors."""
        if name == "!_":
            return no(parts[0].value)
        if name in ("_==_", "_!=_"):
            same = equal(self.way, *parts)
            return same if name == "_==_" else no(same)
        if name in ORDERS:
            return ordered(self.way, name, *parts)
        if name in TEXT_TESTS:
            return compared(self.way, TEXT_TESTS[name], parts[0].value, parts[1].value)
        raise NotModelled(f"the function {name}")

    def _is_in(self, one: Value, container: Value) -> z3.BoolRef:
        """That a list has an element, or a map a key."""
        if container.kind != LIST:
            return self._header_at(one)[0] if container.kind == HEADERS else self._pair_at(container, one)[0]
        ways = [both(way.test, equal(self.way, one, element)) for way in container.value for element in way.elements]
        return either(*ways)

    def _element(self, list_: Value, index: Value) -> Value:
        """The element of a list at a place."""
        found, value = FALSE, None
        for way in list_.value:
            for number, one in enumerate(way.elements):
                same = both(way.test, index.value == number)
                found, value = either(found, same), one if value is None else choice(same, one, value)
        if value is None:
            raise NotModelled("an element of an empty list")
        return value._replace(error=either(list_.error, index.error, no(found), value.error))


def _constant(node: Const) -> Value:
    kind = CONSTANTS.get(node.kind)
    if kind is None:
        raise NotModelled(f"a constant of {node.kind}")
    if kind == STRING:
        return text_of(Literal(node.value))
    return Value(kind, z3.BoolVal(node.value) if kind == BOOL else z3.IntVal(node.value))
