"""The macros of the language definition, expanded as it says, in the forms of cel-go 0.18; those of two variables in
the forms of cel-go 0.30.

The accumulator's name is `__result__`. `has(m.f)` is the test-only select; `all`, `exists`, `exists_one`, `map`,
`filter` and with two variables `transformList` are loops. With two variables `exists_one` may be written `existsOne`. A
call of a macro's name with another number of arguments is a call like any other. `transformMap` and `transformMapEntry`
are calls too: their expansions would insert into a map.
"""
from typing import Callable, List, NamedTuple, Optional

from .attributes import attribute_name
from .mistake import TextMistake
from .tree import (
    ACCUMULATOR,
    NOT_STRICTLY_FALSE,
    Call,
    Comprehension,
    Const,
    Ident,
    ListLiteral,
    Node,
    Select,
    in_order,
)


def expand_call(name: str, args: list) -> Optional[Node]:
    """The expansion of a macro without a target, or None where the call is none."""
    if name != "has" or len(args) != 1:
        return None
    field = args[0]
    if isinstance(field, Call) and field.function == "_[_]":
        told = "`has` takes a field of a value, such as `has(m.f)`: for a key in brackets write `key in m`"
        raise TextMistake(_start(field), told + _key_in_map(*field.args))
    if not isinstance(field, Select) or field.test_only:
        raise TextMistake(_start(field), "`has` takes a field of a value, such as `has(m.f)`")
    return Select(field.operand, field.field, True, place=field.place)


def _key_in_map(container: Node, key: Node) -> str:
    """The test of a key written out, if container and key are plain, after a comma; or nothing."""
    name = attribute_name(container, frozenset())
    is_plain = name is not None and isinstance(key, Const) and key.kind == "string" and key.value.isprintable()
    return f', as in `"{key.value}" in {name}`' if is_plain and '"' not in key.value else ""


def expand_method(target: Node, name: str, args: list, place: int) -> Optional[Node]:
    """The expansion of a macro with a target, or None where the call is none."""
    macro = LOOPS.get((name, len(args)))
    if macro is None:
        return None
    variables = args[: macro.variables]
    for variable in variables:
        if not isinstance(variable, Ident) or variable.name.startswith("."):
            raise TextMistake(_start(variable), f"`{name}` takes the name of a variable here")
    if len(variables) == 2:
        _check_names(name, variables)
    return macro.expand(target, variables, *args[macro.variables :], place)


def _check_names(name: str, variables: List[Ident]) -> None:
    """Refuses a second variable of the first one's name, and those of the accumulator's."""
    first, second = variables
    if first.name == second.name:
        raise TextMistake(second.place, f"`{name}` takes two variables of different names here")
    for variable in variables:
        if variable.name == ACCUMULATOR:
            raise TextMistake(variable.place, f"`{ACCUMULATOR}` is the name of the macro's own variable: take another")


def _accumulator(place: int) -> Ident:
    return Ident(ACCUMULATOR, place=place)


def _call(function: str, *args: Node, place: int) -> Call:
    return Call(function, list(args), place=place)


def _loop(target: Node, variables: List[Ident], parts: List[Node], place: int) -> Comprehension:
    """The loop of an init, a condition, a step and a result."""
    init, condition, step, result = parts
    names = [variable.name for variable in variables]
    second = names[1] if len(names) == 2 else ""
    return Comprehension(
        names[0], target, ACCUMULATOR, init, condition, step, result, iter_var2=second, place=place
    )


def _all(target: Node, variables: List[Ident], test: Node, place: int) -> Node:
    parts = [
        Const("bool", True, place=place),
        _call(NOT_STRICTLY_FALSE, _accumulator(place), place=place),
        _call("_&&_", _accumulator(place), test, place=place),
        _accumulator(place),
    ]
    return _loop(target, variables, parts, place)


def _exists(target: Node, variables: List[Ident], test: Node, place: int) -> Node:
    no = _call("!_", _accumulator(place), place=place)
    parts = [
        Const("bool", False, place=place),
        _call(NOT_STRICTLY_FALSE, no, place=place),
        _call("_||_", _accumulator(place), test, place=place),
        _accumulator(place),
    ]
    return _loop(target, variables, parts, place)


def _exists_one(target: Node, variables: List[Ident], test: Node, place: int) -> Node:
    one_more = _call("_+_", _accumulator(place), Const("int64", 1, place=place), place=place)
    parts = [
        Const("int64", 0, place=place),
        Const("bool", True, place=place),
        _call("_?_:_", test, one_more, _accumulator(place), place=place),
        _call("_==_", _accumulator(place), Const("int64", 1, place=place), place=place),
    ]
    return _loop(target, variables, parts, place)


def _collect(target: Node, variables: List[Ident], test: Optional[Node], element: Node, place: int) -> Node:
    """The list of the elements' results, of all or of those that pass a test."""
    step = _call("_+_", _accumulator(place), ListLiteral([element], place=place), place=place)
    if test is not None:
        step = _call("_?_:_", test, step, _accumulator(place), place=place)
    parts = [ListLiteral([], place=place), Const("bool", True, place=place), step, _accumulator(place)]
    return _loop(target, variables, parts, place)


def _map(target: Node, variables: List[Ident], element: Node, place: int) -> Node:
    return _collect(target, variables, None, element, place)


def _map_filter(target: Node, variables: List[Ident], test: Node, element: Node, place: int) -> Node:
    return _collect(target, variables, test, element, place)


def _filter(target: Node, variables: List[Ident], test: Node, place: int) -> Node:
    return _collect(target, variables, test, Ident(variables[0].name, place=variables[0].place), place)


class Macro(NamedTuple):
    """A macro with a target: how many variables it names, and its expansion."""

    variables: int
    expand: Callable[..., Node]


# By name and number of arguments.
LOOPS = {
    ("all", 2): Macro(1, _all),
    ("exists", 2): Macro(1, _exists),
    ("exists_one", 2): Macro(1, _exists_one),
    ("map", 2): Macro(1, _map),
    ("map", 3): Macro(1, _map_filter),
    ("filter", 2): Macro(1, _filter),
    ("all", 3): Macro(2, _all),
    ("exists", 3): Macro(2, _exists),
    ("exists_one", 3): Macro(2, _exists_one),
    ("existsOne", 3): Macro(2, _exists_one),
    ("transformList", 3): Macro(2, _map),
    ("transformList", 4): Macro(2, _map_filter),
}


def _start(node: Node) -> int:
    """Where a node's text begins, as far as its own places tell."""
    return min(part.place for part in in_order(node))
