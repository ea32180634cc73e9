"""What to tell of a name or a type that does not fit, with what to write instead."""
import difflib
import re
from typing import Iterable, List, Optional

from . import nearest
from .attributes import HEADERS, TYPES, attribute_name
from .overloads import CALLED_BY_NAME, CONVERSIONS, EQUALITY, LOGIC, MEMBERSHIP, NEGATIONS, TEXT_TESTS
from .printing import describe
from .tree import ACCUMULATOR, BINARY, NEW_ACCUMULATOR, ROOTS, Call, Const, Ident, ListLiteral, Node, Select
from .typetext import type_text

LONGEST = 40
SIGNS = {**{function: sign for sign, function in BINARY.items()}, "_in_": "in", "in": "in", "!_": "!", "-_": "-"}
QUANTIFIERS = ("all", "exists", "exists_one")
# How each macro with a target is written.
MACROS = {
    **{name: f"x.{name}(element, test) or x.{name}(index, element, test)" for name in QUANTIFIERS},
    "existsOne": "x.existsOne(index, element, test) or x.exists_one(element, test)",
    "map": "x.map(element, result) or x.map(element, test, result); with two variables it is "
    "x.transformList(index, element, result)",
    "filter": "x.filter(element, test); with two variables it is x.transformList(index, element, test, result)",
    "transformList": "x.transformList(index, element, result) or x.transformList(index, element, test, result)",
}
TAKEN = {"int": "a uint", "uint": "an int", "string": "an int, a uint or bytes", "bytes": "a string"}
MAKE_MAPS = ("transformMap", "transformMapEntry")
MAP_INSERT = "cel.@mapInsert"
INSTEAD_OF_FUNCTIONS = {
    "matches": "there are no regular expressions: write `==`, `startsWith`, `endsWith`, `contains` or `in`",
    "double": "there are no doubles: compute with int or uint",
    "timestamp": "there is no time",
    "duration": "there is no time",
    "type": "types are no values",
    "dyn": "there is no dyn: each part has one type",
    **dict.fromkeys(["lowerAscii", "upperAscii"], "texts are not folded: use a matcher with ignore_case"),
    "bool": "nothing is converted to a bool: write a test, such as x == 1",
}
ENVOY_ATTRIBUTES = frozenset(
    "request.time request.size request.total_size request.duration request.body response.code source.labels "
    "connection.termination_details connection.transport_failure_reason connection.sha256_peer_certificate_digest "
    "connection.subject_local_certificate connection.dns_san_local_certificate "
    "connection.uri_san_local_certificate".split()
)
ENVOY_ROOTS = frozenset(["response", "upstream", "metadata", "filter_state", "xds", "plugin", "node", "listener"])


def shown(node: Node) -> str:
    """A node as text, cut where it is long."""
    text = describe(node)
    return text if len(text) <= LONGEST else text[: LONGEST - 3] + "..."


def a(kind: tuple) -> str:
    """A type with its article."""
    text = type_text(kind)
    return f"{'an' if text == 'int' else 'a'} {text}" if text != "bytes" else "a bytes value"


def near(name: str, names: Iterable[str]) -> str:
    """The question for the name that was meant, or nothing."""
    found = difflib.get_close_matches(name, list(names), 1)
    return f"; do you mean `{found[0]}`?" if found else ""


def unknown_attribute(name: str) -> str:
    """What to tell of an attribute that is none of the profile's."""
    root, _, field = name.partition(".")
    instead = nearest.of_attribute(name)
    if instead is not None:
        return f"the engine has no attribute {name}: {instead}"
    if name in ENVOY_ATTRIBUTES:
        return f"Envoy's attribute {name} is not in the profile; of `{root}` it has {_fields(root)}"
    if f"{root}.headers" in TYPES and field.lower() in ("header", "headers", "http_headers"):
        return f'the engine has no attribute {name}; do you mean request.headers["name"]?'
    return f"the engine has no attribute {name}; `{root}` has {_fields(root)}{near(field, _names(root))}"


def _names(root: str) -> List[str]:
    return [name[len(root) + 1 :] for name in TYPES if name.startswith(root + ".")]


def _fields(root: str) -> str:
    return ", ".join(sorted(_names(root)))


def unknown_variable(name: str, locals_in_scope: Iterable[str]) -> str:
    """What to tell of a variable that nothing binds."""
    if name.lower() in ("true", "false"):
        return f"the engine has no variable {name}; do you mean `{name.lower()}`?"
    first = name.partition(".")[0]
    if first in nearest.VARIABLES:
        return f"the engine has no variable {name}: {nearest.VARIABLES[first]}"
    if first in ENVOY_ROOTS:
        return f"Envoy's `{first}` is not in the profile: its attributes are those of {', '.join(ROOTS)}"
    if any(attribute.endswith("." + name) for attribute in TYPES):
        whole = [attribute for attribute in TYPES if attribute.endswith("." + name)]
        return f"the engine has no variable {name}; do you mean `{whole[0]}`?"
    known = [*(local for local in locals_in_scope if local not in (ACCUMULATOR, NEW_ACCUMULATOR)), *ROOTS]
    hint = near(name, known) or "; a text is in quotes"
    return f"the engine has no variable {name}; it has {', '.join(known)}{hint}"


def dashed_header(difference: Optional[Node]) -> Optional[str]:
    """What to tell of `x` in request.headers.a-x, which is a difference of the header `a` and a variable, or None."""
    names: List[str] = []
    while isinstance(difference, Call) and difference.function == "_-_" and isinstance(difference.args[1], Ident):
        names.insert(0, difference.args[1].name)
        difference = difference.args[0]
    if not names or not isinstance(difference, Select) or attribute_name(difference.operand, frozenset()) != HEADERS:
        return None
    name = "-".join([difference.field, *names])
    return f'`-` takes a number from another here: a header whose name has a dash is {HEADERS}["{name}"]'


def bare_root(name: str, parent: Optional[Node]) -> str:
    """What to tell of a root without a field."""
    field = parent.args[1].value if _is_indexed_by_text(parent) else None
    if field is not None and f"{name}.{field}" in TYPES:
        return f"`{name}` has no index: write `{name}.{field}`"
    if field is not None and name == "request":
        return f"`{name}` has no index: a header is request.headers[{shown(parent.args[1])}]"
    return f"`{name}` is no value by itself: write one of its attributes, {_fields(name)}"


def _is_indexed_by_text(node: Optional[Node]) -> bool:
    return (
        isinstance(node, Call)
        and node.function == "_[_]"
        and len(node.args) == 2
        and isinstance(node.args[1], Const)
        and node.args[1].kind == "string"
    )


def tested_attribute(name: str) -> str:
    """What to tell of `has` around an attribute itself."""
    return f"`has({name})` is not in the profile: an attribute that is absent is an error, and counts as no match"


def unknown_function(call: Call) -> str:
    """What to tell of a function that is none of the profile's."""
    name = call.function
    if name in MAKE_MAPS or name == MAP_INSERT:
        what = "this loop" if name == MAP_INSERT else f"`{name}`"
        return (
            f"{what} makes a map by {MAP_INSERT}, which the engine does not have: write m.transformList(k, v, ..) for "
            "a list, or test the entries, as in m.all(k, v, ..) or m.exists(k, v, ..)"
        )
    if name in MACROS:
        return f"`{name}` is written as {MACROS[name]}"
    if name == "has":
        return f"`has` is no function of a value: {nearest.HAS_KEY}"
    instead = INSTEAD_OF_FUNCTIONS.get(name) or nearest.FUNCTIONS.get(name)
    if instead is not None:
        return f"the engine has no function {name}: {instead}"
    known = [*CALLED_BY_NAME, "has", *MACROS]
    return f"the engine has no function {name}; it has {', '.join(known)}{near(name, known)}"


def unknown_in_namespace(namespace: str, function: str) -> str:
    """What to tell of a function of one of CEL's extensions."""
    return f"the engine has no function {namespace}.{function}: {nearest.NAMESPACES[namespace]}"


def second_variable(name: str, locals_in_scope: Iterable[str]) -> str:
    """What to tell of a name that nothing binds where `map` or `filter` take a test."""
    told = unknown_variable(name, locals_in_scope)
    return f"{told}; `map` and `filter` take one variable: with two it is x.transformList(index, element, result)"


def wrong_shape(function: str) -> str:
    """What to tell of a call with other operands than the function takes."""
    if function == "size":
        return "`size` takes one value: x.size() or size(x)"
    if function in TEXT_TESTS:
        return f"`{function}` is written as text.{function}(part)"
    if function in CONVERSIONS:
        return f"`{function}` takes one value: {function}(x)"
    return f"`{function}` is called with another number of operands than it takes"


def no_overload(call: Call, operands: List[Node], kinds: List[tuple]) -> str:
    """What to tell of operands that no overload of a function takes."""
    function = call.function
    if function == "contains" and kinds[0][0] in ("list", "map"):
        what = "a key" if kinds[0][0] == "map" else "an element"
        return f"{shown(operands[0])} is {a(kinds[0])}: to ask for {what} write `{shown(operands[1])} in {shown(operands[0])}`"
    if function in TEXT_TESTS:
        index = 0 if kinds[0] != ("string",) else 1
        return f"{shown(operands[index])} is {a(kinds[index])}; {function} takes two strings"
    if function == "size":
        return f"{shown(operands[0])} is {a(kinds[0])}; size takes a string, bytes, a list or a map"
    if function in CONVERSIONS:
        return _conversion(function, operands[0], kinds[0])
    if function in LOGIC or function in NEGATIONS:
        index = next(index for index, kind in enumerate(kinds) if kind != ("bool",))
        return f"{shown(operands[index])} is {a(kinds[index])}; {SIGNS.get(function, function)} takes bools"
    if function == "_?_:_":
        return _conditional(operands, kinds)
    if function == "_[_]":
        return _index(operands, kinds)
    sign = SIGNS[function]
    if len(kinds) == 1:
        return f"{shown(operands[0])} is {a(kinds[0])}; {sign} has no overload for {type_text(kinds[0])}"
    both = " and ".join(map(type_text, kinds))
    first = 1 if isinstance(operands[0], Const) and not isinstance(operands[1], Const) else 0
    told = f"{shown(operands[first])} is {a(kinds[first])}; {sign} has no overload for {both}"
    return told + _instead(function, operands, kinds)


def _conversion(function: str, operand: Node, kind: tuple) -> str:
    """What to tell of a value that a conversion does not take."""
    if kind == CONVERSIONS[function][1]:
        return f"{shown(operand)} is {a(kind)} already: leave out {function}(..)"
    told = f"{shown(operand)} is {a(kind)}; {function} takes {TAKEN[function]}"
    if kind == ("string",):
        return told + ", and no text is read as a number"
    if kind == ("bool",) and function == "string":
        return f'{told}: write {shown(operand)} ? "true" : "false"'
    return told


def _conditional(operands: List[Node], kinds: List[tuple]) -> str:
    if kinds[0] != ("bool",):
        return f"{shown(operands[0])} is {a(kinds[0])}; a bool is expected before ?"
    return f"one side of : is {a(kinds[1])} and the other {a(kinds[2])}; both have one type"


def _index(operands: List[Node], kinds: List[tuple]) -> str:
    container, index = kinds
    if container[0] == "list":
        return f"{shown(operands[1])} is {a(index)}; a list is indexed by an int"
    if container[0] == "map":
        keys = f"the keys of {shown(operands[0])} are of type {type_text(container[1])}"
        return f"{shown(operands[1])} is {a(index)}; {keys}"
    return f"{shown(operands[0])} is {a(container)}; only a list or a map has an index"


def _instead(function: str, operands: List[Node], kinds: List[tuple]) -> str:
    """What to write for two operands of different types, where it is plain."""
    names = {kind[0] for kind in kinds}
    both_are_numbers = names == {"int", "uint"} and not any(isinstance(node, Const) for node in operands)
    for node, kind, other in ((operands[0], *kinds), (operands[1], *reversed(kinds))):
        if not isinstance(node, Const):
            continue
        if kind == ("string",) and other[0] in ("int", "uint") and re.match(r"-?[0-9]+\Z", node.value):
            return f": write {node.value}{'u' if other[0] == 'uint' else ''} without quotes"
        if kind == ("string",) and other == ("bool",) and node.value in ("true", "false"):
            return f": write {node.value} without quotes"
        if kind == ("int",) and other == ("uint",) and node.value >= 0:
            return f": write {node.value}u"
        if kind == ("uint",) and other == ("int",):
            return f": write {node.value}"
        if kind[0] in ("int", "uint") and other == ("string",):
            return f': write "{node.value}" in quotes'
    if both_are_numbers:
        node = operands[0] if kinds[0] == ("uint",) else operands[1]
        return f": write int({shown(node)})"
    if function in MEMBERSHIP and names == {"string"}:
        return ": to ask for a part of a text write whole.contains(part)"
    if function in MEMBERSHIP and kinds[1][0] == "list":
        return _element(operands, kinds)
    if function in EQUALITY and kinds[0][0] == "list" and kinds[0][1] == kinds[1]:
        return ": to ask for an element write `element in list`"
    return ""


def _element(operands: List[Node], kinds: List[tuple]) -> str:
    """What to write for the elements of a list that are of another type than what is sought in it."""
    wanted = kinds[0][0]
    texts = operands[1].elements if isinstance(operands[1], ListLiteral) else []
    are_numbers = all(isinstance(text, Const) and text.kind == "string" and re.match(r"-?[0-9]+\Z", text.value) for text in texts)
    if wanted in ("int", "uint") and kinds[1][1] == ("string",) and texts and are_numbers:
        numbers = ", ".join(text.value + ("u" if wanted == "uint" else "") for text in texts)
        return f": write [{numbers}] without quotes"
    return f": the elements are of type {type_text(kinds[1][1])}, so what is sought is too"


def no_field(node: Select, kind: tuple) -> str:
    """What to tell of a select on what is no map of texts."""
    what = f"{shown(node.operand)} is {a(kind)}"
    if node.field in nearest.FIELDS and kind[0] in ("string", "list", "map"):
        return f"{what} and has no field {node.field}: write size({shown(node.operand)})"
    return f"{what} and has no field {node.field}: only a map with keys of type string has fields"


def other_type(name: str, kind: tuple, wanted: str) -> str:
    """What to tell of a value that is not of the type it has to have."""
    return f"{name} is {a(kind)}; {wanted}"
