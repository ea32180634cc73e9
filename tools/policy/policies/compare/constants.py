"""The dimensions that a condition reads, with the constants that it may compare them with as tests.

What a condition can tell apart is not known exactly: these tests only lead to requests that are worth trying.
"""
from typing import Dict, Iterator, List, Set, Tuple

from ..cel.attributes import HEADERS, attribute_name, header_key, parts_of
from ..cel.tree import Call, Comprehension, Const, Node
from .spaces import AUTHORITY, METHOD, MTLS, PEER, PORTS, TARGET, TOKEN, VERSION, Dimension, Presence, Probe, Span
from .texts import CONTAINS, EXACT, PREFIX, SUFFIX, TextTest

NAMES = {
    "request.path": TARGET,
    "request.url_path": TARGET,
    "request.query": TARGET,
    "request.host": AUTHORITY,
    "request.method": METHOD,
    "request.protocol": VERSION,
    MTLS: PEER,
    "connection.uri_san_peer_certificate": PEER,
}
KINDS = {"startsWith": PREFIX, "endsWith": SUFFIX, "contains": CONTAINS}
NUMBERS = (*PORTS, "connection.id")
# So many constants of a condition are tried with each attribute, and a text of so many characters for its size.
MOST_CONSTANTS = 24
LONGEST = 256


def probes_of(tree: Node) -> Dict[Dimension, List[Probe]]:
    """The tests of each dimension that a condition reads."""
    texts, numbers = _constants(tree)
    found: Dict[Dimension, List[Probe]] = {}
    for dimension, name in sorted(_read(tree), key=str):
        if name in NUMBERS:
            found[dimension] = [Span(number, number + 1) for number in numbers if number >= 0]
            continue
        tests = [_placed(test, name) for test in texts]
        tests += [TextTest(EXACT, "/"[: dimension == TARGET] + "x" * (size - (dimension == TARGET))) for size in _sizes(numbers)]
        found[dimension] = [Presence(), *tests]
    return found


def _walk(node: Node, scope: frozenset = frozenset()) -> Iterator[Tuple[Node, frozenset]]:
    yield node, scope
    for part, inner in parts_of(node, scope):
        yield from _walk(part, inner)


def _read(tree: Node) -> Set[Tuple[Dimension, str]]:
    """The dimensions that a condition reads, each with the name of the attribute."""
    found: Set[Tuple[Dimension, str]] = set()
    for node, scope in _walk(tree):
        key, name = header_key(node, scope), attribute_name(node, scope)
        if key is not None:
            found.add((("header", key[0].lower()), HEADERS))
        elif name == HEADERS or name is None:
            continue
        else:
            found.add((NAMES.get(name, ("fact", name)), name))
    if any(isinstance(node, Comprehension) and attribute_name(node.iter_range, scope) == HEADERS for node, scope in _walk(tree)):
        names = [test.sought for test in _constants(tree)[0] if TOKEN.match(test.sought)]
        found |= {(("header", name), HEADERS) for name in names if name == name.lower()}
    return found


def _constants(tree: Node) -> Tuple[List[TextTest], List[int]]:
    """The texts of a condition as tests, by the function that takes each, and its numbers."""
    kinds: Dict[str, str] = {}
    numbers: Set[int] = set()
    for node, _ in _walk(tree):
        for part in node.args if isinstance(node, Call) and node.function in KINDS else []:
            if isinstance(part, Const) and part.kind == "string":
                kinds[part.value] = KINDS[node.function]
        if isinstance(node, Const) and node.kind == "string":
            kinds.setdefault(node.value, EXACT)
        if isinstance(node, Const) and node.kind in ("int64", "uint64"):
            numbers.add(node.value)
    texts = [TextTest(kind, text) for text, kind in sorted(kinds.items())]
    return texts[:MOST_CONSTANTS], sorted(numbers)[:MOST_CONSTANTS]


def _placed(test: TextTest, name: str) -> TextTest:
    """A test as the attribute of that name is a part of its dimension."""
    if name == "request.url_path":
        return test._replace(of_path=True)
    if name == "request.query" and test.kind in (EXACT, PREFIX):
        return TextTest(CONTAINS, "?" + test.sought)
    return test


def _sizes(numbers: List[int]) -> List[int]:
    """Sizes of texts at numbers and beside them."""
    near = {size for number in numbers for size in (number - 1, number, number + 1)}
    return sorted(size for size in near if 0 < size <= LONGEST)
