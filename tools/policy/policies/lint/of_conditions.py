"""Notes on conditions: names that no request has, and what a condition of DENY reads that may be missing."""
from typing import Iterator, List, Set, Tuple

from ..cel.attributes import HEADERS, OF_HEADERS, attribute_name, header_key, parts_of
from ..cel.literals import literal_text
from ..cel.overloads import EQUALITY, MEMBERSHIP
from ..cel.tree import Call, Comprehension, Const, Ident, ListLiteral, Node, is_call
from ..conditions_typing import condition_of
from ..findings import NOTE, Finding
from ..messages import Message
from ..placing import node_places
from .names import HOST_HEADER, LOWER_CASE, MISSING, UPPER_CASE, Lint
from .of_edges import addresses_of, edges_of
from .of_paths import Paths, path_test
from .of_rules import METHODS

HOST, AUTHORITY = "host", ":authority"
READ = ("attribute", "index", "select")
COMPARISONS = ("_==_", "_!=_", "contains", "startsWith", "endsWith")
# Attributes that each request has; the others are facts of the connection, or headers.
ALWAYS = frozenset(
    "request.path request.url_path request.query request.method request.protocol request.scheme request.headers".split()
)
# A node of a condition, and the note on it.
Remark = Tuple[Node, Lint]


def remarks_of(policy: Message, paths: Paths, path: tuple, encoding) -> List[Finding]:
    """The notes on the condition of a policy."""
    condition = condition_of(policy)
    tree = condition.tree() if condition is not None else None
    if condition is None or tree is None:
        return []
    path += condition.path
    remarks = condition.message.kept(f"remarks {paths.is_deny}", lambda: _remarks(tree, paths.is_deny))
    remarks = [*remarks, *_other_paths(tree, paths.beside(policy))]
    places = node_places(tree, path, encoding) if remarks else {}
    return [Finding(NOTE, lint.words, places.get(node), path, lint.name) for node, lint in remarks]


def _remarks(tree: Node, is_deny: bool) -> List[Remark]:
    """The remarks on a condition."""
    found = [*_upper_case(tree), *_upper_case_in_loops(tree, frozenset()), *_host_key(tree), *_methods(tree)]
    found += [*_edges(tree, is_deny), *addresses_of(tree)]
    return found + ([*_missing_headers(tree), *_missing_facts(tree)] if is_deny else [])


def _walk(node: Node, scope: frozenset = frozenset()) -> Iterator[Tuple[Node, frozenset]]:
    yield node, scope
    for part, inner in parts_of(node, scope):
        yield from _walk(part, inner)


def _upper_case(tree: Node) -> Iterator[Remark]:
    """Names of headers that none has, since all are in lower case."""
    for node, scope in _walk(tree):
        key = header_key(node, scope)
        if key is not None and key[0] != key[0].lower() != HOST:
            name, lower = (literal_text("string", text) for text in (key[0], key[0].lower()))
            yield node, Lint(UPPER_CASE, f"header names are in lower case here, so no request has {name}: write {lower}")


def _host_key(tree: Node) -> Iterator[Remark]:
    """Reads of the header `host`, which no request has here."""
    for node, scope in _walk(tree):
        key = header_key(node, scope)
        if key is not None and key[0].lower() == HOST:
            words = f"the Host line is the header {AUTHORITY} here, and no request has one named {HOST}"
            yield node, Lint(HOST_HEADER, f"{words}: write request.host")


def _upper_case_in_loops(node: Node, keys: frozenset) -> Iterator[Remark]:
    """Comparisons of a header's name with a text that none is equal to; `keys` are the variables of such names."""
    if isinstance(node, Call) and node.function in COMPARISONS:
        operands = ([] if node.target is None else [node.target]) + node.args
        compared = any(isinstance(part, Ident) and part.name in keys for part in operands)
        for part in operands if compared else []:
            if isinstance(part, Const) and part.kind == "string" and part.value != part.value.lower():
                name, lower = (literal_text("string", text) for text in (part.value, part.value.lower()))
                yield node, Lint(UPPER_CASE, f"header names are in lower case here, and {name} is not: write {lower}")
    for part, _ in parts_of(node, frozenset()):
        yield from _upper_case_in_loops(part, _keys_in(node, part, keys))


def _keys_in(node: Node, part: Node, keys: frozenset) -> frozenset:
    """The variables that have names of headers in a part of a node: over request.headers a loop's first one has."""
    if not isinstance(node, Comprehension) or part in (node.iter_range, node.accu_init):
        return keys
    if part is node.result:
        return keys - {node.accu_var}
    walks_headers = attribute_name(node.iter_range, frozenset()) == HEADERS
    return keys - {node.accu_var, *node.variables()} | ({node.iter_var} if walks_headers else frozenset())


def _methods(tree: Node) -> Iterator[Remark]:
    """Comparisons of the method with a text in lower case."""
    for node, scope in _walk(tree):
        if not isinstance(node, Call) or node.function not in EQUALITY | MEMBERSHIP or len(node.args) != 2:
            continue
        others = [part for part in node.args if attribute_name(part, scope) != "request.method"]
        texts = others[0].elements if len(others) == 1 and isinstance(others[0], ListLiteral) else others
        for part in texts if len(others) == 1 else []:
            if isinstance(part, Const) and part.kind == "string" and part.value != part.value.upper() in METHODS:
                upper = literal_text("string", part.value.upper())
                yield part, Lint(LOWER_CASE, f"methods are compared as sent: write {upper}")


def _other_paths(tree: Node, paths: Paths) -> Iterator[Remark]:
    """Tests of a path by which a request is denied, and that other spellings of the path do not meet."""
    for node, is_negated in _conjuncts(tree, False):
        test = path_test(node) if is_negated != paths.is_deny else None
        notes = [paths.note(text, test.holds) for text in test.texts] if test is not None else []
        yield from [(node, note) for note in notes if note is not None][:1]


def _edges(tree: Node, is_deny: bool) -> Iterator[Remark]:
    """Tests that let more requests pass than it seems."""
    for node, is_negated in _conjuncts(tree, False):
        if is_negated == is_deny:
            yield from edges_of(node)


def _conjuncts(node: Node, is_negated: bool) -> Iterator[Tuple[Node, bool]]:
    """The tests of a condition outside of loops, each with whether it is negated."""
    if is_call(node, "!_", 1):
        yield from _conjuncts(node.args[0], not is_negated)
    elif is_call(node, "_&&_", 2) or is_call(node, "_||_", 2):
        for part in node.args:
            yield from _conjuncts(part, is_negated)
    else:
        yield node, is_negated != is_call(node, "_!=_", 2)


def _missing_headers(tree: Node) -> Iterator[Remark]:
    """Headers that a condition of DENY reads and that may be missing: the error lets the request through."""
    keys = [(node, header_key(node, scope)) for node, scope in _walk(tree)]
    asked = {key[0] for _, key in keys if key is not None and key[1] in ("has", "in")}
    for node, key in keys:
        if key is not None and key[1] in READ and key[0] not in asked and not key[0].startswith(":"):
            asked.add(key[0])
            name = literal_text("string", key[0].lower())
            yield node, Lint(
                MISSING,
                f"a request without the header {key[0]} makes this an error, which is no match, and DENY lets it "
                f"through; to deny it too write `!({name} in request.headers) || ..`, to let it through "
                f"`{name} in request.headers && ..`",
            )


def _missing_facts(tree: Node) -> Iterator[Remark]:
    """Attributes that a condition of DENY reads and that a connection may lack: the error lets the request through."""
    seen: Set[str] = set()
    for node, scope in _walk(tree):
        name = attribute_name(node, scope)
        if name is None or name in ALWAYS or name in OF_HEADERS or name in seen:
            continue
        seen.add(name)
        what = "a request of HTTP/1.0 without Host" if name == "request.host" else f"a connection without the fact {name}"
        yield node, Lint(MISSING, f"{what} makes this an error, which is no match, and DENY lets it through")
