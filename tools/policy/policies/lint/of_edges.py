"""Notes on what lets more requests pass than it seems: edges of texts, headers of clients, addresses without a port."""
import ipaddress
import re
from typing import Iterator, Optional, Tuple

from ..cel.attributes import attribute_name, header_key, parts_of
from ..cel.literals import literal_text
from ..cel.overloads import EQUALITY, MEMBERSHIP
from ..cel.tree import Call, Const, ListLiteral, Node
from ..compare.spaces import AUTHORITY, TARGET, Dimension
from ..compare.texts import PREFIX, SUFFIX
from .names import ADDRESS_PORT, CLIENT_HEADER, OPEN_PREFIX, OPEN_SUFFIX, Lint

SERVER_NAME, PEER_NAME = ("fact", "connection.requested_server_name"), ("fact", "connection.uri_san_peer_certificate")
OF_HOSTS, OF_PATHS = (AUTHORITY, SERVER_NAME), (TARGET, PEER_NAME)
ATTRIBUTES = {
    "request.path": TARGET,
    "request.url_path": TARGET,
    "request.host": AUTHORITY,
    "connection.requested_server_name": SERVER_NAME,
    "connection.uri_san_peer_certificate": PEER_NAME,
}
FUNCTIONS = {"startsWith": PREFIX, "endsWith": SUFFIX}
# Headers that a front sets, and that a client can send where the front does not remove them.
OF_FRONTS = frozenset(
    "forwarded x-forwarded-for x-forwarded-host x-forwarded-proto x-forwarded-port x-forwarded-user x-forwarded-email "
    "x-forwarded-groups x-forwarded-client-cert x-forwarded-preferred-username x-real-ip x-client-ip true-client-ip "
    "cf-connecting-ip x-remote-user x-auth-request-user x-auth-request-email x-auth-request-groups".split()
)
ADDRESSES = ("source.address", "destination.address")
LETTER = re.compile(r"[A-Za-z0-9]")
# A node of a condition, and the note on it.
Remark = Tuple[Node, Lint]


def edge(kind: str, sought: str, dimension: Dimension) -> Optional[Lint]:
    """The note on a prefix or a suffix that ends inside of a name, or None."""
    if kind == PREFIX and dimension in OF_PATHS and len(sought) > 1 and LETTER.match(sought[-1]):
        more = "keys" if dimension == TARGET else "-other"
        words = f"`{sought}{more}` has this prefix too: write `{sought}/`, and `{sought}` by itself where it is meant"
        return Lint(OPEN_PREFIX, words)
    if kind == SUFFIX and dimension in OF_HOSTS and LETTER.match(sought[:1]):
        words = f"`evil{sought}` has this suffix too: write `.{sought}`, and `{sought}` by itself where it is meant"
        return Lint(OPEN_SUFFIX, words)
    return None


def of_header(name: str) -> Optional[Lint]:
    """The note on a header that lets a request pass and that a client can send, or None."""
    if name not in OF_FRONTS:
        return None
    return Lint(CLIENT_HEADER, f"a client can send {name} too: let the front overwrite it, or test a fact of the connection")


def edges_of(node: Node) -> Iterator[Remark]:
    """The notes on a test of a condition that lets a request pass."""
    if isinstance(node, Call) and node.function in FUNCTIONS and node.target is not None and isinstance(node.args[0], Const):
        dimension = ATTRIBUTES.get(attribute_name(node.target, frozenset()) or "")
        found = edge(FUNCTIONS[node.function], node.args[0].value, dimension) if dimension is not None else None
        if found is not None:
            yield node, found
    for part in _parts(node):
        key = header_key(part, frozenset())
        found = of_header(key[0]) if key is not None else None
        if found is not None:
            yield part, found


def _parts(node: Node) -> Iterator[Node]:
    yield node
    for part, _ in parts_of(node, frozenset()):
        yield from _parts(part)


def addresses_of(tree: Node) -> Iterator[Remark]:
    """Comparisons of an address with one that has no port."""
    for node in _parts(tree):
        if not isinstance(node, Call) or node.function not in EQUALITY | MEMBERSHIP or len(node.args) != 2:
            continue
        names = [attribute_name(part, frozenset()) for part in node.args]
        name = next((one for one in names if one in ADDRESSES), None)
        for part in node.args if name is not None else ():
            for text in part.elements if isinstance(part, ListLiteral) else [part]:
                if isinstance(text, Const) and text.kind == "string" and _is_address(text.value):
                    root = name.partition(".")[0]
                    shown = literal_text("string", text.value)
                    instead = f"write it with a port, or a rule for an address and {root}.port"
                    yield text, Lint(ADDRESS_PORT, f"{name} has the port too, so it is never {shown}: {instead}")


def _is_address(text: str) -> bool:
    try:
        ipaddress.ip_address(text)
        return True
    except ValueError:
        return False
