"""The values of Istio's sources, operations and conditions as rules, by Istio's own translation."""
import ipaddress
from typing import Callable, Dict, Tuple

from .nodes import Node, mapping, plain, text
from .regexes import shapes
from .rewrite import LEAVES, PERMISSION, PRINCIPAL, Kind, everything

SPIFFE = "spiffe://"
TOKENS = (
    "the engine reads no tokens: let the proxy check the token and put the claim into a header, which it removes from "
    "what clients send; ask for that header"
)
INSTEAD = {
    "requestPrincipals": TOKENS,
    "notRequestPrincipals": TOKENS,
    "serviceAccounts": 'write `principals: ["<trust domain>/ns/<namespace>/sa/<account>"]`',
    "notServiceAccounts": 'write `notPrincipals: ["<trust domain>/ns/<namespace>/sa/<account>"]`',
}
CONDITIONS_INSTEAD = {
    "request.auth": TOKENS,
    "source.serviceAccount": 'write `source.principal` with "<trust domain>/ns/<namespace>/sa/<account>"',
    "experimental.envoy.filters": "the engine has no metadata of other filters; ask for a header that the proxy removes from what clients send",
}


class Left(Exception):
    """A value that the profile cannot say, and what to write instead."""


def matcher(value: str, at: Node) -> Node:
    """The matcher of a text with `*` before it or after it; `*` alone is for the caller."""
    if value.startswith("*"):
        return mapping({"suffix": text(value[1:], at)}, at)
    if value.endswith("*"):
        return mapping({"prefix": text(value[:-1], at)}, at)
    return mapping({"exact": text(value, at)}, at)


def header(name: str, value: str, at: Node, ignore_case: bool = False) -> Node:
    """A rule for a header."""
    if value == "*":
        return mapping({"header": mapping({"name": text(name, at), "present_match": plain("true", at)}, at)}, at)
    made = matcher(value, at)
    if ignore_case:
        made.value.append((text("ignore_case", at), plain("true", at)))
    return mapping({"header": mapping({"name": text(name, at), "string_match": made}, at)}, at)


def host(value: str, at: Node) -> Node:
    """A rule for a host, in any case of letters."""
    return header(":authority", value, at, ignore_case=True)


def method(value: str, at: Node) -> Node:
    """A rule for a method."""
    return header(":method", value, at)


def path(value: str, at: Node) -> Node:
    """A rule for a path."""
    if "{*}" in value or "{**}" in value:
        raise Left("path templates are not in the profile: write a prefix such as `/books/*`, or a condition in CEL")
    if value == "*":
        return everything(at)
    return mapping({"url_path": mapping({"path": matcher(value, at)}, at)}, at)


def port(value: str, at: Node) -> Node:
    """A rule for a port."""
    if not value.isascii() or not value.isdigit() or not 0 < int(value) <= 65535:
        raise Left(f"a port is a number from 1 to 65535, not {value}")
    return mapping({"destination_port": plain(str(int(value)), at)}, at)


def address(member: str) -> Callable[[str, Node], Node]:
    """The rule for a block of addresses, by the member that compares them."""

    def make(value: str, at: Node) -> Node:
        base, _, bits = value.partition("/")
        try:
            parsed = ipaddress.ip_address(base)
            length = int(bits) if bits else parsed.max_prefixlen
            if "%" in base or "." in base and ":" in base or not 0 <= length <= parsed.max_prefixlen:
                raise ValueError
        except ValueError:
            raise Left(f"{value} is no block of addresses, such as 10.0.0.0/8 or 2001:db8::/32") from None
        block = {"address_prefix": text(str(parsed), at), "prefix_len": plain(str(length), at)}
        return mapping({member: mapping(block, at)}, at)

    return make


def _peer(expression: str, at: Node) -> Node:
    """The rule for a peer's name by a regular expression of Istio's."""
    made = mapping({"principal_name": mapping({}, at)}, at)
    return LEAVES["authenticated"].rule(made, shapes(expression), PRINCIPAL, at)


def principal(value: str, at: Node) -> Node:
    """A rule for a peer's identity."""
    if value == "*":
        return _peer(".+", at)
    if value.startswith("*"):
        return _peer(quoted(SPIFFE) + ".*" + quoted(value[1:]), at)
    made = matcher(SPIFFE + value, at)
    return mapping({"authenticated": mapping({"principal_name": made}, at)}, at)


def namespace(value: str, at: Node) -> Node:
    """A rule for a peer's namespace."""
    if "*" in value:
        told = "a namespace with `*` asks for two texts in a row, which no matcher does: write each namespace in full"
        raise Left(told + ", or `principals`")
    return _peer(".*" + quoted(f"/ns/{value}/") + ".*", at)


def server_name(value: str, at: Node) -> Node:
    """A rule for the server name of the connection."""
    if value == "*":
        return LEAVES["requested_server_name"].rule(mapping({}, at), shapes(".+"), PERMISSION, at)
    return mapping({"requested_server_name": matcher(value, at)}, at)


def quoted(part: str) -> str:
    """A text as a regular expression of itself."""
    return "\\Q" + part.replace("\\E", "\\E\\\\E\\Q") + "\\E"


SOURCE = {
    "principals": principal,
    "namespaces": namespace,
    "ipBlocks": address("direct_remote_ip"),
    "remoteIpBlocks": address("remote_ip"),
}
OPERATION = {"hosts": host, "ports": port, "methods": method, "paths": path}
CONDITIONS: Dict[str, Tuple[Kind, Callable[[str, Node], Node]]] = {
    "source.ip": (PRINCIPAL, address("direct_remote_ip")),
    "remote.ip": (PRINCIPAL, address("remote_ip")),
    "source.namespace": (PRINCIPAL, namespace),
    "source.principal": (PRINCIPAL, principal),
    "destination.ip": (PERMISSION, address("destination_ip")),
    "destination.port": (PERMISSION, port),
    "connection.sni": (PERMISSION, server_name),
}
