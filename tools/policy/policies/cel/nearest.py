"""What can be written instead of names that other engines and CEL's extensions have, and this engine does not."""
from typing import Optional

CLAIM = (
    "the engine reads no tokens: let the front check the token and put the claim into a header, such as "
    'request.headers["x-claim"]; the front must remove that header from what clients send'
)
PEER = "write connection.uri_san_peer_certificate, or the principal `authenticated` of a policy"
BLOCKS = (
    "conditions have no addresses: write the principal direct_remote_ip (the peer) or remote_ip (the client), such as "
    "`direct_remote_ip: {address_prefix: 10.0.0.0, prefix_len: 8}`"
)
# Attributes of Istio and of other engines, by the beginning of their names.
ATTRIBUTES = {
    "request.auth": CLAIM,
    "request.jwt": CLAIM,
    "source.principal": PEER,
    "source.user": PEER,
    "source.namespace": f"{PEER}; its text begins with spiffe://<trust domain>/ns/<namespace>/",
    "source.ip": BLOCKS,
    "request.ip": BLOCKS,
    "request.remote_ip": BLOCKS,
    "request.client_ip": BLOCKS,
    "destination.ip": "write the permission destination_ip, such as `destination_ip: {address_prefix: 10.0.0.0}`",
    "connection.sni": "write connection.requested_server_name",
    "request.url": "write request.path (with the query) or request.url_path (without it)",
    "request.body": "the engine reads heads alone, and no bodies",
}
NO_OPTIONALS = 'there are no optional values: ask for the key first, as in `"k" in m && m["k"] == "v"`'
NO_SPLIT = "no text is split: write startsWith, endsWith or contains for the part that is meant"
NO_INDEX_OF = "no text is cut or searched by position: write startsWith, endsWith or contains"
SIZE = "write size(x) or x.size()"
HAS_KEY = 'to ask for a header write `"x" in request.headers`, or `has(request.headers.x)`'
GET_KEY = 'a header is request.headers["x"]; ask for it first, as in `"x" in request.headers && request.headers["x"] == "a"`'
FUNCTIONS = {
    **dict.fromkeys(["len", "length", "count", "strlen"], SIZE),
    **dict.fromkeys(["containsKey", "hasKey"], HAS_KEY),
    **dict.fromkeys(["get", "getOrDefault"], GET_KEY),
    **dict.fromkeys(["ip", "cidr", "isIP", "isCIDR", "containsIP", "containsCIDR", "prefixLength", "family"], BLOCKS),
    "split": NO_SPLIT,
    "join": NO_SPLIT,
    **dict.fromkeys(["substring", "indexOf", "lastIndexOf", "charAt"], NO_INDEX_OF),
    **dict.fromkeys(["replace", "format", "trim", "reverse"], "no text is made of another: compare the text as it is"),
    **dict.fromkeys(["orValue", "hasValue", "optMap", "optFlatMap"], NO_OPTIONALS),
}
# Functions of CEL's extensions, which are written as `namespace.function`.
NAMESPACES = {
    "cel": "there are no variables of one's own: write the value wherever it is used",
    "optional": NO_OPTIONALS,
    "math": "for the greater of two write `x > y ? x : y`",
    "sets": "for `sets.contains(a, b)` write `b.all(x, x in a)`, for `sets.intersects(a, b)` "
    "`a.exists(x, x in b)`, for `sets.equivalent(a, b)` both `a.all(x, x in b)` and `b.all(x, x in a)`",
    "strings": "texts have startsWith, endsWith, contains and size alone",
    "base64": "nothing is encoded or decoded: compare the text as it is",
    "regex": "there are no regular expressions: write `==`, `startsWith`, `endsWith`, `contains` or `in`",
}


# Variables of other engines, with what they are here.
VARIABLES = {
    **dict.fromkeys(["client", "remote_ip", "client_ip", "source_ip", "ip"], BLOCKS),
    **dict.fromkeys(["principal", "peer", "subject", "identity", "san"], PEER),
    **dict.fromkeys(["jwt", "claims", "claim", "token", "auth", "user"], CLAIM),
    **dict.fromkeys(["http", "req", "input"], "write request, such as request.path"),
}
# Fields of texts and lists of other languages.
FIELDS = {name: SIZE for name in ("size", "length", "len", "count")}


def of_attribute(name: str) -> Optional[str]:
    """What to write instead of an attribute, or None."""
    for known, words in ATTRIBUTES.items():
        if name == known or name.startswith(known + "."):
            return words
    return None
