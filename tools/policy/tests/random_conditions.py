"""Random conditions of CEL as texts: every operator, function and macro of the profile, of the types that it takes."""
import json
import random
import re

WORDS = ["", "a", "b", "ab", "aba", "A", "/", "/a", "/a/b", "x", "é", "GET", "?", "q=1", "#", "10", "-5", "+7", "007", "9", ","]
WORDS += ["a,b", "spiffe://a"]
NAMES = ["x-a", "x-b", "accept", "x-n", "referer", "user-agent", "te"]
FACTS = ["source.address", "destination.address", "connection.requested_server_name", "connection.tls_version"]
FACTS += [f"connection.{kind}_peer_certificate" for kind in ("subject", "dns_san", "uri_san")]
TEXTS = ["request.path", "request.url_path", "request.query", "request.host", "request.method", "request.referer"]
TEXTS += ["request.useragent", "request.id", "request.scheme", "request.protocol", *FACTS]
INDEXED = [json.dumps(name) for name in [*NAMES, ":path", ":authority", "X-A"]]
# What is chosen as it is, by its kind.
CHOICES = {
    "comparison": ["==", "!=", "<", "<=", ">", ">="],
    "order": ["==", "!=", "<", "<="],
    "operator": ["+", "-", "*", "/", "%"],
    "connective": ["&&", "||"],
    "test": ["startsWith", "endsWith", "contains"],
    "quantifier": ["all", "exists", "exists_one"],
    "index": ["0", "1", "2", "source.port"],
    "number": ["source.port", "connection.id", "7"],
    "plain int": ["source.port", "destination.port", "request.headers.size()", "0", "1", "-1", "3", "7", "80"]
    + ["9223372036854775807", "-9223372036854775808"],
    "plain uint": ["connection.id", "0u", "1u", "5u", "18446744073709551615u"],
    "attribute": TEXTS,
    "plain text": ["<literal>"] * 6 + ["request.headers[<name>]"] * 5 + ["<attribute>"] * 9,
    "name": [*INDEXED, "<literal>", f"request.headers[{INDEXED[0]}]"],
    "plain bool": ["true", "false", "connection.mtls", "has(request.headers.accept)", "<literal> in request.headers"],
    "plain list": ["[<text>, <text>]", "[<text>, <text>]", "[<text>]"],
    # loops: over names, over names and texts, over elements, over indices and elements
    "of name": ["k.<test>(<text>)", "k == <text>", "size(k) > 5 && <bool>"],
    "of both": ["v == <text>", "<of name> || v.startsWith(<text>)", "size(v) < <int>"],
    "of element": ["e == <text>", "e.<test>(<text>)", "e.size() > 1 || <bool>"],
    "of index": ["i > 0 && <of element>", "i == <int> || e < <text>"],
    "loop": ["request.headers.<quantifier>(k, <of name>)", "request.headers.<quantifier>(k, v, <of both>)"] * 2
    + ['{"a": "x", "b": ""}.<quantifier>(k, <of name>)', '{"a": "x", "b": ""}.<quantifier>(k, v, <of both>)']
    + ["<list>.<quantifier>(e, <of element>)", "<list>.<quantifier>(i, e, <of index>)"],
}
# How else a value of a kind is made, each way with how often it comes.
WAYS = {
    "text": [
        (0.1, "(<text> + <text>)"),
        (0.05, "(<bool> ? <text> : <text>)"),
        (0.05, "<list>[<index>]"),
        (0.03, '{"a": <text>, "b": <text>}[<text>]'),
        (0.02, "{1: <text>, 80: <text>}[<int>]"),
        (0.02, "request.headers.accept"),
        (0.02, "string(<number>)"),
    ],
    "int": [
        (0.3, "(<int> <operator> <int>)"),
        (0.1, "int(<uint>)"),
        (0.15, "size(<text>)"),
        (0.03, "<text>.size()"),
        (0.05, "<list>.size()"),
        (0.05, "-(<int>)"),
    ],
    "list": [
        (0.15, "(<list> + <list>)"),
        (0.1, "<list>.map(e, <text>)"),
        (0.1, "<list>.map(e, <of element>, e + <text>)"),
        (0.2, "<list>.filter(e, <of element>)"),
        (0.1, "<list>.transformList(i, e, e + <text>)"),
        (0.1, "<list>.transformList(i, e, <of index>, e)"),
    ],
    "uint": [(0.35, "(<uint> <operator> <uint>)"), (0.2, "uint(<int>)")],
    "bool": [
        (0.2, "(<bool> <connective> <bool>)"),
        (0.07, "!(<bool>)"),
        (0.05, "(<bool> ? <bool> : <bool>)"),
        (0.15, "<text> <comparison> <text>"),
        (0.12, "<int> <comparison> <int>"),
        (0.05, "<uint> <comparison> <uint>"),
        (0.1, "<text>.<test>(<text>)"),
        (0.04, "<text> in <list>"),
        (0.01, '<text> in {"a": 1, <text>: 2}'),
        (0.01, "<list> == <list>"),
        (0.01, "<list> != <list>"),
        (0.03, "(<bool>) <order> (<bool>)"),
        (0.15, "<loop>"),
    ],
}
PART = re.compile(r"<([a-z ]+)>")


class Conditions:
    """Makes random conditions; the same seed makes the same ones."""

    def __init__(self, seed):
        self.chance = random.Random(seed)

    def pick(self, *of):
        """One of some things."""
        return self.chance.choice(of)

    def literal(self):
        """A text in quotes."""
        return json.dumps(self.chance.choice(WORDS), ensure_ascii=False)

    def bool(self, depth):
        """A condition of some levels."""
        return self.part("bool", depth)

    def part(self, kind, depth):
        """A part of a kind, of some levels."""
        if kind == "literal":
            return self.literal()
        if kind in CHOICES:
            return self.filled(self.pick(*CHOICES[kind]), depth)
        chance = self.chance.random()
        for share, way in WAYS[kind] if depth else ():
            chance -= share
            if chance < 0:
                return self.filled(way, depth - 1)
        return self.filled(f"<plain {kind}>", depth)

    def filled(self, way, depth):
        """A way with its parts made."""
        return PART.sub(lambda part: self.part(part[1], depth), way)
