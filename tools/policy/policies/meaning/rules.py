"""The rules of a policy as formulas over a request."""
from typing import Dict

import z3

from ..compare.leaves import ALL, NONE_OF, Any, Group, Leaf, Rule
from ..compare.spaces import AUTHORITY, METHOD, PEER, TARGET, Presence, Probe, Span
from .domains import PATH, SCHEME_TEXT, SERVER_NAME
from .formulas import FALSE, TRUE, both, chosen, either, no
from .request import ADDRESS_BITS, MTLS, NUMBERS, Header, RequestModel
from .sought import RANGE, Sought
from .terms import EMPTY, Literal, Term, Variable, passes

# The names of a peer, the one that counts first.
PEER_NAMES = (
    "connection.uri_san_peer_certificate",
    "connection.dns_san_peer_certificate",
    "connection.subject_peer_certificate",
)
HEADER_OF = {METHOD: ":method", TARGET: ":path", AUTHORITY: ":authority"}


class Rules:
    """Rules over one request."""

    def __init__(self, request: RequestModel):
        self.request = request
        self.known: Dict[str, z3.BoolRef] = {}

    def matches(self, rule: Rule) -> z3.BoolRef:
        """When a permission or a principal matches."""
        if isinstance(rule, Any):
            return TRUE
        if isinstance(rule, Group):
            parts = [self.matches(one) for one in rule.rules]
            if rule.kind == NONE_OF:
                return no(parts[0])
            return both(*parts) if rule.kind == ALL else either(*parts)
        key = repr(rule)
        if key not in self.known:
            self.known[key] = self._leaf(rule)
        return self.known[key]

    def _leaf(self, leaf: Leaf) -> z3.BoolRef:
        dimension = leaf.dimension
        if dimension == PEER:
            return self._peer(leaf.probe)
        if dimension[0] == "fact":
            return self._fact(dimension[1], leaf)
        return self._header(leaf, self.request.header(HEADER_OF.get(dimension, dimension[-1])))

    def _header(self, leaf: Leaf, header: Header) -> z3.BoolRef:
        """A test of a header: one that is absent does not match, inverted or not, unless it counts as the empty text."""
        if isinstance(leaf.probe, Presence):
            return no(header.present) if leaf.invert else header.present
        found = self._text(leaf.probe, header.text)
        found = no(found) if leaf.invert else found
        if not leaf.empty:
            return both(header.present, found)
        empty = self._text(leaf.probe, EMPTY)
        return chosen(header.present, found, no(empty) if leaf.invert else empty)

    def _text(self, probe: Probe, text: Term) -> z3.BoolRef:
        if isinstance(probe, Span):
            return passes(self.request.way, text, Sought(RANGE, (probe.start, probe.end)))
        if probe.of_path and isinstance(text, Variable):
            text = text._replace(part=PATH)
        return passes(self.request.way, text, Sought(probe.kind, probe.sought, probe.ignore_case))

    def _peer(self, probe: Probe) -> z3.BoolRef:
        """A peer with a certificate, or one whose first name that is present passes a test."""
        is_known = both(self.request.present(MTLS), self.request.mtls)
        if isinstance(probe, Presence):
            return is_known
        found = FALSE
        for name in reversed(PEER_NAMES):
            found = chosen(self.request.present(name), self._text(probe, self.request.text(name)), found)
        return both(is_known, found)

    def _fact(self, name: str, leaf: Leaf) -> z3.BoolRef:
        if name == "request.scheme":
            return self._header(leaf, Header(TRUE, Literal(name), self.request.text(SCHEME_TEXT)))
        present = self.request.present(name)
        if name == SERVER_NAME:
            text = self.request.text(name)
            return chosen(present, self._text(leaf.probe, text), self._text(leaf.probe, EMPTY))
        if name in NUMBERS:
            number = self.request.number(name)
            return both(present, number >= leaf.probe.start, number < leaf.probe.end)
        return both(present, self._in_range(name, leaf.probe))

    def _in_range(self, name: str, network) -> z3.BoolRef:
        """An address of a range: the family is the same, and the first bits are."""
        address = self.request.address(name)
        family = address.is_v6 if network.version == 6 else no(address.is_v6)
        if not network.prefixlen:
            return family
        low = network.max_prefixlen - network.prefixlen
        assert network.max_prefixlen <= ADDRESS_BITS
        wanted = z3.BitVecVal(int(network.network_address) >> low, network.prefixlen)
        return both(family, z3.Extract(network.max_prefixlen - 1, low, address.bits) == wanted)
