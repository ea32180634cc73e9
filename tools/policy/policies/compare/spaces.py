"""Where requests can differ: the dimensions of a request, the tests of each, and values that these can tell apart.

A dimension is a tuple: ("method",), ("target",), ("authority",), ("version",), ("peer",), ("header", name) or
("fact", name). Without a value (None) a header, an authority or a fact is missing.
"""
import ipaddress
import re
from typing import Dict, List, NamedTuple, Optional, Union

from .texts import Domain, TextTest, classes, neighbours

METHOD, TARGET, AUTHORITY, VERSION, PEER = ("method",), ("target",), ("authority",), ("version",), ("peer",)
# The plainest value of each, and the plainest other text.
DEFAULTS: Dict[tuple, object] = {METHOD: "GET", TARGET: "/", AUTHORITY: "h", VERSION: "1.1"}
PLAIN = "x"
MTLS = "connection.mtls"
PORTS = ("destination.port", "source.port")
ADDRESSES = ("destination_ip", "direct_remote_ip", "remote_ip")
TOKEN = re.compile(r"[A-Za-z0-9!#$%&'*+.^_`|~-]+\Z")
LEAST, GREATEST = -(2**63), 2**63 - 1
Address = Union[ipaddress.IPv4Address, ipaddress.IPv6Address]
Network = Union[ipaddress.IPv4Network, ipaddress.IPv6Network]

DOMAINS = {
    METHOD: Domain(lambda one: TOKEN.match(one) is not None, 32, may_be_empty=False),
    TARGET: Domain(lambda one: one > " " and one != "\x7f", 4096, first="/", may_be_empty=False),
}
OF_HEADERS = Domain(lambda one: one >= " " and one != "\x7f" or one == "\t", 4096, is_trimmed=True)
OF_LENGTH = Domain(lambda one: one in "0123456789", 18, may_be_empty=False)
OF_FACTS = Domain(lambda one: True, 1024)


class Span(NamedTuple):
    """A range of whole numbers, whose end is not in it."""

    start: int
    end: int


class Presence(NamedTuple):
    """Whether a value is present, or that a peer has a certificate."""


class Peer(NamedTuple):
    """What is known of the peer: whether it has a certificate, and its name."""

    mtls: Optional[bool]
    name: Optional[str]


DEFAULTS[PEER] = Peer(None, None)
Probe = Union[TextTest, Span, Presence, Network]
Dimension = tuple


class Space(NamedTuple):
    """Values of one dimension, the plainest first, and whether they are all that the tests can tell apart."""

    values: list
    is_exact: bool


def space_of(dimension: Dimension, probes: List[Probe]) -> Space:
    """The values of a dimension by its tests."""
    if dimension == PEER:
        texts = _texts(OF_FACTS, probes)
        known = [Peer(None, None), Peer(False, None), Peer(True, None)]
        return Space(known + [Peer(True, text) for text in texts.values], texts.is_exact)
    if dimension == VERSION:
        return Space(["1.1", "1.0"], True)
    if dimension[0] == "fact" and dimension[1] in ADDRESSES:
        return Space([None, *_addresses([probe for probe in probes if not isinstance(probe, tuple)])], True)
    if dimension[0] == "fact" and dimension[1] in PORTS:
        return Space([None, *_numbers(probes, 0, 65535)], True)
    if dimension == ("fact", MTLS):
        return Space([None, False, True], True)
    if dimension == ("fact", "connection.id"):
        return Space([None, *_numbers(probes, 0, 2**64 - 1)], True)
    return _text_space(dimension, probes)


def _text_space(dimension: Dimension, probes: List[Probe]) -> Space:
    domain = domain_of(dimension)
    if domain is None:
        return Space([None], True)
    texts = _texts(domain, probes, str(DEFAULTS.get(dimension, PLAIN)))
    spans = [probe for probe in probes if isinstance(probe, Span)]
    values: list = list(texts.values)
    if spans:
        numbers = [str(number) for number in _numbers(spans, LEAST, GREATEST)]
        values += [number for number in numbers if domain.has(number) and number not in values]
    is_alone = not spans or not any(isinstance(probe, TextTest) for probe in probes)
    if dimension in DOMAINS:
        return Space(values, texts.is_exact and is_alone)
    return Space([None, *values], texts.is_exact and is_alone)


def domain_of(dimension: Dimension) -> Optional[Domain]:
    """The texts that a dimension can have; None for a header that no request has that is judged."""
    if dimension[0] == "header":
        name = dimension[1]
        is_possible_name = TOKEN.match(name) is not None and len(name) <= 128 and name not in ("host", "transfer-encoding")
        return (OF_LENGTH if name == "content-length" else OF_HEADERS) if is_possible_name else None
    return OF_HEADERS if dimension == AUTHORITY else DOMAINS.get(dimension, OF_FACTS)


def is_possible(part: str, domain: Domain, is_start: bool, is_end: bool) -> bool:
    """Whether a text can have a part, as its beginning, as its end, as both or somewhere."""
    if is_start and is_end:
        return domain.has(part)
    has_space = is_start and part[:1] in (" ", "\t") or is_end and part[-1:] in (" ", "\t")
    if domain.is_trimmed and has_space or is_start and not domain.can_begin(part[:1]):
        return False
    return all(map(domain.is_allowed, part)) and domain.is_short(part)


def _texts(domain: Domain, probes: List[Probe], plain: str = PLAIN) -> Space:
    """Texts that tests can tell apart, with a plain one where it is as good as another; those around each test if that is
    too much."""
    tests = list(dict.fromkeys(probe for probe in probes if isinstance(probe, TextTest)))
    found = classes(tests, domain)
    if found is not None:
        passed = [test.passes(plain) for test in tests]
        is_as_good = [domain.has(plain) and [test.passes(text) for test in tests] == passed for text in found]
        return Space([plain if same else text for text, same in zip(found, is_as_good)], True)
    near = [text for test in tests for text in neighbours(test)]
    return Space([text for text in dict.fromkeys([plain, *near]) if domain.has(text)], False)


def _numbers(probes: List[Probe], least: int, greatest: int) -> List[int]:
    """The first number of each part into which ranges cut the numbers."""
    borders = {border for probe in probes if isinstance(probe, Span) for border in probe}
    # a number below all ranges, if there is one
    borders.add(max(least, min(borders, default=least) - 1))
    return sorted(border for border in borders if least <= border <= greatest)


def _addresses(networks: List[Network]) -> List[str]:
    """The first address of each part into which ranges cut the addresses of each family, and one below all ranges."""
    found: List[Address] = []
    for version, make, bits in ((4, ipaddress.IPv4Address, 32), (6, ipaddress.IPv6Address, 128)):
        own = [network for network in networks if network.version == version]
        borders = {int(network[0]) for network in own} | {int(network[-1]) + 1 for network in own}
        lowest = min(borders, default=1)
        borders.add(lowest - 1 if lowest > 0 else 0)
        found += [make(border) for border in sorted(borders) if border < 2**bits]
    return [str(address) for address in found]
