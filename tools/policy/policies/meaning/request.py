"""A request as variables, within the limits of the engine.

A request has a head of HTTP/1.0 or HTTP/1.1. The limits are those of single parts: what is longer as a whole (a head of more
than 65,536 bytes, characters of several bytes) is left to the engine, which does not judge it.
"""
from typing import Dict, List, NamedTuple, Tuple

import z3

from ..compare.spaces import TOKEN
from ..compare.texts import EXACT
from .domains import (
    AUTHORITY_TEXT,
    CONTENT_LENGTH,
    IMPOSSIBLE,
    LONGEST_NAME,
    METHOD_TEXT,
    SCHEME_TEXT,
    TARGET_TEXT,
    WHOLE,
    header_text,
    other_name,
    other_text,
)
from .formulas import FALSE, TRUE, both, chosen, count_of, follows, no
from .sought import Sought
from .terms import EMPTY, Literal, Term, Variable, compared, passes

NUMBERS = {"source.port": 65535, "destination.port": 65535, "connection.id": 2**64 - 1}
MTLS = "connection.mtls"
ADDRESS_BITS = 128
MOST_LINES = 61
# The first 96 bits of such an address.
MAPPED = 0xFFFF
PSEUDO = {":method": METHOD_TEXT, ":path": TARGET_TEXT, ":scheme": SCHEME_TEXT}


class Address(NamedTuple):
    """An address: whether it is of IPv6, and its bits as a number of 128 bits."""

    is_v6: z3.BoolRef
    bits: z3.BitVecRef


class Header(NamedTuple):
    """A header: when it is present, its name and its text."""

    present: z3.BoolRef
    name: Term
    text: Term


class Known(NamedTuple):
    """What an earlier reading of the same filters found: the names of headers, and how many headers of any name."""

    names: Tuple[str, ...] = ()
    others: int = 0


class RequestModel:
    """One request: when each of its parts is present, and their values."""

    def __init__(self, way, known: Known = Known()):
        self.way = way
        self.known = known
        self.names: List[str] = list(known.names)
        # So many headers of any name are asked for by what was read.
        self.others_asked = 0
        self.counts_headers = False
        # What is left out, so that "equal" would be too much to say.
        self.gaps: List[str] = []
        self.has: Dict[str, z3.BoolRef] = {}
        self.numbers: Dict[str, z3.ArithRef] = {}
        self.addresses: Dict[str, Address] = {}
        self.http11, self.mtls = z3.Bool("http11"), z3.Bool("mtls")
        self.more_headers = z3.Int("more headers")

    def found(self) -> Known:
        """What this reading found."""
        return Known(tuple(self.names), self.others_asked)

    # --- parts ---------------------------------------------------------------------------------------------------

    def text(self, name: str, part: str = WHOLE) -> Variable:
        """The text of a variable."""
        return Variable(name, part)

    def present(self, name: str) -> z3.BoolRef:
        """That an optional part is present."""
        if name not in self.has:
            self.has[name] = z3.Bool("has " + name)
        return self.has[name]

    def number(self, name: str) -> z3.ArithRef:
        """The number of a fact."""
        if name not in self.numbers:
            self.numbers[name] = z3.Int(name)
        return self.numbers[name]

    def address(self, name: str) -> Address:
        """The address of a fact."""
        if name not in self.addresses:
            self.addresses[name] = Address(z3.Bool("v6 " + name), z3.BitVec("bits " + name, ADDRESS_BITS))
        return self.addresses[name]

    def authority(self) -> Header:
        """The Host line, which HTTP/1.1 requires."""
        return Header(self.present(AUTHORITY_TEXT), Literal(":authority"), self.text(AUTHORITY_TEXT))

    def header(self, name: str) -> Header:
        """A header by its name, pseudo-headers included."""
        if name in PSEUDO:
            return Header(TRUE, Literal(name), self.text(PSEUDO[name]))
        if name == ":authority":
            return self.authority()
        if name != name.lower() or name in IMPOSSIBLE or not TOKEN.match(name) or len(name) > LONGEST_NAME:
            return Header(FALSE, Literal(name), EMPTY)
        if name not in self.names:
            self.names.append(name)
        variable = header_text(name)
        return Header(self.present(variable), Literal(name), self.text(variable))

    def ask_others(self, count: int) -> None:
        """Counts headers of any name: so many can make a difference, beside those that are named."""
        self.others_asked += count
        # its text has a domain of its own
        self.header(CONTENT_LENGTH)

    def other(self, number: int) -> Header:
        """One of the headers of any name."""
        variable = other_text(number)
        return Header(self.present(variable), self.text(other_name(number)), self.text(variable))

    def headers(self) -> List[Header]:
        """Each header that is named, those of any name, and the pseudo-headers."""
        pseudo = [self.header(name) for name in PSEUDO]
        return [*pseudo, self.authority(), *map(self.header, list(self.names)), *map(self.other, range(self.known.others))]

    def count_of_headers(self) -> z3.ArithRef:
        """How many entries request.headers has."""
        self.counts_headers = True
        return count_of(one.present for one in self.headers()) + self.more_headers

    # --- what holds of every request -----------------------------------------------------------------------------

    def limits(self) -> List[z3.BoolRef]:
        """What holds of the variables, whatever the request."""
        found = list(self.way.domain())
        if AUTHORITY_TEXT in self.has:
            found.append(follows(self.http11, self.present(AUTHORITY_TEXT)))
        for name, number in self.numbers.items():
            found.append(both(number >= 0, number <= NUMBERS[name]))
        for address in self.addresses.values():
            # an IPv4 address that is written as IPv6 counts as IPv4 where it comes in
            high = z3.Extract(ADDRESS_BITS - 1, 32, address.bits)
            found.append(chosen(address.is_v6, high != MAPPED, high == 0))
        return [*found, *self._lines(), *self._names_of_others()]

    def _lines(self) -> List[z3.BoolRef]:
        """That there are no more lines of headers than a request may have."""
        lines = [self.present(header_text(name)) for name in self.names]
        lines += [self.present(other_text(number)) for number in range(self.known.others)]
        if not self.counts_headers and len(lines) < MOST_LINES:
            return []
        lines.append(self.present(AUTHORITY_TEXT))
        # a request without such a line has HTTP/1.0
        is_right = follows(self.http11, self.present(AUTHORITY_TEXT))
        return [is_right, self.more_headers >= 0, count_of(lines) + self.more_headers <= MOST_LINES]

    def _names_of_others(self) -> List[z3.BoolRef]:
        """That a header of any name has none of the other names."""
        found = []
        for number in range(self.known.others):
            name = self.text(other_name(number))
            taken = [*self.names, *IMPOSSIBLE]
            found += [no(passes(self.way, name, Sought(EXACT, one))) for one in taken]
            for before in range(number):
                same = compared(self.way, EXACT, name, self.text(other_name(before)))
                are_there = both(self.present(other_text(number)), self.present(other_text(before)))
                found.append(follows(are_there, no(same)))
        return found
