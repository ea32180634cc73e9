"""The names of the notes, by which a comment in a file can silence them, and how a note is made."""
from typing import NamedTuple

from ..findings import NOTE, Finding

NO_PREFIX_LEN = "no-prefix-len"
HOST_BITS = "host-bits"
HOST_HEADER = "host-header"
UPPER_CASE = "upper-case-header"
LOWER_CASE = "lower-case-method"
NEVER = "never-matches"
NEEDLESS = "needless-rule"
OTHER_PATHS = "other-paths"
NEVER_FIRST = "never-first"
MISSING = "missing-in-deny"
OPEN_PREFIX = "open-prefix"
OPEN_SUFFIX = "open-suffix"
CLIENT_HEADER = "client-header"
ADDRESS_PORT = "address-port"
ANY_ANY = "any-any"
NEEDLESS_POLICY = "needless-policy"
CONSTANT = "constant-condition"
UNUSED = "unused-ignore"
MEANINGS = {
    NO_PREFIX_LEN: "a range of addresses without a length, which holds every address",
    HOST_BITS: "a range of addresses whose address has bits that do not count",
    HOST_HEADER: "a header named host, which no request has",
    UPPER_CASE: "a header's name in upper case in a condition, which no request has",
    LOWER_CASE: "a method in lower case",
    NEVER: "a text, a name or a range that no request has, or a policy or a condition that no request meets",
    NEEDLESS: "a rule beside others that match whatever it matches",
    OTHER_PATHS: "a path that is denied, while another spelling of it passes, as the note says",
    NEVER_FIRST: "a policy that an earlier one goes before, whatever it matches",
    MISSING: "a condition or a rule of DENY that reads what may be missing, which lets the request pass",
    OPEN_PREFIX: "a prefix of a path or of a peer's name that ends inside of a name",
    OPEN_SUFFIX: "a suffix of a host that begins inside of a name",
    CLIENT_HEADER: "a header that a front sets and a client can send, by which a request passes",
    ADDRESS_PORT: "an address without a port, which no connection has",
    ANY_ANY: "a policy that matches each request",
    NEEDLESS_POLICY: "a policy whose requests others match too",
    CONSTANT: "a part of a condition that is true for each request",
    UNUSED: "a comment that silences nothing",
}
# Notes that the solver finds, if it is asked; some of them are found without it too.
SOLVED = frozenset([NEVER, NEEDLESS, NEVER_FIRST, MISSING, NEEDLESS_POLICY, CONSTANT])


class Lint(NamedTuple):
    """A note without its place: its name, and words."""

    name: str
    words: str

    def at(self, path: tuple) -> Finding:
        """The note on a part of a filter."""
        return Finding(NOTE, self.words, None, path, self.name)
