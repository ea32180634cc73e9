"""Notes on permissions and principals: what no request has, and what more requests have than it seems."""
import ipaddress
from typing import Callable, Dict, Iterator, List, NamedTuple, Optional

from ..compare.leaves import PSEUDO
from ..compare.spaces import METHOD, TARGET, Dimension, domain_of, is_possible
from ..compare.texts import CONTAINS, ENDS, EXACT, PREFIX, SUFFIX, TextTest, lower_ascii
from ..faults import has_address
from ..findings import Finding
from ..messages import Message
from .names import HOST_BITS, HOST_HEADER, LOWER_CASE, NEEDLESS, NEVER, NO_PREFIX_LEN, Lint
from .of_edges import edge, of_header
from .of_paths import Paths

SETS = {"and_rules": "rules", "or_rules": "rules", "and_ids": "ids", "or_ids": "ids"}
ADDRESSES = ("destination_ip", "direct_remote_ip", "remote_ip")
KINDS = (EXACT, PREFIX, SUFFIX, CONTAINS)
OLD_TESTS = {f"{kind}_match": kind for kind in KINDS}
METHODS = frozenset("GET HEAD POST PUT DELETE CONNECT OPTIONS TRACE PATCH".split())
HOST, AUTHORITY = "host", ":authority"
SERVER_NAME, PEER_NAME = ("fact", "connection.requested_server_name"), ("fact", "connection.uri_san_peer_certificate")
NO_HOST = f"the Host line is the header {AUTHORITY} here, and no request has one named {HOST}: write `name: {AUTHORITY}`"
Found = Iterator[Finding]


class Sense(NamedTuple):
    """Whether a request is denied for what a rule matches, and what the filter says of paths."""

    denies: bool
    paths: Paths

    def turned(self, is_turned: bool = True) -> "Sense":
        """The sense below a negation."""
        return self._replace(denies=self.denies != is_turned)



def rule_notes(policy: Message, path: tuple, paths: Paths) -> Found:
    """The notes on the rules of a policy."""
    sense = Sense(paths.is_deny, paths.beside(policy))
    for side in ("permissions", "principals"):
        yield from _of_list(policy.get(side) or [], (*path, side), sense, False)


def _of_list(rules: List[Message], path: tuple, sense: Sense, is_all: bool) -> Found:
    """The notes on rules of which one has to match, or all."""
    always = [index for index, rule in enumerate(rules) if rule.get("any")]
    for index, rule in enumerate(rules):
        if is_all and index in always and len(rules) > 1:
            yield Lint(NEEDLESS, "`any` decides nothing beside other rules that have to match too").at((*path, index))
        elif not is_all and always and index != always[0]:
            yield Lint(NEEDLESS, "this decides nothing: beside it `any` always matches").at((*path, index))
        yield from _of_rule(rule, (*path, index), sense)


def _of_rule(rule: Message, path: tuple, sense: Sense) -> Found:
    """The notes on a rule."""
    for member, held in rule.values.items() if rule.is_whole else ():
        where = (*path, member)
        if member in SETS and held.is_whole:
            yield from _of_list(held.get(SETS[member]) or [], (*where, SETS[member]), sense, member.startswith("and"))
        elif member in ("not_rule", "not_id"):
            yield from _of_rule(held, where, sense.turned())
        elif member in LEAVES and held.is_whole:
            yield from LEAVES[member](held, where, sense)


def _of_range(message: Message, path: tuple, sense: Sense) -> Found:
    """Ranges of addresses without a length, or with an address of more bits than count."""
    if not has_address(message):
        return
    address, length = message.scalar("address_prefix"), message.get("prefix_len")
    family, bits = ("IPv6", 128) if ":" in address else ("IPv4", 32)
    if length is None:
        words = f"without prefix_len every {family} address matches; for {address} alone write `prefix_len: {bits}`"
        yield Lint(NO_PREFIX_LEN, words).at(path)
        return
    count = length.scalar("value")
    if count <= bits:
        first = str(ipaddress.ip_network(f"{address}/{count}", strict=False).network_address)
        if first != str(ipaddress.ip_address(address)):
            words = f"only the first {count} bits count: this is the range that begins at {first}"
            yield Lint(HOST_BITS, words).at((*path, "address_prefix"))


def _of_path(message: Message, path: tuple, sense: Sense) -> Found:
    matcher = message.get("path")
    if matcher is not None and matcher.is_whole:
        yield from _of_matcher(matcher, (*path, "path"), TARGET, sense, of_path=True)


def _of_server_name(message: Message, path: tuple, sense: Sense) -> Found:
    yield from _of_matcher(message, path, SERVER_NAME, sense)


def _of_peer(message: Message, path: tuple, sense: Sense) -> Found:
    name = message.get("principal_name")
    if name is not None and name.is_whole:
        yield from _of_matcher(name, (*path, "principal_name"), PEER_NAME, sense)


def _of_matcher(matcher: Message, path: tuple, dimension: Dimension, sense: Sense, of_path: bool = False) -> Found:
    kind = matcher.which("match_pattern")
    if kind in KINDS and matcher.get(kind) is not None:
        test = TextTest(kind, matcher.get(kind), bool(matcher.scalar("ignore_case")), of_path)
        yield from _of_test(test, (*path, kind), dimension, sense)


def _of_test(test: TextTest, path: tuple, dimension: Dimension, sense: Sense) -> Found:
    """Tests that no text passes, methods in lower case, and paths with other spellings."""
    why = _never(test, dimension)
    if why is not None:
        yield Lint(NEVER, why).at(path)
    elif dimension == METHOD and test.kind == EXACT and not test.ignore_case and test.sought.upper() in METHODS:
        if test.sought != test.sought.upper():
            yield Lint(LOWER_CASE, f"methods are compared as sent: write {test.sought.upper()}").at(path)
    elif dimension == TARGET and sense.denies:
        note = sense.paths.note(test.sought, test.passes)
        if note is not None:
            yield note.at(path)
    elif not sense.denies:
        note = edge(test.kind, test.sought, dimension)
        if note is not None:
            yield note.at(path)


def _never(test: TextTest, dimension: Dimension) -> Optional[str]:
    """Why no text passes a test, or None."""
    if not test.sought and test.kind != EXACT:
        return None
    if test.of_path and any(end in test.sought for end in ENDS):
        return "this never matches: url_path is the target before the first `?` or `#`; write a header `:path` for the whole"
    if dimension == TARGET and test.kind in (EXACT, PREFIX) and not test.sought.startswith("/"):
        return "this never matches: a path begins with `/`"
    domain = domain_of(dimension)
    whole = test.kind in (EXACT, PREFIX), test.kind in (EXACT, SUFFIX)
    if not is_possible(test.sought, domain, *whole):
        what = "method" if dimension == METHOD else "path" if dimension == TARGET else "text of this kind"
        return f"this never matches: no {what} has such characters or such a length"
    return None


def _of_header(message: Message, path: tuple, sense: Sense) -> Found:
    name = lower_ascii(message.scalar("name"))
    if name == HOST:
        yield Lint(HOST_HEADER, NO_HOST).at((*path, "name"))
        return
    if not name:
        return
    dimension = PSEUDO.get(name, ("header", name))
    if dimension[0] == "header" and domain_of(dimension) is None:
        yield Lint(NEVER, "no request that is judged has a header of this name").at((*path, "name"))
        return
    sense = sense.turned(bool(message.scalar("invert_match")))
    of_client = None if sense.denies else of_header(name)
    if of_client is not None:
        yield of_client.at((*path, "name"))
    member = message.which("header_match_specifier")
    if member in OLD_TESTS:
        yield from _of_test(TextTest(OLD_TESTS[member], message.get(member)), (*path, member), dimension, sense)
    elif member == "string_match" and message.get(member).is_whole:
        yield from _of_matcher(message.get(member), (*path, member), dimension, sense)
    elif member == "range_match" and message.get(member).is_whole:
        span = message.get(member)
        if span.scalar("start") >= span.scalar("end"):
            yield Lint(NEVER, "this never matches: the range is empty, since its end is not in it").at((*path, member))


LEAVES: Dict[str, Callable[[Message, tuple, Sense], Found]] = {
    **dict.fromkeys(ADDRESSES, _of_range),
    "url_path": _of_path,
    "header": _of_header,
    "requested_server_name": _of_server_name,
    "authenticated": _of_peer,
}
