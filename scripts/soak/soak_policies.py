"""What scripts/soak/soak asks and what has to come: the policies of each version, requests, and the answer to each at a generation.

Version N is the Nth that is good, so it is the policy of generation N. What it lets pass, no other version lets pass.
"""
import collections
import pathlib
import random
import sys

sys.path.insert(0, str(pathlib.Path(__file__).resolve().parent.parent.parent / "bench"))
from expressions import call, checked, ident, string  # noqa: E402
from messages import ANY, EXACT, PREFIX, entry, filter_of, path, policy, principal_header, text  # noqa: E402
from replays import ANY_ANY, TOO_LARGE, allowed, denied, long_head, resource, response  # noqa: E402
from tenants import tenant_policy  # noqa: E402

POLICIES = 64
# a head that is one byte too long, and what asks for it instead of a policy
LARGE = long_head(65_537)
IS_LARGE = -1
FILTER = b"f"
# Responses that are refused: what has to be said of each, and its resources and their type.
ANY_FALSE = ANY_ANY.replace(b"\x18\x01\x12", b"\x18\x00\x12", 1)
REFUSED = (
    (5, [resource(FILTER, ANY_FALSE)], {}),
    (3, [resource(FILTER, b"\x22\x00")], {}),
    (16, [resource(FILTER, ANY_ANY), resource(FILTER, ANY_ANY)], {}),
    (17, [resource(FILTER, ANY_ANY)], {"url": b"x"}),
)
FIELDS = b"".join(b"X-Field-%d: value-%d\r\n" % (at, at) for at in range(8))


def asked_condition(version):
    """request.headers["x-ask"] == "ask-N"."""
    header = call(b"_[_]", ident(b"request.headers"), string(b"x-ask"))
    return checked(call(b"_==_", header, string(b"ask-%d" % version)))


def filter_at(version):
    """The filter of a version: by a path, by a user, by a condition, and others that nothing matches here."""
    policies = [policy([path(EXACT, b"/only/%d" % version)], [ANY]),
                policy([path(PREFIX, b"/user/")], [principal_header(b"x-user", b"user-%d" % version)]),
                policy([path(PREFIX, b"/asked/")], [ANY]) + text(4, asked_condition(version))]
    policies += [tenant_policy("path", number) for number in range(POLICIES - len(policies))]
    return filter_of(entry(b"%03d" % number, each) for number, each in enumerate(policies))


def good(version, nonce):
    """The response with a version that is accepted."""
    return response(b"%d" % version, nonce, resource(FILTER, filter_at(version)))


def refused(turn, nonce):
    """A response that is refused, and the number of the reason."""
    reason, resources, more = REFUSED[turn % len(REFUSED)]
    return response(b"refused-%d" % turn, nonce, *resources, **more), reason


# A request that was sent: the version that lets it pass and the policy that does, whether its method is HEAD, whether it asks for
# the end of the connection, the least generation that may judge it, and when it was sent, where it was sent at once.
Asked = collections.namedtuple("Asked", "version match is_head closes least at")


def request_of(kind, version, method=b"GET", lines=b""):
    """A request that only the version lets pass, by the policy of a kind."""
    target, own = ((b"/only/%d" % version, b""), (b"/user/a", b"X-User: user-%d\r\n" % version),
                   (b"/asked/a", b"X-Ask: ask-%d\r\n" % version))[kind]
    return b"%s %s HTTP/1.1\r\nHost: soak.example\r\n%s%s\r\n" % (method, target, own, lines)


def random_request(chance, generation, lines=b""):
    """A request of a random kind, near the generation that was seen last: its bytes, kind, version and method."""
    version = generation if chance.random() < 0.9 else max(0, generation + chance.choice((-1, 1, 2)))
    kind, method, body = chance.randrange(3), b"GET", b""
    shape = chance.random()
    if shape < 0.1:
        method = b"HEAD"
    elif shape < 0.2:
        method, body = b"POST", chance.randbytes(chance.randrange(1, 200))
        lines += b"Content-Length: %d\r\n" % len(body)
    elif shape < 0.4:
        lines += FIELDS
    return request_of(kind, version, method, lines) + body, kind, version, method


def answer_at(generation, asked):
    """The whole answer to a request that a generation judges."""
    if asked.match == IS_LARGE:
        return TOO_LARGE.replace(b"generation: 0", b"generation: %d" % generation)
    if generation == asked.version:
        it = allowed(b"%d" % asked.match, generation)
    else:
        it = denied(b"-", generation)
    if asked.is_head:
        it = it[:it.index(b"\r\n\r\n") + 4]
    return it.replace(b"\r\n\r\n", b"\r\nconnection: close\r\n\r\n", 1) if asked.closes else it


def pieces_of(chance, content, most=5):
    """The bytes, cut at random."""
    cuts = sorted(chance.randrange(1, len(content)) for _ in range(chance.randrange(1, most)))
    return [content[start:end] for start, end in zip([0, *cuts], [*cuts, len(content)])]


def chance_of(seed):
    return random.Random(seed)
