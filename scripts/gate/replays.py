"""Replays: events as JSON lines, and the lines that have to answer them. What each answer is was written out by hand, from the
messages of xDS and the public field numbers."""
import json

EXTENSION = b"type.googleapis.com/envoy.config.core.v3.TypedExtensionConfig"
FILTER = b"type.googleapis.com/envoy.extensions.filters.http.rbac.v3.RBAC"
ANY_ANY = bytes.fromhex("0a0f120d0a01701208 0a02180112021801".replace(" ", ""))
TRUE_AND_TRUE = bytes.fromhex("0a2d122b0a01701226 0a02180112021801 221c221a1002321612045f26265f1a0610011a0210011a0610031a021001"
                              .replace(" ", ""))
METHOD_IS_GET = bytes.fromhex("0a4512430a0170123e0a0218011202180122342232100332 2e12045f3d3d5f1a1b1002 2a170a0d100122090a07"
                              "72657175657374 12066d6574686f64 1a0910041a0532034745 54".replace(" ", ""))
NO_POLICY = bytes.fromhex("0a00")
PLAIN = b"GET / HTTP/1.1\r\nHost: h\r\n\r\n"
QUIET = "- open - open"


def number(value):
    """A varint."""
    out = b""
    while value > 127:
        out, value = out + bytes([value & 127 | 128]), value >> 7
    return out + bytes([value])


def field(tag, content):
    """A field of bytes."""
    return number(tag << 3 | 2) + number(len(content)) + content


def frame(message):
    return b"\0" + len(message).to_bytes(4, "big") + message


def typed(url, content):
    return field(1, url) + field(2, content)


def resource(name, content, url=FILTER):
    return field(2, typed(EXTENSION, field(1, name) + field(2, typed(url, content))))


def response(version, nonce, *resources, url=EXTENSION):
    return frame(field(1, version) + b"".join(resources) + field(4, url) + field(5, nonce))


def request(names, version=b"", nonce=b"", node=False, refusal=None):
    """A request of the client: the first one of a stream tells the node."""
    message = field(1, version) if version else b""
    if node:
        message += field(2, field(1, b"n") + field(2, b"c"))
    message += b"".join(field(3, name) for name in names) + field(4, EXTENSION)
    message += field(5, nonce) if nonce else b""
    if refusal is not None:
        message += field(6, b"\x08\x03" + field(2, b"policy refused: %d" % refusal))
    return frame(message)


def answer(status, verdict, match, generation, body=b"", closes=False):
    lines = [b"HTTP/1.1 " + status, b"x-rbac-verdict: " + verdict, b"x-rbac-match: " + match,
             b"x-rbac-generation: %d" % generation, b"content-length: %d" % len(body)]
    lines += [b"connection: close"] if closes else []
    return b"".join(line + b"\r\n" for line in [*lines, b""]) + body


def without_body(text):
    return text[:text.index(b"\r\n\r\n") + 4]


def closing(text):
    return text.replace(b"\r\n\r\n", b"\r\nconnection: close\r\n\r\n", 1)


def told(text, generation):
    return text.replace(b"generation: 0", b"generation: %d" % generation)


def allowed(match, generation):
    return answer(b"200 OK", b"allow", match, generation)


def denied(match, generation):
    return answer(b"403 Forbidden", b"deny", match, generation, b"RBAC: access denied")


UNREADY = answer(b"503 Service Unavailable", b"unready", b"-", 0)
TOO_LARGE = answer(b"431 Request Header Fields Too Large", b"none", b"-", 0, closes=True)
assert len(allowed(b"0", 1)) == 100 and len(denied(b"-", 2)) == 126


def line(ads=b"", ads_close=False, http=b"", http_close=False):
    words = [ads.hex() or "-", "close" if ads_close else "open", http.hex() or "-", "close" if http_close else "open"]
    return " ".join(words)


def up(names, version=b""):
    return {"event": "ads_up"}, line(ads=request(names, version, node=True))


def ads(content, reply=b"", close=False):
    return {"event": "ads_bytes", "hex": content.hex()}, line(ads=reply, ads_close=close)


def opened(k=0, facts=None, close=False):
    return {"event": "http_open", "k": k, "facts": facts or {}}, line(http_close=close)


def http(content, reply=b"", close=False, k=0):
    return {"event": "http_bytes", "k": k, "hex": content.hex()}, line(http=reply, http_close=close)


LOST = {"event": "ads_lost"}, QUIET
F, FG = [b"f"], [b"f", b"g"]
FIRST = response(b"1", b"n1", resource(b"f", ANY_ANY))
ACCEPTED = [up(F), ads(FIRST, request(F, b"1", b"n1"))]


def heads(fields):
    return b"GET / HTTP/1.1\r\nHost: h\r\n" + b"".join(b"x%d: a\r\n" % at for at in range(fields)) + b"\r\n"


def long_head(length):
    front = b"GET / HTTP/1.1\r\nHost: h\r\n" + b"".join(b"%c: %s\r\n" % (letter, b"a" * 4096) for letter in b"abcdefghijklmno")
    return front + b"p: %s\r\n\r\n" % (b"a" * (length - len(front) - 7))


# the name of each replay, its filters, and its events with their answers
REPLAYS = (
    ("first_request", F, [up(F)]),
    ("first_response", F, [up(F), ads(response(b"1", b"n1", resource(b"f", TRUE_AND_TRUE)), request(F, b"1", b"n1"))]),
    ("closed and not open", F, [({"event": "http_closed", "k": 3}, QUIET)]),
    ("no such connection", F, [opened(8), http(PLAIN, k=8)]),
    ("facts outside the limits", F, [opened(0, {"source.address": "a" * 1025}, close=True), http(PLAIN)]),
    ("allow_answer", F, [*ACCEPTED, opened(), http(PLAIN, allowed(b"0", 1)), http(PLAIN + PLAIN, allowed(b"0", 1) * 2)]),
    ("head_across_update", F, [*ACCEPTED, opened(), http(PLAIN[:10]),
                               ads(response(b"2", b"n2", resource(b"f", NO_POLICY)), request(F, b"2", b"n2")),
                               http(PLAIN[10:], denied(b"-", 2))]),
    ("a head before an update", F, [*ACCEPTED, opened(), http(PLAIN, allowed(b"0", 1)),
                                    ads(response(b"2", b"n2", resource(b"f", NO_POLICY)), request(F, b"2", b"n2"))]),
    ("half_bad_response", FG, [
        up(FG), ads(response(b"1", b"n1", resource(b"f", ANY_ANY), resource(b"g", ANY_ANY)), request(FG, b"1", b"n1")),
        ads(response(b"2", b"n2", resource(b"f", NO_POLICY), resource(b"g", b"\x22\x00")),
            request(FG, b"1", b"n2", refusal=3)),
        opened(), http(PLAIN, allowed(b"0,0", 1))]),
    ("lost_mid_response", F, [*ACCEPTED, ads(FIRST[:100]), LOST, up(F, b"1"), ads(FIRST, request(F, b"1", b"n1"))]),
    ("broken_frame", F, [*ACCEPTED, ads(bytes.fromhex("0100000000"), close=True), opened(), http(PLAIN, allowed(b"0", 1))]),
    ("a frame that is too long", F, [*ACCEPTED, ads(bytes.fromhex("0000100001"), close=True), ads(FIRST),
                                     opened(), http(PLAIN, allowed(b"0", 1))]),
    ("empty_response", F, [*ACCEPTED, ads(response(b"2", b"n2"), request(F, b"2", b"n2")),
                           opened(), http(PLAIN, allowed(b"0", 2))]),
    ("another type of resources", F, [*ACCEPTED, ads(response(b"3", b"n3", resource(b"f", ANY_ANY), url=b"x"),
                                                     request(F, b"1", b"n3", refusal=17)),
                                      opened(), http(PLAIN, allowed(b"0", 1))]),
    ("a resource twice", F, [*ACCEPTED, ads(response(b"4", b"n4", resource(b"f", ANY_ANY), resource(b"f", ANY_ANY)),
                                            request(F, b"1", b"n4", refusal=16)),
                             opened(), http(PLAIN, allowed(b"0", 1))]),
    ("no policy yet", F, [opened(), http(PLAIN, UNREADY), http(heads(60), UNREADY), http(heads(61), TOO_LARGE, close=True),
                          http(PLAIN)]),
    ("one of two policies", FG, [
        up(FG), ads(response(b"1", b"n1", resource(b"f", NO_POLICY)), request(FG, b"1", b"n1")),
        opened(), http(PLAIN, answer(b"503 Service Unavailable", b"unready", b"-", 1))]),
    ("a long head", F, [opened(), http(long_head(65_536), UNREADY), http(long_head(65_537), TOO_LARGE, close=True)]),
    ("an update stream that is not up", F, [ads(FIRST), LOST]),
)


def inputs():
    """The name of each replay, its configuration, its input and its output."""
    for name, filters, events in REPLAYS:
        config = {"node": "n", "cluster": "c", "filters": [{"name": text.decode()} for text in filters]}
        lines = "".join(json.dumps(event) + "\n" for event, _ in events)
        yield name, json.dumps(config).encode(), lines.encode(), "".join(f"{line}\n" for _, line in events).encode()


def among_others(events, number):
    """The events as a record of many connections has them: connection 0 has this number, and others come and go beside it. What
    the others ask is answered nowhere."""
    others = [opened(0)[0], http(PLAIN)[0], opened(number + 1)[0], http(PLAIN[:9], k=number + 1)[0]]
    yield from others
    for event, _ in events:
        yield {**event, "k": number} if event.get("k") == 0 else event
        yield http(PLAIN)[0]
    yield from ({"event": "http_closed", "k": k} for k in (0, number + 1))


def inputs_of_one(number):
    """The same replays, each of one connection among others; and what the replay of that connection alone has to print."""
    for name, filters, events in REPLAYS:
        config = {"node": "n", "cluster": "c", "filters": [{"name": text.decode()} for text in filters]}
        seen = [(event, line) for event, line in events if event.get("k", 0) == 0]
        lines = "".join(json.dumps(event) + "\n" for event in among_others(seen, number))
        yield name, json.dumps(config).encode(), lines.encode(), "".join(f"{line}\n" for _, line in seen).encode()
