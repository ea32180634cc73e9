"""Spellings of the messages that the benchmark's inputs are made of, after Envoy's and Protocol Buffers' definitions."""


def varint(number):
    out = bytearray()
    while number >= 128:
        out.append(number % 128 + 128)
        number //= 128
    out.append(number)
    return bytes(out)


def text(number, payload):
    """A length-delimited field."""
    return varint(number * 8 + 2) + varint(len(payload)) + payload


def flag(number, value):
    """A varint field."""
    return varint(number * 8) + varint(value)


# Rules: `any` and `not` have the same numbers in permissions and principals, and so have `and` and `or`.
ANY = flag(3, 1)


def every(rules):
    return text(1, b"".join(text(1, rule) for rule in rules))


def either(rules):
    return text(2, b"".join(text(1, rule) for rule in rules))


def none_of(rule):
    return text(8, rule)


def header(name, value):
    """A permission on one header that equals the value."""
    return text(4, text(1, name) + text(4, value))


def principal_header(name, value):
    return text(6, text(1, name) + text(4, value))


EXACT, PREFIX, SUFFIX, CONTAINS = 1, 2, 3, 7


def string_matcher(kind, pattern, ignore_case=False):
    return text(kind, pattern) + (flag(6, 1) if ignore_case else b"")


def path(kind, pattern, ignore_case=False):
    """A permission on the request's path."""
    return text(10, text(1, string_matcher(kind, pattern, ignore_case)))


# Filters.
def policy(permissions, principals):
    return b"".join(text(1, rule) for rule in permissions) + b"".join(text(2, rule) for rule in principals)


def entry(name, value):
    """An entry of the map of policies."""
    return text(2, text(1, name) + text(2, value))


def filter_of(entries):
    return text(1, b"".join(entries))


def one_policy(permission):
    """A filter of one policy with one permission."""
    return filter_of([entry(b"p", policy([permission], [ANY]))])


# Heads.
def head(lines=(), target=b"/a"):
    return b"GET " + target + b" HTTP/1.1\r\nHost: bench.example\r\n" + b"".join(lines) + b"\r\n"


# The update stream.
EXTENSION = b"type.googleapis.com/envoy.config.core.v3.TypedExtensionConfig"
FILTER = b"type.googleapis.com/envoy.extensions.filters.http.rbac.v3.RBAC"


def any_of(type_url, value):
    return text(1, type_url) + text(2, value)


def extension(name, filter_bytes):
    return text(1, name) + text(2, any_of(FILTER, filter_bytes))


def response(version, resources, nonce):
    named = b"".join(text(2, any_of(EXTENSION, resource)) for resource in resources)
    return text(1, version) + named + text(4, EXTENSION) + text(5, nonce)


def frame(message):
    return b"\0" + len(message).to_bytes(4, "big") + message
