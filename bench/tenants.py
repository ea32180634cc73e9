"""Filters of policies for tenants, and heads that match them or do not."""
from messages import PREFIX, entry, every, filter_of, header, path, policy, principal_header


def prefix_of(kind, index):
    return b"/svc%03d/" % index if kind == "path" else b"/svc/"


def tenant_policy(kind, index):
    rules = [path(PREFIX, prefix_of(kind, index)), header(b":method", b"GET")]
    return policy([every(rules)], [principal_header(b"x-user", b"user%03d" % index)])


def tenants(kind, count):
    return filter_of(entry(b"r%03d" % index, tenant_policy(kind, index)) for index in range(count))


def request_head(kind, index, user):
    target = prefix_of(kind, index) + b"item?id=7"
    lines = [b"Host: bench.example", b"User-Agent: peers", b"Accept: */*", b"X-User: " + user]
    return b"GET " + target + b" HTTP/1.1\r\n" + b"\r\n".join(lines) + b"\r\n\r\n"


def head_of_60():
    lines = [b"Host: bench.example"]
    lines += [b"X-Field-%02d: value-%02d-%s" % (index, index, b"abcdefghij" * (index % 4)) for index in range(59)]
    return b"GET /svc000/item?id=7&x=1 HTTP/1.1\r\n" + b"\r\n".join(lines) + b"\r\n\r\n"
