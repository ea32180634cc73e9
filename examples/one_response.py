"""A response of a control plane, without a tool: for the scripts `try` of this folder's folders."""
# the rules of a filter whose one policy takes each request
RULES = bytes.fromhex("0a0f120d0a017012080a02180112021801")
URL = b"type.googleapis.com/envoy."
EXTENSION, RBAC = URL + b"config.core.v3.TypedExtensionConfig", URL + b"extensions.filters.http.rbac.v3.RBAC"


def field(number, content):
    """A field of fewer than 16,384 bytes."""
    size = len(content)
    return bytes([number << 3 | 2]) + (bytes([size]) if size < 128 else bytes([size & 127 | 128, size >> 7])) + content


def response():
    """A DiscoveryResponse with the filter f."""
    resource = field(1, EXTENSION) + field(2, field(1, b"f") + field(2, field(1, RBAC) + field(2, RULES)))
    return field(1, b"1") + field(2, resource) + field(4, EXTENSION) + field(5, b"1")
