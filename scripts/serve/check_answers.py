"""Answers to CheckRequests by Envoy's public protos, apart from the crate: an encoder by hand, and python3-protobuf where it is there."""
from check_maker import number, text

try:
    from google.protobuf import descriptor_pb2, descriptor_pool, message_factory
except ImportError:
    descriptor_pb2 = None

# each outcome: the code of gRPC, the status of HTTP, the body
OUTCOMES = {"allow": (0, 200, ""), "deny": (7, 403, "RBAC: access denied"), "steps": (7, 403, "RBAC: access denied"),
            "unready": (14, 503, ""), "memory": (8, 503, ""), "limits": (3, 431, ""), "coding": (3, 501, ""), "host": (3, 400, ""),
            "unread": (3, 400, "")}
NAMES = ["x-a", "x-user", "x-rbac-verdict", "X-B", "a" * 130, "ä"]
VALUES = ["", "1", "a b", "a=b", "allow, deny", "ä\u20ac\U0001f600", "v" * 127, "v" * 128, "v" * 20_000, "=", " "]
# the messages of Envoy v3 and google.rpc: each field's number, name, and type; a type in brackets is repeated
MESSAGES = {
    "CheckResponse": [(1, "status", "Status"), (2, "denied_response", "DeniedHttpResponse"), (3, "ok_response", "OkHttpResponse")],
    "Status": [(1, "code", "int32"), (2, "message", "string")],
    "HttpStatus": [(1, "code", "enum")],
    "DeniedHttpResponse": [(1, "status", "HttpStatus"), (2, "headers", "[HeaderValueOption]"), (3, "body", "string")],
    "OkHttpResponse": [(2, "headers", "[HeaderValueOption]"), (5, "headers_to_remove", "[string]")],
    "HeaderValueOption": [(1, "header", "HeaderValue"), (3, "append_action", "enum"), (4, "keep_empty_value", "bool")],
    "HeaderValue": [(1, "key", "string"), (2, "value", "string"), (3, "raw_value", "bytes")],
}


def some(source, values, most):
    return [source.choice(values) for _ in range(source.randrange(most + 1))]


def asked_of(source):
    """A random outcome, with the headers that are set and the names of those that are removed."""
    return source.choice(list(OUTCOMES)), [(name, source.choice(VALUES)) for name in some(source, NAMES, 4)], some(source, NAMES + [""], 4)


def line_of(outcome, headers, removed):
    """The question as the program reads it."""
    return "\t".join(["answer " + outcome, *(f"{name}={value}" for name, value in headers), *(f"-{name}" for name in removed)])


def filled(field, value):
    """The field of a string, or of a number; none for the default."""
    if not value:
        return b""
    return number(field, value) if isinstance(value, int) else text(field, value.encode())


def by_hand(outcome, headers, removed):
    """The bytes of the answer, by Protocol Buffers' encoding."""
    code, status, body = OUTCOMES[outcome]
    options = b"".join(text(2, text(1, filled(1, name) + filled(2, value)) + number(3, 2)) for name, value in headers)
    if code:
        inner = text(2, text(1, filled(1, status)) + options + filled(3, body))
    else:
        inner = text(3, options + b"".join(text(5, name.encode()) for name in removed))
    return text(1, filled(1, code)) + inner


def classes():
    """The messages as classes of python3-protobuf."""
    file = descriptor_pb2.FileDescriptorProto(name="answers.proto", package="answers", syntax="proto3")
    file.enum_type.add(name="Number").value.add(name="ZERO", number=0)
    kinds = descriptor_pb2.FieldDescriptorProto
    plain = {"int32": kinds.TYPE_INT32, "string": kinds.TYPE_STRING, "bytes": kinds.TYPE_BYTES, "bool": kinds.TYPE_BOOL}
    for name, rows in MESSAGES.items():
        message = file.message_type.add(name=name)
        for place, field, kind in rows:
            row = message.field.add(name=field, number=place)
            row.label = kinds.LABEL_REPEATED if kind[0] == "[" else kinds.LABEL_OPTIONAL
            kind = kind.strip("[]")
            row.type = plain.get(kind, kinds.TYPE_ENUM if kind == "enum" else kinds.TYPE_MESSAGE)
            if kind not in plain:
                row.type_name = ".answers.Number" if kind == "enum" else f".answers.{kind}"
    pool = descriptor_pool.DescriptorPool()
    pool.Add(file)
    return {name: message_factory.MessageFactory(pool).GetPrototype(pool.FindMessageTypeByName(f"answers.{name}")) for name in MESSAGES}


class Protobuf:
    """Answers by python3-protobuf."""

    def __init__(self):
        self.made = classes() if descriptor_pb2 else None

    def is_there(self):
        return self.made is not None

    def encoded(self, outcome, headers, removed):
        code, status, body = OUTCOMES[outcome]
        answer = self.made["CheckResponse"]()
        answer.status.code = code
        answer.status.SetInParent()
        inner = answer.denied_response if code else answer.ok_response
        inner.SetInParent()
        if code:
            inner.status.code, inner.body = status, body
        else:
            inner.headers_to_remove.extend(removed)
        for name, value in headers:
            option = inner.headers.add(append_action=2)
            option.header.key, option.header.value = name, value
            option.header.SetInParent()
        return answer.SerializeToString(deterministic=True)
