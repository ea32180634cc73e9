"""Checked expressions as messages, spelled after CEL's `syntax.proto` and `checked.proto`, and a short way to write them.

`expression_of` reads one: `7`, `7u`, `"a"`, `b"a"` and `true` are constants, `request.headers` is a select, and `(NAME PART..)`
is what NAME says:
    list, map       a literal; keys and values of a map stand in turn
    field, has      a select of a map and a text, and its test
    index, neg      `a[b]` and `-a`; `nsf` is @not_strictly_false, `in` is @in
    contains, startsWith, endsWith      a call on its first part
    another name    a function; a sign is the operator's, `(+ 1 2)`
"""
import ast
import pathlib
import re
import sys

sys.path.insert(0, str(pathlib.Path(__file__).resolve().parent.parent.parent / "bench"))
from messages import flag, text, varint  # noqa: E402

TOKENS = re.compile(r'\(|\)|b?"(?:[^"\\]|\\.)*"|[^\s()]+')
FUNCTIONS = {"neg": b"-_", "!": b"!_", "nsf": b"@not_strictly_false", "index": b"_[_]", "in": b"@in", "?": b"_?_:_"}
METHODS = ("contains", "startsWith", "endsWith")
# the members of an expression
CONSTANT, IDENT, SELECT, CALL, LIST, MAP, LOOP = 3, 4, 5, 6, 7, 8, 9


def boolean(value):
    return text(CONSTANT, flag(2, value))


def integer(value):
    return text(CONSTANT, flag(3, value % 2**64))


def unsigned(value):
    return text(CONSTANT, flag(4, value))


def string(value):
    return text(CONSTANT, text(6, value))


def raw(value):
    return text(CONSTANT, text(7, value))


def ident(value):
    return text(IDENT, text(1, value))


def select(operand, field, is_test=False):
    return text(SELECT, text(1, operand) + text(2, field) + (flag(3, 1) if is_test else b""))


def call(function, arguments, target=None):
    on = b"" if target is None else text(1, target)
    return text(CALL, on + text(2, function) + b"".join(text(3, it) for it in arguments))


def sequence(elements):
    return text(LIST, b"".join(text(1, it) for it in elements))


def mapping(pairs):
    return text(MAP, b"".join(text(2, text(3, key) + text(4, value)) for key, value in pairs))


TRUE = boolean(1)


def constant_or_name(token):
    if token in ("true", "false"):
        return boolean(int(token == "true"))
    if token.startswith("b"):
        return raw(ast.literal_eval(token)) if token.startswith('b"') else ident(token.encode())
    if token.startswith('"'):
        return string(ast.literal_eval(token).encode())
    if re.fullmatch(r"\d+u", token):
        return unsigned(int(token[:-1]))
    if re.fullmatch(r"-?\d+", token):
        return integer(int(token))
    root, *fields = token.encode().split(b".")
    found = ident(root)
    for field in fields:
        found = select(found, field)
    return found


def applied(function, parts):
    if function == "list":
        return sequence(parts)
    if function == "map":
        return mapping(zip(parts[::2], parts[1::2]))
    if function in METHODS:
        return call(function.encode(), parts[1:], parts[0])
    if function in FUNCTIONS:
        return call(FUNCTIONS[function], parts)
    return call(function.encode() if function.isidentifier() else b"_%s_" % function.encode(), parts)


def read(tokens):
    token = tokens.pop(0)
    if token != "(":
        return constant_or_name(token)
    function = tokens.pop(0)
    if function in ("field", "has"):
        operand, field = read(tokens), ast.literal_eval(tokens.pop(0)).encode()
        found = select(operand, field, function == "has")
    else:
        parts = []
        while tokens[0] != ")":
            parts.append(read(tokens))
        found = applied(function, parts)
    tokens.pop(0)
    return found


def expression_of(words):
    """The expression of this notation."""
    tokens = TOKENS.findall(words)
    found = read(tokens)
    if tokens:
        raise ValueError(f"{words}: what is behind the expression?")
    return found


def checked_expression(expression, types=b""):
    """The checked expression, with these entries of its map of types."""
    return types + text(4, expression)


# An expression around another, by the place of this one. The loops are of constants but for one part.
def loop_with(place, inner):
    parts = [text(number, inner if number == place else TRUE) for number in (2, 4, 5, 6, 7)]
    return text(LOOP, text(1, b"x") + text(3, b"a") + b"".join(parts))


AROUND = {
    "not": lambda inner: call(b"!_", [inner]),
    "operand": lambda inner: text(SELECT, text(1, inner)),
    "target": lambda inner: text(CALL, text(1, inner)),
    "argument": lambda inner: text(CALL, text(3, inner)),
    "element": lambda inner: sequence([inner]),
    "key": lambda inner: mapping([(inner, TRUE)]),
    "value": lambda inner: mapping([(TRUE, inner)]),
    "range": lambda inner: loop_with(2, inner),
    "beginning": lambda inner: loop_with(4, inner),
    "condition": lambda inner: loop_with(5, inner),
    "step": lambda inner: loop_with(6, inner),
    "result": lambda inner: loop_with(7, inner),
}


def nested(wrap, count, inner):
    for _ in range(count):
        inner = wrap(inner)
    return inner


def fold(element, over, gathered, init, step, result):
    """A comprehension whose condition is true."""
    parts = ((1, element), (2, over), (3, gathered), (4, init), (5, TRUE), (6, step), (7, result))
    return text(LOOP, b"".join(text(number, part) for number, part in parts))


def grown_twice(inner, result):
    """`fold(x, [1, 1], t, "", true, t + inner, result)`: a comprehension that no macro gives."""
    step = call(b"_+_", [ident(b"t"), inner])
    return fold(b"x", sequence([integer(1)] * 2), b"t", string(b""), step, result)


def grown_endlessly(result):
    """A text that grows by a letter in each of 2^40 turns: a list is doubled forty times, and then walked."""
    items, one = ident(b"l"), sequence([integer(1)])
    doubled = fold(b"x", sequence([integer(1)] * 40), b"l", one, call(b"_+_", [items, items]), items)
    return fold(b"y", doubled, b"t", string(b""), call(b"_+_", [ident(b"t"), string(b"a")]), result)


# an expression of each type, in the notation above
OF_TYPE = {
    "int": "0",
    "uint": "0u",
    "string": '""',
    "bytes": 'b""',
    "list(bool)": "(list true)",
    "list(int)": "(list 0)",
    "list(string)": '(list "")',
    "list(list(int))": "(list (list 0))",
    "map(string, string)": '(map "" "")',
    "map(int, string)": '(map 0 "")',
    "map(bool, list(int))": "(map true (list 0))",
    "map(uint, uint)": "(map 0u 0u)",
}
# an id that no row has
OTHER_ID = flag(2, 777_777)


def read_varint(message, at):
    number = shift = 0
    while True:
        number |= (message[at] & 127) << shift
        shift, at = shift + 7, at + 1
        if message[at - 1] < 128:
            return number, at


def fields_of(message):
    """The fields of a message of byte fields alone, each its number and its payload."""
    at = 0
    while at < len(message):
        key, at = read_varint(message, at)
        length, at = read_varint(message, at)
        yield key >> 3, message[at:at + length]
        at += length


def equal_to(message, type_name):
    """The checked expression whose root is compared with an expression of a type, by `==`, which takes two of one type alone."""
    other, made = OTHER_ID + expression_of(OF_TYPE[type_name]), b""
    for number, content in fields_of(message):
        made += text(4, OTHER_ID + call(b"_==_", [content, other])) if number == 4 else text(number, content)
    return made
