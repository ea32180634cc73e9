"""Spellings of checked expressions, after CEL's definitions of its messages (google.api.expr.v1alpha1)."""
import itertools

from messages import flag, text

IDS = itertools.count(1)


def expr(member, payload):
    """A node of a kind, with an id of its own."""
    return flag(2, next(IDS)) + text(member, payload)


def boolean(value=True):
    return expr(3, flag(2, int(value)))


def integer(value):
    return expr(3, flag(3, value))


def string(value):
    return expr(3, text(6, value))


def ident(name):
    return expr(4, text(1, name))


def select(operand, field, test_only=False):
    return expr(5, text(1, operand) + text(2, field) + (flag(3, 1) if test_only else b""))


def call(function, *operands):
    return expr(6, text(2, function) + b"".join(text(3, operand) for operand in operands))


def items(*elements):
    return expr(7, b"".join(text(1, element) for element in elements))


def pairs(*entries):
    """A map of keys and values."""
    return expr(8, b"".join(text(2, text(3, key) + text(4, value)) for key, value in entries))


def loop(element, over, gathered, init, condition, step, result, second=b""):
    names = text(1, element) + (text(8, second) if second else b"") + text(3, gathered)
    return expr(9, names + text(2, over) + text(4, init) + text(5, condition) + text(6, step) + text(7, result))


def gather(over, init, step, result, gathered=b"acc", element=b"x"):
    """A loop over all of a list or map."""
    return loop(element, over, gathered, init, boolean(), step, result)


def gather_table(over, init, step, result, gathered, key, value):
    """A loop over all keys and values of a map."""
    return loop(key, over, gathered, init, boolean(), step, result, value)


def both(*sides):
    """A chain of `&&` as parsers make it: a tree of little depth."""
    return joined(b"_&&_", sides)


def joined(function, sides):
    if len(sides) == 1:
        return sides[0]
    half = (len(sides) + 1) // 2
    return call(function, joined(function, sides[:half]), joined(function, sides[half:]))


def choice(condition, first, second):
    return call(b"_?_:_", condition, first, second)


def plus(left, right):
    return call(b"_+_", left, right)


# Types.
INT = flag(3, 2)
TEXT = flag(3, 5)
BOOL = flag(3, 1)


def list_of(elements):
    return text(6, text(1, elements))


def type_entry(number, of_type):
    """The type of the node with an id."""
    return text(3, flag(1, number) + text(2, of_type))


def reference_entry(number, name=b"", overloads=()):
    """The reference of the node with an id."""
    reference = (text(1, name) if name else b"") + b"".join(text(3, overload) for overload in overloads)
    return text(2, flag(1, number) + text(2, reference))


def checked(tree, *entries):
    return b"".join(entries) + text(4, tree)
