"""Trees to texts of CEL.

A text reads back as the same tree where `is_text_of` says so; forms that no text has are printed in angle brackets.
"""
import re
from typing import Optional

from .fold import fold
from .literals import literal_text
from .mistake import TextMistake
from .parse import RESERVED, balance, parse
from .tree import (
    BINARY,
    Call,
    Comprehension,
    Const,
    Entry,
    Ident,
    ListLiteral,
    Node,
    Select,
    StructLiteral,
    is_call,
    is_conditional,
    shape,
)

CONDITIONAL, OR, AND, RELATION, SUM, PRODUCT, UNARY, MEMBER = range(8)
SIGNS = {function: sign for sign, function in BINARY.items()}
LEVELS = {
    **dict.fromkeys(["_<_", "_<=_", "_>=_", "_>_", "_==_", "_!=_", "@in"], RELATION),
    **dict.fromkeys(["_+_", "_-_"], SUM),
    **dict.fromkeys(["_*_", "_/_", "_%_"], PRODUCT),
}
NAME = re.compile(r"[_a-zA-Z][_a-zA-Z0-9]*\Z")
KEYWORDS = frozenset(["true", "false", "null", "in"])


def text_of(tree: Node, dotted: bool = False) -> Optional[str]:
    """The text that `parse` reads as this tree, or None where there is none."""
    text = describe(tree)
    try:
        return text if shape(parse(text, dotted)) == shape(tree) else None
    except TextMistake:
        return None


def describe(tree: Node) -> str:
    """The tree as text for people; what has no text in the language is in angle brackets."""
    return _print(tree, CONDITIONAL)


def _print(node: Node, level: int) -> str:
    """The text of a node where a form of that level or a tighter one is allowed."""
    text, own = _form(node)
    return f"({text})" if own < level else text


def _form(node: Node):
    """The text of a node and its level."""
    if isinstance(node, Const):
        text = literal_text(node.kind, node.value)
        return (f"<{node.value}>" if text is None else text), MEMBER
    if isinstance(node, Ident):
        return _variable(node.name), MEMBER
    if isinstance(node, Select):
        text = f"{_operand(node.operand)}.{_field(node.field)}"
        return (f"has({text})" if node.test_only else text), MEMBER
    if isinstance(node, Call):
        return _call_form(node)
    if isinstance(node, ListLiteral):
        return "[" + _list(node.elements) + "]", MEMBER
    if isinstance(node, StructLiteral):
        return node.message_name + "{" + ", ".join(map(_entry, node.entries)) + "}", MEMBER
    return _loop(node), MEMBER


def _call_form(call: Call):
    if is_conditional(call):
        test, yes, no = call.args
        return f"{_print(test, OR)} ? {_print(yes, OR)} : {_print(no, CONDITIONAL)}", CONDITIONAL
    if is_call(call, "_||_", 2):
        return _chain(call, "||", OR), OR
    if is_call(call, "_&&_", 2):
        return _chain(call, "&&", AND), AND
    if call.function in LEVELS and is_call(call, call.function, 2):
        own = LEVELS[call.function]
        left, right = call.args
        return f"{_print(left, own)} {SIGNS[call.function]} {_print(right, own + 1)}", own
    if is_call(call, "!_", 1):
        return "!" + _signed(call.args[0]), UNARY
    if is_call(call, "-_", 1):
        return "-" + _signed(call.args[0]), UNARY
    if is_call(call, "_[_]", 2):
        return f"{_operand(call.args[0])}[{_print(call.args[1], CONDITIONAL)}]", MEMBER
    target = "" if call.target is None else _operand(call.target) + "."
    return f"{target}{_function(call)}({_list(call.args)})", MEMBER


def _chain(call: Call, sign: str, level: int) -> str:
    """A chain of `&&` or `||`: without parentheses where it is balanced as `parse` balances it."""
    terms = _terms(call, call.function)
    flat = balance(call.function, terms, [-1] * (len(terms) - 1))
    if shape(flat) != shape(call):
        terms = call.args
    return f" {sign} ".join(_print(term, level + 1) for term in terms)


def _terms(node: Node, function: str) -> list:
    """The operands of all nested calls of one operator, from left to right."""
    if not is_call(node, function, 2):
        return [node]
    return _terms(node.args[0], function) + _terms(node.args[1], function)


def _signed(operand: Node) -> str:
    """An operand after `!` or `-`; a number is in parentheses, since a sign would become its own."""
    text = _print(operand, MEMBER)
    return f"({text})" if re.match(r"-|[.0-9]", text) else text


def _operand(operand: Node) -> str:
    """An operand before `.` or `[`; a number is in parentheses."""
    text = _print(operand, MEMBER)
    return f"({text})" if isinstance(operand, Const) and re.match(r"-|[.0-9]", text) else text


def _variable(name: str) -> str:
    plain = name[1:] if name.startswith(".") else name
    if all(NAME.match(part) for part in plain.split(".")) and plain not in RESERVED | KEYWORDS:
        return name
    return f"<variable {name}>"


def _field(name: str) -> str:
    return name if NAME.match(name) and name not in KEYWORDS else f"<field {name}>"


def _function(call: Call) -> str:
    return call.function if NAME.match(call.function.lstrip(".")) else f"<{call.function}>"


def _list(nodes: list) -> str:
    return ", ".join(_print(node, CONDITIONAL) for node in nodes)


def _entry(entry: Entry) -> str:
    key = entry.key if isinstance(entry.key, str) else _print(entry.key, CONDITIONAL)
    return f"{key}: {_print(entry.value, CONDITIONAL)}"


def _loop(loop: Comprehension) -> str:
    folded = fold(loop)
    if folded is not None:
        return f"{_operand(loop.iter_range)}.{folded.name}({', '.join(loop.variables())}, {_list(folded.arguments)})"
    parts = (loop.accu_init, loop.loop_condition, loop.loop_step, loop.result)
    init, condition, step, result = (_print(part, CONDITIONAL) for part in parts)
    return (
        f"<for {', '.join(loop.variables())} in {_print(loop.iter_range, CONDITIONAL)}, from {loop.accu_var} = {init}, "
        f"while {condition}: {loop.accu_var} = {step}; then {result}>"
    )
