"""Texts of CEL to trees: the grammar, then the forms that it leaves open, macros and chains of `&&` and `||`."""
import os
import pathlib
import re
import sys
from functools import lru_cache
from typing import List, Optional

import lark

from . import literals, nearest
from .attributes import join_attributes
from .expand import expand_call, expand_method
from .limits import LONGEST_TEXT, MOST_NODES, MOST_WORDS, TOO_LARGE, TOO_MANY_NODES
from .mistake import TextMistake
from .tree import BINARY, Call, Const, Entry, Ident, ListLiteral, Node, Select, StructLiteral, number

RESERVED = frozenset(
    "as break const continue else for function if import let loop package namespace return var void while".split()
)
DEEPEST = 250
WORDS_FOR_SIGNS = {"and": "&&", "or": "||", "not": "!", "is": "==", "eq": "==", "ne": "!=", "xor": "!="}
WORDS_BEFORE = {"not": "!", "if": "test ? one : other"}
WORD_BEFORE = re.compile(r"\b([a-z]+)\s*\Z")
QUOTES = frozenset("\"'")
# Quotes of texts for people.
CURLY = {**dict.fromkeys("\u201c\u201d\u201e\u00ab\u00bb", '"'), **dict.fromkeys("\u2018\u2019\u201a", "'")}
EMPTY = "a condition is expected here, such as `request.method == \"GET\"`; without a condition leave the field out"
NEGATIVE = "NEGATIVE_"
# By it some readers end a comment and others do not.
LONE_RETURN = re.compile(r"\r(?!\n)")
# Each of these makes a node at least; a name does too, except `has`.
NODE_WORDS = frozenset(
    "INT UINT FLOAT STRING BYTES TRUE FALSE NULL QUESTION OR AND LESS LESS_EQUAL GREATER GREATER_EQUAL EQUAL NOT_EQUAL "
    "IN PLUS STAR SLASH PERCENT".split()
)


@lru_cache(maxsize=None)
def _grammar() -> lark.Lark:
    text = (pathlib.Path(__file__).parent / "grammar.lark").read_text(encoding="utf-8")
    folder = sys.pycache_prefix
    cache = os.path.join(folder, "grammar") if folder and os.access(folder, os.W_OK) else False
    return lark.Lark(text, parser="lalr", lexer="basic", maybe_placeholders=False, cache=cache)


def parse(text: str, dotted: bool = False) -> Node:
    """The tree of a text, its ids in the order of the text; with `dotted`, attributes are variables of dotted names.

    Raises TextMistake where the text is none of the language.
    """
    tree = _Builder().build(_syntax(text), 1)
    if dotted:
        tree = join_attributes(tree)
    return number(tree)


def _syntax(text: str) -> lark.Tree:
    lone = LONE_RETURN.search(text)
    if lone is not None:
        words = "there is a lone carriage return here: end the line with a line feed, or write `\\r` in a text"
        raise TextMistake(lone.start(), words)
    if not text.strip():
        raise TextMistake(0, EMPTY)
    if len(text) > MOST_NODES:
        _bound(text)
    try:
        return _grammar().parse(text).children[0]
    except lark.exceptions.UnexpectedCharacters as fault:
        raise _character_fault(text, fault.pos_in_stream) from None
    except lark.exceptions.UnexpectedToken as fault:
        if fault.token.type == "$END":
            raise TextMistake(len(text.rstrip()), "the text ends here, and more is expected") from None
        raise _token_fault(text, fault.token) from None


def _bound(text: str) -> None:
    """Refuses a text of more nodes than the engine takes before a tree is made of it, as far as its words tell."""
    nodes = 0
    try:
        for count, token in enumerate(_grammar().lex(text[:LONGEST_TEXT]), 1):
            nodes += token.type in NODE_WORDS or token.type == "NAME" and token != "has"
            if nodes > MOST_NODES:
                raise TextMistake(token.start_pos, TOO_MANY_NODES, TOO_LARGE)
            if count > MOST_WORDS:
                told = f"a condition's text has at most {MOST_WORDS} words and signs"
                raise TextMistake(token.start_pos, told, TOO_LARGE)
    except lark.exceptions.UnexpectedCharacters:
        pass
    if len(text) > LONGEST_TEXT:
        raise TextMistake(LONGEST_TEXT, f"a condition's text has at most {LONGEST_TEXT} characters", TOO_LARGE)


def _character_fault(text: str, place: int) -> TextMistake:
    """The mistake where no word of the language begins."""
    character = text[place]
    if character in QUOTES:
        start = place - 2 if _starts_triple(text, place) else place
        return TextMistake(start, "these quotes are not closed")
    doubled = {"=": "==", "&": "&&", "|": "||"}
    if character in doubled:
        return TextMistake(place, f"`{character}` is no operator: write `{doubled[character]}`")
    if character in CURLY:
        return TextMistake(place, f"`{character}` is no quote of the language: write {CURLY[character]}")
    if character == "`":
        return TextMistake(place, "a back quote has no meaning here; a text is in \" or '")
    return TextMistake(place, f"`{character}` has no meaning here")


def _token_fault(text: str, token: lark.Token) -> TextMistake:
    """The mistake of a word that cannot be at its place."""
    if token == ">" and text[: token.start_pos].endswith("<"):
        return TextMistake(token.start_pos - 1, "`<>` is no operator: write `!=`")
    if token[0] in QUOTES and _starts_triple(text, token.start_pos):
        return TextMistake(token.start_pos - 2, "these quotes are not closed")
    sign = WORDS_FOR_SIGNS.get(str(token).lower())
    if sign is not None:
        return TextMistake(token.start_pos, f"`{token}` is no operator: write `{sign}`")
    if token == "?" and text[:token.start_pos].rstrip()[-1:] in (".", "["):
        return TextMistake(token.start_pos, nearest.NO_OPTIONALS)
    before = WORD_BEFORE.search(text, 0, token.start_pos)
    if before is not None and before[1] in WORDS_BEFORE:
        return TextMistake(before.start(1), f"`{before[1]}` is no operator: write `{WORDS_BEFORE[before[1]]}`")
    return TextMistake(token.start_pos, f"`{_short(token)}` is not expected here")


def _starts_triple(text: str, place: int) -> bool:
    """Whether a quote is the third of three."""
    return place >= 2 and text[place - 2 : place] == 2 * text[place]


def _short(token: str) -> str:
    line = token.split("\n")[0]
    return line if len(line) <= 40 and line == token else line[:37] + "..."


class _Builder:
    """Trees of the grammar to trees of the language: each form of the grammar has the method of its name."""

    def build(self, syntax: lark.Tree, depth: int) -> Node:
        """The tree of one form, `depth` levels down."""
        if depth > DEEPEST:
            raise TextMistake(_place(syntax), f"this is nested more than {DEEPEST} levels deep")
        return getattr(self, "_" + syntax.data)(syntax.children, depth + 1)

    def _all(self, forms: list, depth: int) -> List[Node]:
        return [self.build(form, depth) for form in forms if isinstance(form, lark.Tree)]

    def _literal(self, parts: list, depth: int) -> Node:
        return _constant(parts[0])

    def _nested(self, parts: list, depth: int) -> Node:
        return self.build(parts[1], depth)

    def _ident(self, parts: list, depth: int) -> Node:
        return Ident(_name(parts), place=parts[0].start_pos)

    def _call(self, parts: list, depth: int) -> Node:
        opening = next(index for index, part in enumerate(parts) if part.type == "LEFT_PAREN")
        name = _name(parts[:opening])
        place = parts[0].start_pos
        args = self._all(parts[opening:], depth)
        return expand_call(name, args) or Call(name, args, place=place)

    def _method(self, parts: list, depth: int) -> Node:
        target = self.build(parts[0], depth)
        name, place = str(parts[2]), parts[2].start_pos
        args = self._all(parts[3:], depth)
        return expand_method(target, name, args, place) or Call(name, args, target, place=place)

    def _select(self, parts: list, depth: int) -> Node:
        return Select(self.build(parts[0], depth), str(parts[2]), place=parts[2].start_pos)

    def _index(self, parts: list, depth: int) -> Node:
        operands = [self.build(parts[0], depth), self.build(parts[2], depth)]
        return Call("_[_]", operands, place=parts[1].start_pos)

    def _list(self, parts: list, depth: int) -> Node:
        return ListLiteral(self._all(parts, depth), place=parts[0].start_pos)

    def _map(self, parts: list, depth: int) -> Node:
        entries = []
        for form in parts:
            if isinstance(form, lark.Tree):
                key, colon, value = form.children
                entries.append(Entry(self.build(key, depth), self.build(value, depth), place=colon.start_pos))
        return StructLiteral(entries, place=parts[0].start_pos)

    def _message(self, parts: list, depth: int) -> Node:
        name = _dotted_name(parts[0])
        if name is None:
            raise TextMistake(parts[1].start_pos, "`{` is not expected here")
        entries = []
        for form in parts[1:]:
            if isinstance(form, lark.Tree):
                field, colon, value = form.children
                entries.append(Entry(str(field), self.build(value, depth), place=colon.start_pos))
        return StructLiteral(entries, name, place=parts[1].start_pos)

    def _binary(self, parts: list, depth: int) -> Node:
        operands = [self.build(parts[0], depth), self.build(parts[2], depth)]
        return Call(BINARY[parts[1]], operands, place=parts[1].start_pos)

    def _conditional(self, parts: list, depth: int) -> Node:
        operands = [self.build(parts[index], depth) for index in (0, 2, 4)]
        return Call("_?_:_", operands, place=parts[1].start_pos)

    def _disjunction(self, parts: list, depth: int) -> Node:
        return balance("_||_", self._all(parts, depth), [part.start_pos for part in parts[1::2]])

    def _conjunction(self, parts: list, depth: int) -> Node:
        return balance("_&&_", self._all(parts, depth), [part.start_pos for part in parts[1::2]])

    def _not(self, parts: list, depth: int) -> Node:
        operand = self.build(parts[-1], depth)
        return _odd("!_", parts[:-1], operand)

    def _not_signed(self, parts: list, depth: int) -> Node:
        sign, form = parts[-2], parts[-1]
        if _leftmost_number(form) is None:
            raise TextMistake(sign.start_pos, "`-` cannot follow `!`")
        return _odd("!_", parts[:-2], self._signed(form, depth))

    def _negate(self, parts: list, depth: int) -> Node:
        form = parts[-1]
        if len(parts) == 2 and _leftmost_number(form) is not None:
            return self._signed(form, depth)
        return _odd("-_", parts[:-1], self.build(form, depth))

    def _signed(self, form: lark.Tree, depth: int) -> Node:
        """A form whose leftmost part is a number with a `-` before it: the sign is the number's own."""
        leaf = _leftmost_number(form)
        token = leaf.children[0]
        leaf.children[0] = token.update(type=NEGATIVE + token.type)
        return self.build(form, depth)


def balance(function: str, terms: list, places: list) -> Node:
    """A chain of one operator as a balanced tree, whose root is the chain's middle operator."""
    if not places:
        return terms[0]
    middle = len(places) // 2
    left = balance(function, terms[: middle + 1], places[:middle])
    right = balance(function, terms[middle + 1 :], places[middle + 1 :])
    return Call(function, [left, right], place=places[middle])


def _odd(function: str, signs: list, operand: Node) -> Node:
    """An even number of signs means none, an odd number means one."""
    return operand if len(signs) % 2 == 0 else Call(function, [operand], place=signs[0].start_pos)


def _name(parts: list) -> str:
    """The name of a variable or a function, with the dot that may lead it."""
    name = parts[-1]
    if name in RESERVED:
        raise TextMistake(name.start_pos, f"`{name}` is a reserved word")
    return ("." if len(parts) == 2 else "") + str(name)


def _dotted_name(form: lark.Tree) -> Optional[str]:
    """The name that a plain chain of names spells, or None."""
    names = []
    while form.data == "select":
        names.append(str(form.children[2]))
        form = form.children[0]
    if form.data != "ident":
        return None
    return ".".join(["".join(form.children), *reversed(names)])


def _leftmost_number(form: lark.Tree) -> Optional[lark.Tree]:
    """The int or double literal with which a chain of members begins, or None."""
    while form.data in ("select", "method", "index"):
        form = form.children[0]
    return form if form.data == "literal" and form.children[0].type in ("INT", "FLOAT") else None


def _constant(token: lark.Token) -> Const:
    """The constant of a literal's token, whose type says whether a `-` belongs to it."""
    place = token.start_pos
    negative = token.type.startswith(NEGATIVE)
    kind = token.type[len(NEGATIVE) :] if negative else token.type
    if kind == "INT":
        return Const("int64", literals.int_value(token, place, negative), place=place)
    if kind == "FLOAT":
        return Const("double", literals.double_value(token, place, negative), place=place)
    if kind == "UINT":
        return Const("uint64", literals.uint_value(token, place), place=place)
    if kind == "STRING":
        return Const("string", literals.string_value(token, place), place=place)
    if kind == "BYTES":
        return Const("bytes", literals.bytes_value(token, place), place=place)
    if kind == "NULL":
        return Const("null", None, place=place)
    return Const("bool", kind == "TRUE", place=place)


def _place(form: lark.Tree) -> int:
    while isinstance(form, lark.Tree):
        form = form.children[0]
    return form.start_pos
