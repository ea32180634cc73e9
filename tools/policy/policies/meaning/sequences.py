"""Texts as z3's sequences: also two texts compared in any way, and texts made of others."""
from typing import Dict, List, Optional, Set

import z3

from ..compare.texts import CONTAINS, EXACT, PREFIX, SUFFIX
from .decimals import size
from .domains import PATH, QUERY, TARGET_TEXT, WHOLE, domain, is_character
from .formulas import chosen, either, no
from .sought import LESS, RANGE, Sought
from .strings import characters, concatenation, folded, numbers, string, text_of
from .terms import Chosen, Decimal, Joined, Literal, Term, Variable

Formulas = List[z3.BoolRef]
# The rest of a target after its path, and what is after its query.
REST, TAIL = "rest", "tail"


class Sequences:
    """Texts as sequences. Which characters a text may have is said only after a model broke it."""

    name = "z3"
    gap = ""

    def __init__(self):
        self.parts: Dict[str, Set[str]] = {}
        self.strict: Set[str] = set()

    # --- what formulas are made of -------------------------------------------------------------------------------

    def term(self, term: Term) -> z3.SeqRef:
        """The sequence of a term."""
        if isinstance(term, Literal):
            return string(term.text)
        if isinstance(term, Joined):
            return z3.Concat(*map(self.term, term.parts))
        if isinstance(term, Chosen):
            return z3.If(term.test, self.term(term.one), self.term(term.other))
        if isinstance(term, Decimal):
            digits = z3.IntToStr(size(term.number))
            return z3.If(term.number < 0, z3.Concat(string("-"), digits), digits)
        self.parts.setdefault(term.name, set()).add(term.part)
        return _variable(term.name, term.part)

    def test(self, variable: Variable, sought: Sought) -> z3.BoolRef:
        """That a text passes a test."""
        text = self.term(variable)
        if sought.kind == RANGE:
            return z3.InRe(text, numbers(sought))
        if not sought.fold or not sought.sought:
            return _compared(sought.kind, text, string(sought.sought))
        anything = [z3.Star(characters(lambda one: True))]
        before = anything if sought.kind in (SUFFIX, CONTAINS) else []
        after = anything if sought.kind in (PREFIX, CONTAINS) else []
        return z3.InRe(text, concatenation([*before, *folded(sought.sought), *after]))

    def compare(self, kind: str, one: Term, other: Term) -> z3.BoolRef:
        """That two texts are compared so."""
        return _compared(kind, self.term(one), self.term(other))

    def length(self, variable: Variable) -> z3.ArithRef:
        """How many characters a text has."""
        return z3.Length(self.term(variable))

    def domain(self) -> Formulas:
        """What holds of all texts, and the characters of those for which a model broke it."""
        return [formula for name, parts in self.parts.items() for formula in self._of_text(name, parts)]

    def _of_text(self, name: str, parts: Set[str]) -> Formulas:
        held = domain(name)
        is_path_alone = parts == {PATH}
        text = _variable(name, PATH if is_path_alone else WHOLE)
        found = [z3.Length(text) <= held.longest]
        if held.first:
            found.append(z3.PrefixOf(string(held.first), text))
        if not held.may_be_empty:
            found.append(z3.Length(text) > 0)
        if name in self.strict:
            found.append(z3.InRe(text, _legal(name, "?#" if is_path_alone else "")))
        return found if is_path_alone or parts == {WHOLE} else [*found, *_split(name)]

    # --- models --------------------------------------------------------------------------------------------------

    def values(self, model: z3.ModelRef) -> Dict[str, str]:
        """The text of each variable."""
        found = {}
        for name, parts in self.parts.items():
            text = _variable(name, PATH if parts == {PATH} else WHOLE)
            found[name] = text_of(model.eval(text, model_completion=True))
        return found

    def refine(self, model: z3.ModelRef, formulas: Formulas) -> Optional[Formulas]:
        """Formulas to add because a model has texts that no request has; None if they are possible."""
        values = self.values(model)
        bad = {name for name, text in values.items() if not domain(name).has(text) or not all(is_character(name, one) for one in text)}
        bad |= {name for name, text in values.items() if self.parts[name] == {PATH} and set(text) & set("?#")}
        bad -= self.strict
        self.strict |= bad
        return self.domain() if bad else None


def _variable(name: str, part: str) -> z3.SeqRef:
    assert part == WHOLE or name == TARGET_TEXT
    return z3.String(name if part == WHOLE else f"{name}.{part}")


def _compared(kind: str, one: z3.SeqRef, other: z3.SeqRef) -> z3.BoolRef:
    if kind == EXACT:
        return one == other
    if kind == PREFIX:
        return z3.PrefixOf(other, one)
    if kind == SUFFIX:
        return z3.SuffixOf(other, one)
    if kind == CONTAINS:
        return z3.Contains(one, other)
    return one < other if kind == LESS else other < one


def _legal(name: str, without: str) -> z3.ReRef:
    """The texts of the characters that a variable may have."""
    legal = characters(lambda one: is_character(name, one) and one not in without)
    if not domain(name).is_trimmed:
        return z3.Star(legal)
    inner = characters(lambda one: is_character(name, one) and one not in " \t")
    return z3.Option(z3.Union(inner, z3.Concat(inner, z3.Star(legal), inner)))


def _split(name: str) -> Formulas:
    """How the whole of a target is made of its path and its query."""
    whole, path, query, rest, tail = (_variable(name, part) for part in (WHOLE, PATH, QUERY, REST, TAIL))
    mark, hash_, nothing = string("?"), string("#"), string("")
    has_query = z3.PrefixOf(mark, rest)
    return [
        whole == z3.Concat(path, rest),
        no(z3.Contains(path, mark)),
        no(z3.Contains(path, hash_)),
        chosen(has_query, rest == z3.Concat(mark, query, tail), query == nothing),
        either(rest == nothing, has_query, z3.PrefixOf(hash_, rest)),
        no(z3.Contains(query, hash_)),
        either(tail == nothing, z3.PrefixOf(hash_, tail)),
    ]
