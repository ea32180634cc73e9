"""Texts that are compared with each other, sought among a few that are likely: what two texts have in common is most often a
part of one of them.

What is found is right; that nothing is found means nothing.
"""
from typing import Callable, Dict, Iterator, List, NamedTuple, Tuple

import z3

from .domains import domain, is_character, part_of
from .products import Asked
from .sought import Sought
from .terms import Decimal, Joined, Literal, Term, Variable

# So many texts of each variable are tried, and so many steps of the search are made.
MOST_TEXTS, MOST_STEPS = 40, 20_000
# So many rounds of new texts are made of those that are known.
ROUNDS = 2


class Relation(NamedTuple):
    """Two texts that are compared."""

    kind: str
    one: Term
    other: Term

    def parts(self) -> Iterator[Term]:
        """The terms that are not made of others."""
        for term in (self.one, self.other):
            yield from term.parts if isinstance(term, Joined) else (term,)

    def variables(self) -> Iterator[str]:
        """The names of the variables in it."""
        return (part.name for part in self.parts() if isinstance(part, Variable))

    def numbers(self) -> Iterator[z3.ArithRef]:
        """The numbers in it that are written."""
        return (part.number for part in self.parts() if isinstance(part, Decimal))


class Wanted(NamedTuple):
    """What texts have to be: how each variable answers its tests, the lengths of its parts, and how texts are compared."""

    tests: Dict[str, List[Asked]]
    lengths: Dict[Tuple[str, str], int]
    relations: List[Tuple[Relation, bool]]


class Likely:
    """The search for texts."""

    def __init__(self, wanted: Wanted, first: Callable[[str], List[str]], number: Callable[[z3.ArithRef], int]):
        self.wanted, self.number = wanted, number
        self.names = list(dict.fromkeys(name for relation, _ in wanted.relations for name in relation.variables()))
        self.names += [name for name, _ in wanted.lengths if name not in self.names]
        self.known = {name: list(filter(lambda text: self._is_possible(name, text), first(name))) for name in self.names}
        self.steps = 0

    def texts(self) -> Dict[str, str]:
        """A text for each variable, or nothing."""
        literals = [self._text(part, {}) for relation, _ in self.wanted.relations for part in relation.parts() if not isinstance(part, Variable)]
        for _ in range(ROUNDS + 1):
            found = self._found({}, self.names)
            if found or self.steps > MOST_STEPS:
                return found
            self._widen(literals)
        return {}

    def _is_possible(self, name: str, text: str) -> bool:
        """Whether a variable may have a text, by its own tests and lengths."""
        if not (domain(name).has(text) and all(is_character(name, one) for one in text)):
            return False
        asked = self.wanted.tests.get(name, [])
        lengths = [(part, length) for (known, part), length in self.wanted.lengths.items() if known == name]
        is_right = all(one.test.passes(part_of(text, one.part)) == one.wanted for one in asked)
        return is_right and all(len(part_of(text, part)) == length for part, length in lengths)

    def _widen(self, literals: List[str]) -> None:
        """Adds texts that are made of those of other variables and of literals."""
        made = list(dict.fromkeys(text for one in [*literals, *(text for texts in self.known.values() for text in texts)] for text in _around(one)))
        joined = [one + other for one in made[:12] for other in made[:12]]
        for name, texts in self.known.items():
            more = (text for text in [*made, *joined] if text not in texts and self._is_possible(name, text))
            texts += [text for _, text in zip(range(MOST_TEXTS - len(texts)), dict.fromkeys(more))]

    def _found(self, chosen: Dict[str, str], left: List[str]) -> Dict[str, str]:
        """The chosen texts with those of the other variables, or nothing."""
        if not left:
            return chosen
        for text in self.known[left[0]]:
            self.steps += 1
            if self.steps > MOST_STEPS:
                return {}
            more = {**chosen, left[0]: text}
            if all(self._holds(relation, more) in (wanted, None) for relation, wanted in self.wanted.relations):
                found = self._found(more, left[1:])
                if found:
                    return found
        return {}

    def _holds(self, relation: Relation, chosen: Dict[str, str]):
        """Whether texts that are chosen are compared so; None if some are not chosen yet."""
        if any(name not in chosen for name in relation.variables()):
            return None
        return Sought(relation.kind, self._text(relation.other, chosen)).passes(self._text(relation.one, chosen))

    def _text(self, term: Term, chosen: Dict[str, str]) -> str:
        if isinstance(term, Literal):
            return term.text
        if isinstance(term, Joined):
            return "".join(self._text(part, chosen) for part in term.parts)
        if isinstance(term, Decimal):
            return str(self.number(term.number))
        return part_of(chosen[term.name], term.part)


def _around(text: str) -> Iterator[str]:
    """A text, its beginnings and ends, and texts that begin or end with it, also as the query of a target."""
    yield text
    cuts = range(1, len(text)) if len(text) < 12 else (1, 2, len(text) // 2, len(text) - 1)
    for at in cuts:
        yield text[:at]
        yield text[at:]
    yield from ("", "x" + text, text + "x", "/" + text, text + "/", "/x" + text, "/?" + text)
