"""Texts by automata: exact for tests of one text beside literals, for its length, and for two texts that are equal.

Each test is a formula's variable. A model of the formulas says which tests hold; here texts are sought that answer so. If
there is none, the model is refused by a formula that every request meets, and the next one is tried. Texts that are compared
in other ways are sought among likely ones. A model for which none is found is left out, which is named as a gap.
"""
from typing import Dict, List, NamedTuple, Optional, Tuple

import z3

from ..compare.texts import EXACT
from .domains import PATH, QUERY, WHOLE, domain, longest, part_of
from .formulas import both, either, follows, no
from .needed import TEST, Needed
from .products import Asked, Product
from .relations import Likely, Relation, Wanted
from .readers import Steps
from .sought import Sought
from .terms import NotModelled, Term, Variable

Formulas = List[z3.BoolRef]
Pair = Tuple[str, str]
# The lengths of parts of texts, and how texts are compared.
Measured = Dict[Tuple[str, str], int]
Relations = Dict[Relation, bool]
TWO_PARTS = "lengths of two parts of one text"
SAME_LENGTH = "different texts of the same length"
TWO_DOMAINS = "equal texts of two kinds"
TWO_TEXTS = "two texts compared in another way than by =="
# So many models are left out, and so many texts of each variable are tried first.
MOST_LEFT_OUT, FIRST_TEXTS = 40, 6


class Group(NamedTuple):
    """Texts that are equal, and the tests of all of them."""

    variables: List[str]
    asked: List[Asked]


class Automata:
    """Texts by products of automata."""

    name = "automata"

    def __init__(self):
        self.tests: Dict[Tuple[str, str, Sought], z3.BoolRef] = {}
        self.pairs: Dict[Pair, z3.BoolRef] = {}
        self.relations: Dict[Relation, z3.BoolRef] = {}
        # How many models were left out that may be right, and why.
        self.left_out = 0
        self.gap = ""
        self.lengths: Dict[Tuple[str, str], z3.ArithRef] = {}
        self.readers: Dict[Sought, Steps] = {}
        self.products: Dict[tuple, Product] = {}
        self.texts: Dict[str, str] = {}

    # --- what formulas are made of -------------------------------------------------------------------------------

    def test(self, variable: Variable, sought: Sought) -> z3.BoolRef:
        """That a text passes a test."""
        if sought.fold and sought.sought == sought.sought.swapcase():
            sought = sought._replace(fold=False)
        key = (variable.name, variable.part, sought)
        if key not in self.tests:
            self.readers.setdefault(sought, Steps(sought))
            self.tests[key] = z3.Bool(f"{TEST}{len(self.tests)}")
        return self.tests[key]

    def compare(self, kind: str, one: Term, other: Term) -> z3.BoolRef:
        """That two texts are compared so."""
        if kind == EXACT and all(isinstance(term, Variable) and term.part == WHOLE for term in (one, other)):
            first, second = sorted((one.name, other.name))
            return self.pairs.setdefault((first, second), z3.Bool(f"{TEST}={len(self.pairs)}"))
        return self.relations.setdefault(Relation(kind, one, other), z3.Bool(f"{TEST}{kind}{len(self.relations)}"))

    def length(self, variable: Variable) -> z3.ArithRef:
        """How many characters a text has."""
        key = (variable.name, variable.part)
        return self.lengths.setdefault(key, z3.Int("length " + ".".join(key)))

    def domain(self) -> Formulas:
        """What holds of all texts."""
        return [both(one >= 0, one <= longest(*key)) for key, one in self.lengths.items()]

    # --- models --------------------------------------------------------------------------------------------------

    def refine(self, model: z3.ModelRef, formulas: Formulas) -> Optional[Formulas]:
        """Formulas that a model breaks and every request meets; None if each text has a value, which is kept."""
        needed = Needed(model, formulas)
        asked: Dict[str, List[Asked]] = {}
        for (name, part, sought), formula in self.tests.items():
            if needed.has(formula):
                asked.setdefault(name, []).append(Asked(part, sought, _holds(model, formula)))
        measured = {key: _number(model, one) for key, one in self.lengths.items() if needed.has(one)}
        pairs = {pair: _holds(model, formula) for pair, formula in self.pairs.items() if needed.has(formula)}
        relations = {one: _holds(model, formula) for one, formula in self.relations.items() if needed.has(formula)}
        self.texts = {}
        if relations:
            return self._likely(model, asked, measured, {**relations, **_as_relations(pairs)})
        try:
            return self._exact(asked, measured, pairs)
        except NotModelled as gap:
            return self._likely(model, asked, measured, _as_relations(pairs), str(gap))

    def _exact(self, asked: Dict[str, List[Asked]], measured: Measured, pairs: Dict[Pair, bool]) -> Optional[Formulas]:
        """As `refine`, where at most whole texts are compared; raises NotModelled."""
        if pairs:
            return Equalities(self, asked, measured, pairs).refine()
        found: Formulas = []
        for name in {**asked, **{name: None for name, _ in measured}}:
            lengths = {part: length for (known, part), length in measured.items() if known == name}
            found += self._one(name, asked.get(name, []), lengths)
        return found or None

    def _likely(
        self, model: z3.ModelRef, asked: Dict[str, List[Asked]], measured: Measured, relations: Relations, why: str = TWO_TEXTS
    ) -> Optional[Formulas]:
        """As `refine`: likely texts; if there are none, the model is left out."""
        found = [one for name, tests in asked.items() for one in self._one(name, tests, {})]
        found += [one for key, length in measured.items() for one in self._one(key[0], asked.get(key[0], []), {key[1]: length})]
        if found:
            return found

        def first(name: str) -> List[str]:
            product = self.product(name, asked.get(name, []))
            texts = [product.text(length) for length in product.possible[:FIRST_TEXTS]]
            parts = {part: length for (known, part), length in measured.items() if known == name}
            return texts + self._of_lengths(name, asked.get(name, []), parts)

        texts = Likely(Wanted(asked, measured, list(relations.items())), first, lambda number: _number(model, number)).texts()
        self.texts.update(texts)
        if texts:
            return None
        self.gap, self.left_out = why, self.left_out + 1
        if self.left_out > MOST_LEFT_OUT:
            raise NotModelled(why)
        return [self._another(model, asked, measured, relations)]

    def _of_lengths(self, name: str, asked: List[Asked], lengths: Dict[str, int]) -> List[str]:
        """Texts whose parts have some lengths, each by itself, and of a target those of its path and its query together."""
        texts = {part: self.product(name, asked, part).text(length) for part, length in lengths.items()}
        both_parts = [part_of(texts[part], part) for part in (PATH, QUERY) if part in texts]
        return [*texts.values(), "?".join(both_parts)]

    def _another(self, model: z3.ModelRef, asked: Dict[str, List[Asked]], measured: Measured, relations: Relations) -> z3.BoolRef:
        """That some test, relation, length or number is another than in the model."""
        names = {name for one in relations for name in one.variables()} | {name for name, _ in measured}
        tests = [no(self.formula(name, asked[name])) for name in names if name in asked]
        others = [no(self._relation(one)) if holds else self._relation(one) for one, holds in relations.items()]
        lengths = [self.lengths[key] != length for key, length in measured.items()]
        numbers = [number != _number(model, number) for one in relations for number in one.numbers()]
        return either(*tests, *others, *lengths, *numbers)

    def _relation(self, one: Relation) -> z3.BoolRef:
        """The formula that two texts are compared so."""
        return self.relations[one] if one in self.relations else self.pairs[one.one.name, one.other.name]

    def values(self, model: z3.ModelRef) -> Dict[str, str]:
        """The texts of the last model that was not refused."""
        return self.texts

    def product(self, name: str, asked: List[Asked], part: str = WHOLE) -> Product:
        """The texts of a variable that answer tests as is wanted, each product made once."""
        key = (name, tuple(sorted(asked, key=str)), part)
        if key not in self.products:
            self.products[key] = Product(name, list(key[1]), part, self.readers)
        return self.products[key]

    def formula(self, name: str, asked: List[Asked]) -> z3.BoolRef:
        """That a text answers tests so."""
        formulas = [(self.tests[name, one.part, one.test], one.wanted) for one in asked]
        return both(*(formula if wanted else no(formula) for formula, wanted in formulas))

    def _one(self, name: str, asked: List[Asked], lengths: Dict[str, int]) -> Formulas:
        """The formulas that the tests and the length of one text break, if there are any; else its text is kept."""
        product = self.product(name, asked)
        if not product.possible:
            return [no(self.formula(name, self._core(name, asked)))]
        if not lengths:
            self.texts[name] = product.text(product.possible[0])
            return []
        if len(lengths) > 1:
            raise NotModelled(TWO_PARTS)
        [(part, length)] = lengths.items()
        product = self.product(name, asked, part)
        if length in product.possible:
            self.texts[name] = product.text(length)
            return []
        return [follows(self.formula(name, asked), _one_of(self.lengths[name, part], product.possible))]

    def _core(self, name: str, asked: List[Asked]) -> List[Asked]:
        """Few of some tests that no text answers so."""
        core = list(asked)
        for one in asked:
            fewer = [other for other in core if other != one]
            if not self.product(name, fewer).possible:
                core = fewer
        return core


class Equalities:
    """Texts that are compared with each other: equal ones are one text, and others get different ones."""

    def __init__(self, automata: Automata, asked: Dict[str, List[Asked]], measured: Measured, pairs: Dict[Pair, bool]):
        self.automata, self.asked, self.measured, self.pairs = automata, asked, measured, pairs
        self.leaders: Dict[str, str] = {}
        for (one, other), are_equal in pairs.items():
            if are_equal:
                self.leaders[self._leader(one)] = self._leader(other)

    def _leader(self, name: str) -> str:
        """The one of equal texts under which they are kept."""
        while self.leaders.get(name, name) != name:
            name = self.leaders[name]
        return name

    def refine(self) -> Optional[Formulas]:
        """As `Automata.refine`."""
        different = [pair for pair, are_equal in self.pairs.items() if not are_equal]
        if any(self._leader(one) == self._leader(other) for one, other in different):
            return [either(*self._other_pairs())]
        beside: Dict[str, set] = {}
        for one, other in different:
            beside.setdefault(self._leader(one), set()).add(self._leader(other))
            beside.setdefault(self._leader(other), set()).add(self._leader(one))
        for leader, group in self._groups().items():
            taken = {self.automata.texts[other] for other in beside.get(leader, ()) if other in self.automata.texts}
            text = self._text(leader, group, taken)
            if text is None:
                return [self._another()]
            if not all(domain(name).has(text) for name in group.variables):
                raise NotModelled(TWO_DOMAINS)
            self.automata.texts.update(dict.fromkeys([leader, *group.variables], text))
        return None

    def _groups(self) -> Dict[str, Group]:
        """The groups of equal texts."""
        names = {name: None for pair in self.pairs for name in pair}
        names.update(dict.fromkeys([*self.asked, *(name for name, _ in self.measured)]))
        found: Dict[str, Group] = {}
        for name in names:
            group = found.setdefault(self._leader(name), Group([], []))
            group.variables.append(name)
            group.asked.extend(one for one in self.asked.get(name, []) if one not in group.asked)
        return found

    def _text(self, leader: str, group: Group, taken: set) -> Optional[str]:
        """A text for a group that none beside it has, or None if there is none at all."""
        if any(one._replace(wanted=not one.wanted) in group.asked for one in group.asked):
            return None
        if any(part != WHOLE and name in group.variables for name, part in self.measured):
            raise NotModelled(TWO_PARTS)
        product = self.automata.product(leader, group.asked)
        wanted = {length for (name, _), length in self.measured.items() if name in group.variables}
        lengths = [length for length in product.possible if not wanted or wanted == {length}]
        if not lengths:
            return None
        for length in lengths[: len(taken) + 1]:
            text = product.text(length)
            if text not in taken:
                return text
        raise NotModelled(SAME_LENGTH)

    def _other_pairs(self) -> Formulas:
        return [no(self.automata.pairs[pair]) if are_equal else self.automata.pairs[pair] for pair, are_equal in self.pairs.items()]

    def _another(self) -> z3.BoolRef:
        """That some test, pair or length is another than in the model."""
        tests = [no(self.automata.formula(name, asked)) for name, asked in self.asked.items() if asked]
        lengths = [self.automata.lengths[key] != length for key, length in self.measured.items()]
        return either(*tests, *self._other_pairs(), *lengths)


def _as_relations(pairs: Dict[Pair, bool]) -> Relations:
    return {Relation(EXACT, Variable(one), Variable(other)): are_equal for (one, other), are_equal in pairs.items()}


def _holds(model: z3.ModelRef, formula: z3.BoolRef) -> bool:
    return z3.is_true(model.eval(formula, model_completion=True))


def _number(model: z3.ModelRef, number: z3.ArithRef) -> int:
    return model.eval(number, model_completion=True).as_long()


def _one_of(number: z3.ArithRef, values: List[int]) -> z3.BoolRef:
    """That a number is one of some ascending values, as ranges of them."""
    runs: List[List[int]] = []
    for value in values:
        if runs and runs[-1][1] == value - 1:
            runs[-1][1] = value
        else:
            runs.append([value, value])
    return either(*(both(number >= low, number <= high) for low, high in runs))
