"""The model of requests on requests that are known: each formula then has a value, without a solver."""
import ipaddress
from functools import lru_cache
from typing import Callable, Dict, List, NamedTuple

import z3

from policies.compare.deciding import Decided, policies_in
from policies.compare.judging import side_of
from policies.compare.spaces import AUTHORITY, METHOD, TARGET, VERSION
from policies.meaning.domains import AUTHORITY_TEXT, METHOD_TEXT, SCHEME_TEXT, TARGET_TEXT, header_text, other_name, other_text, part_of
from policies.meaning.formulas import CONTEXT
from policies.meaning.questions import Reading, read
from policies.meaning.readers import Steps
from policies.meaning.request import Known
from policies.meaning.sought import Sought
from policies.meaning.terms import Decimal, Joined, Literal

# What each operation of a formula is in Python, with its parts.
INFIX = {z3.Z3_OP_AND: " and ", z3.Z3_OP_OR: " or ", z3.Z3_OP_ADD: " + ", z3.Z3_OP_SUB: " - ", z3.Z3_OP_MUL: " * "}
INFIX.update({z3.Z3_OP_EQ: " == ", z3.Z3_OP_DISTINCT: " != ", z3.Z3_OP_LT: " < ", z3.Z3_OP_LE: " <= ", z3.Z3_OP_GT: " > "})
INFIX.update({z3.Z3_OP_GE: " >= "})
# A quotient by zero means nothing, as an error goes with it.
OTHERS = {z3.Z3_OP_TRUE: "True", z3.Z3_OP_FALSE: "False", z3.Z3_OP_NOT: "not {}", z3.Z3_OP_ITE: "{1} if {0} else {2}"}
OTHERS.update({z3.Z3_OP_UMINUS: "-{}", z3.Z3_OP_IDIV: "{0} // {1} if {1} else 0", z3.Z3_OP_MOD: "{0} % {1}"})


class Question(NamedTuple):
    """What a formula asks of texts: a test of one, how two compare, or a size. Numbers that are written are parts of it."""

    kind: str
    one: object
    other: object = None

    def numbers(self) -> List[z3.ArithRef]:
        """The numbers in it, in order."""
        return [part.number for term in (self.one, self.other) for part in parts_of(term) if isinstance(part, Decimal)]


def parts_of(term) -> tuple:
    """The terms that a term is made of."""
    return term.parts if isinstance(term, Joined) else (term,)


class Texts:
    """A way to decide texts that asks nothing: each question is a variable of its own."""

    name = "known"

    def __init__(self):
        self.questions: Dict[Question, str] = {}

    def _asked(self, sort: z3.SortRef, question: Question) -> z3.ExprRef:
        name, numbers = self.questions.setdefault(question, f"question {len(self.questions)}"), question.numbers()
        return z3.Function(name, *(z3.IntSort() for _ in numbers), sort)(*numbers) if numbers else z3.Const(name, sort)

    def test(self, variable, sought):
        """Whether a text passes a test."""
        return self._asked(z3.BoolSort(), Question("test", variable, sought))

    def compare(self, kind, one, other):
        """Whether two texts are compared so."""
        return self._asked(z3.BoolSort(), Question(kind, one, other))

    def length(self, variable):
        """The size of a text."""
        return self._asked(z3.IntSort(), Question("length", variable))

    def domain(self):
        """Nothing: the texts are known."""
        return []


def text_of(term, texts: Dict[str, str], numbers: List[int]) -> str:
    """The text of a term; it takes the numbers that it writes."""
    if isinstance(term, Literal):
        return term.text
    if isinstance(term, Decimal):
        return str(numbers.pop(0))
    if isinstance(term, Joined):
        return "".join(text_of(part, texts, numbers) for part in term.parts)
    return part_of(texts.get(term.name, ""), term.part)


@lru_cache(maxsize=None)
def steps_of(sought: Sought) -> Steps:
    """The automaton of a test."""
    return Steps(sought)


def answered(question: Question, texts: Dict[str, str], numbers: List[int]):
    """The answer to a question; a test is asked of its automaton too."""
    text = text_of(question.one, texts, numbers)
    if question.kind == "length":
        return len(text)
    if question.kind != "test":
        return Sought(question.kind, text_of(question.other, texts, numbers)).passes(text)
    sought, steps = question.other, steps_of(question.other)
    state = steps.start
    for character in text:
        state = steps.step(state, character)
    assert steps.passes(state) == sought.passes(text), (sought, text)
    return sought.passes(text)


def answer_to(question: Question, texts: Dict[str, str]):
    """The answer to a question, or what gives it for the numbers in it."""
    return (lambda *numbers: answered(question, texts, list(numbers))) if question.numbers() else answered(question, texts, [])


class Formulas:
    """Formulas as a function of Python, each part of them a line."""

    def __init__(self, formulas: List[z3.ExprRef]):
        self.held = formulas
        self.lines: List[str] = []
        self.places: Dict[int, int] = {}
        wanted = [f"v{self._place(one.as_ast())}" for one in formulas]
        text = "\n    ".join(["def values(known):", *self.lines, f"return [{', '.join(wanted)}]"])
        made: Dict[str, Callable] = {}
        exec(text, made)
        # by the names of the variables and their values the values of the formulas
        self.values = made["values"]

    def _place(self, formula) -> int:
        """The number of a formula's line, after those of its parts."""
        left = [formula]
        while left:
            parts = _parts(left[-1])
            missing = [part for part in parts if _number(part) not in self.places]
            if missing:
                left += missing
                continue
            one = left.pop()
            if _number(one) not in self.places:
                line = _operation(one, [f"v{self.places[_number(part)]}" for part in parts])
                self.places[_number(one)] = len(self.lines)
                self.lines.append(f"v{len(self.lines)} = {line}")
        return self.places[_number(formula)]


def _number(one) -> int:
    return z3.Z3_get_ast_id(CONTEXT.ref(), one)


def _parts(one) -> list:
    if z3.Z3_get_ast_kind(CONTEXT.ref(), one) == z3.Z3_NUMERAL_AST:
        return []
    held = z3.Z3_to_app(CONTEXT.ref(), one)
    return [z3.Z3_get_app_arg(CONTEXT.ref(), held, at) for at in range(z3.Z3_get_app_num_args(CONTEXT.ref(), held))]


def _operation(one, parts: List[str]) -> str:
    """A formula as Python, where its parts have names."""
    context = CONTEXT.ref()
    if z3.Z3_get_ast_kind(context, one) == z3.Z3_NUMERAL_AST:
        return z3.Z3_get_numeral_string(context, one)
    declared = z3.Z3_get_app_decl(context, z3.Z3_to_app(context, one))
    kind = z3.Z3_get_decl_kind(context, declared)
    if kind in INFIX:
        return INFIX[kind].join(parts)
    if kind == z3.Z3_OP_UNINTERPRETED:
        name = z3.Z3_get_symbol_string(context, z3.Z3_get_decl_name(context, declared))
        return f"known[{name!r}]" + (f"({', '.join(parts)})" if parts else "")
    if kind == z3.Z3_OP_EXTRACT:
        high, low = (z3.Z3_get_decl_int_parameter(context, declared, at) for at in range(2))
        return f"{parts[0]} >> {low} & {2 ** (high - low + 1) - 1}"
    return OTHERS[kind].format(*parts)


def texts_of(draft) -> Dict[str, str]:
    """The texts of a request, by their variables."""
    texts = {METHOD_TEXT: draft[METHOD], TARGET_TEXT: draft[TARGET], AUTHORITY_TEXT: draft[AUTHORITY] or "", SCHEME_TEXT: "http"}
    for (kind, *name), value in draft.items():
        if kind == "header":
            texts[header_text(name[0])] = value
        elif kind == "fact" and isinstance(value, str):
            texts[SCHEME_TEXT if name[0] == "request.scheme" else name[0]] = value
    return texts


def others_of(draft, names) -> List[str]:
    """The headers of a request that have none of some names."""
    return [name[0] for (kind, *name) in draft if kind == "header" and name[0] not in names]


def values_of(request, draft, texts) -> Dict[str, object]:
    """The values of the model's variables in a request; headers of any name that it does not have are absent."""
    known = {"http11": draft[VERSION] == "1.1", "more headers": 0, "mtls": bool(draft.get(("fact", "connection.mtls")))}
    for name in request.has:
        if name == AUTHORITY_TEXT:
            is_there = draft[AUTHORITY] is not None
        else:
            is_there = name in texts if name.startswith("v:") else ("header", name[2:]) in draft or ("fact", name) in draft
        known[f"has {name}"] = is_there
    known.update({name: draft.get(("fact", name), 0) for name in request.numbers})
    for name in request.addresses:
        address = ipaddress.ip_address(draft.get(("fact", name), "0.0.0.0"))
        known.update({f"v6 {name}": address.version == 6, f"bits {name}": int(address)})
    return known


def verdicts(data: bytes, drafts: list) -> List[tuple]:
    """What the model says of a filter's bytes and requests: for each allow or deny, and the policy that decides, or None."""
    policies = policies_in(side_of("f", data))
    names = read(Texts, lambda one: [one.matches(policy) for policy in policies.policies]).request.names
    others = [others_of(draft, names) for draft in drafts]
    reading = Reading(Texts(), Known(tuple(names), max(map(len, others))))
    decided = Decided(reading, policies)
    limits = reading.request.limits()
    formulas = Formulas([decided.passes(), *decided.names.values(), *limits])
    return [_verdict(reading, formulas, list(decided.names), draft, own) for draft, own in zip(drafts, others)]


def _verdict(reading, formulas: Formulas, names: List[str], draft, others: List[str]) -> tuple:
    texts = texts_of(draft)
    for number, name in enumerate(others):
        texts.update({other_name(number): name, other_text(number): draft["header", name]})
    known = values_of(reading.request, draft, texts)
    # headers of any name that are absent have names too
    texts.update({other_name(number): f"other-{number}" for number in range(len(others), reading.request.known.others)})
    known.update({name: answer_to(question, texts) for question, name in reading.way.questions.items()})
    passes, *values = formulas.values(known)
    assert all(values[len(names) :]), (draft, values)
    by = next((name for name, holds in zip(names, values) if holds), None)
    return "allow" if passes else "deny", by
