"""Loops and test-only selects back to the macros whose expansions they are."""
from typing import Iterator, NamedTuple, Optional

from .expand import LOOPS
from .tree import ACCUMULATOR, NEW_ACCUMULATOR, Comprehension, Ident, ListLiteral, Node, is_call, shape


class Folded(NamedTuple):
    """A macro's name, its arguments after the variables' names, and the first of them if it is a test."""

    name: str
    arguments: list
    test: Optional[Node]


def fold(loop: Comprehension) -> Optional[Folded]:
    """The macro whose expansion a loop is, whichever cel-go's accumulator it has, or None."""
    if loop.accu_var not in (ACCUMULATOR, NEW_ACCUMULATOR):
        return None
    wanted = _with_old_name(shape(loop))
    variables = [Ident(name) for name in loop.variables()]
    for folded in _candidates(loop):
        macro = LOOPS[folded.name, len(variables) + len(folded.arguments)]
        again = macro.expand(loop.iter_range, variables, *folded.arguments, -1)
        if macro.variables == len(variables) and _with_old_name(shape(again)) == wanted:
            return folded
    return None


def _with_old_name(part):
    """The shape of a tree with the accumulator's name of cel-go 0.18."""
    if isinstance(part, tuple):
        return tuple(map(_with_old_name, part))
    return ACCUMULATOR if part == NEW_ACCUMULATOR else part


def _candidates(loop: Comprehension) -> Iterator[Folded]:
    """The macros that the step allows; whether the whole loop is the expansion is asked afterwards."""
    step = loop.loop_step
    collect = "transformList" if loop.iter_var2 else "map"
    if is_call(step, "_&&_", 2):
        yield _tested("all", step.args[1])
    elif is_call(step, "_||_", 2):
        yield _tested("exists", step.args[1])
    elif is_call(step, "_+_", 2) and _only_element(step.args[1]) is not None:
        yield Folded(collect, [_only_element(step.args[1])], None)
    elif is_call(step, "_?_:_", 3):
        test, kept = step.args[0], step.args[1]
        yield _tested("exists_one", test)
        if not loop.iter_var2:
            yield _tested("filter", test)
        if is_call(kept, "_+_", 2) and _only_element(kept.args[1]) is not None:
            yield _tested(collect, test, _only_element(kept.args[1]))


def _tested(name: str, test: Node, *rest: Node) -> Folded:
    return Folded(name, [test, *rest], test)


def _only_element(node: Node) -> Optional[Node]:
    return node.elements[0] if isinstance(node, ListLiteral) and len(node.elements) == 1 else None
