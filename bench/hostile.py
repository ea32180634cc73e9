"""Conditions whose bounds take long: trees made against what `bound` remembers, for `bounds` and `growth`.

Each has at most 2,048 nodes and 64 levels. The budget bounds what is paid, and not what is looked at: of a conditional's branches only
the most expensive is paid, and lists of many levels are joined level by level.
"""
import itertools
import random

from expressions import (INT, boolean, call, checked, choice, gather, gather_table, ident, integer, items, list_of, pairs, plus, string,
                         type_entry)
from messages import flag, text

ACC = ident(b"acc")
TRUE = boolean()
X = string(b"x")
EMPTY = string(b"")


def ones(count):
    return items(*[integer(1)] * count)


def doubled(times):
    """A list of 2^times items, made by concatenation."""
    return gather(ones(times), ones(1), plus(ACC, ACC), ACC)


def first(of):
    return call(b"_[_]", of, integer(0))


def first_again(of):
    """The same item by another expression."""
    return call(b"_[_]", of, plus(integer(0), integer(0)))


def joined(lists):
    """All items of the lists."""
    if len(lists) == 1:
        return lists[0]
    half = len(lists) // 2
    return plus(joined(lists[:half]), joined(lists[half:]))


def length(of):
    return call(b"size", of)


def deep_list(levels):
    """An empty list whose type has so many levels, and the entry with its type."""
    inner = INT
    for _ in range(levels):
        inner = list_of(inner)
    return flag(2, 0) + text(7, b""), type_entry(0, inner)


def deep_map(levels):
    """An empty map whose values are maps, in so many levels, and the entry with its type."""
    inner = INT
    for _ in range(levels):
        inner = text(7, text(1, INT) + text(2, inner))
    return flag(2, 0) + text(8, b""), type_entry(0, inner)


def choices(branches):
    """A tree of conditionals over the branches."""
    if len(branches) == 1:
        return branches[0]
    half = len(branches) // 2
    return choice(TRUE, choices(branches[:half]), choices(branches[half:]))


def deep_in_turns(levels, make):
    """A list of so many levels that grows by an item each turn, made by an expression of it."""
    empty, entry = deep_list(levels)
    return checked(length(gather(doubled(14), empty, plus(ACC, items(make(ACC))), ACC)), entry)


def length_tests(names):
    """A test of constant cost: whether a list of these texts has fewer than nine items."""
    return call(b"_<_", length(items(*[ident(name) for name in names])), integer(9))


def differing_branches(branches, turns):
    """Three loops, one in another, and branches in each turn of the innermost: no branch measures as its neighbour."""
    names = [b"t0", b"t1", b"t2"]
    kinds = [length_tests([first_name, names[2]]) for first_name in names]
    choice_of_all = choices([kinds[at % 3] for at in range(branches)])
    grown = choice(choice_of_all, X, X)
    for level in (2, 1, 0):
        grown = gather(ones(turns), EMPTY, plus(ident(names[level]), grown), X, names[level], b"x%d" % level)
    return checked(length(grown))


def two_locals_in_turn(count):
    """A list of 50 levels that grows, and in each turn a list of two such locals in turn."""
    empty, entry = deep_list(50)
    inner = ident(b"t")
    in_turn = items(*[inner if at % 2 else ACC for at in range(count)])
    grown = gather(ones(1), ACC, plus(ACC, items(first(first(in_turn)))), inner, b"t", b"y")
    return checked(length(gather(doubled(14), empty, grown, ACC)), entry)


def compared_branches(levels, branches):
    """Loops of two turns, one in another, and branches in each turn of the innermost that compare the texts of two loops."""
    names = [b"t%d" % level for level in range(levels)]
    tests = [call(b"_==_", ident(one), ident(other)) for one in names for other in names if one != other]
    grown = choice(choices([tests[at % len(tests)] for at in range(branches)]), X, X)
    for level in reversed(range(levels)):
        grown = gather(ones(2), X, plus(ident(names[level]), grown), X, names[level], b"x%d" % level)
    return checked(length(grown))


def joined_lists(levels, loops, leaves, is_compared):
    """Loops of two turns, one in another, whose lists of many levels grow. In each turn of the innermost, a tree of branches
    joins all these lists, the innermost one again and again. Two kinds of lists alternate: neither has room for the other.
    The tree's list is counted, or it is compared."""
    names = [b"t%d" % level for level in range(loops)]
    others = names[:-1]
    tree = choices([ident(names[-1] if at % 2 else others[at // 2 % len(others)]) for at in range(leaves)])
    test = call(b"_==_", tree, ident(b"y")) if is_compared else call(b"_<_", length(tree), integer(9))
    grown = choice(test, ident(b"y"), ident(b"y"))
    for level in reversed(range(loops)):
        kind = ident(b"y" if level % 2 else b"x")
        grown = gather(ones(2), kind, plus(ident(names[level]), grown), kind, names[level], b"e%d" % level)
    found = length(grown)
    for level in range(6):
        found = gather(ones(1), integer(0), found, ident(b"w%d" % level), b"w%d" % level, b"u%d" % level)
    for name, entry in ((b"y", (X, string(b"xxxx"))), (b"x", (string(b"xxxx"), X))):
        one = pairs(entry)
        for _ in range(levels):
            one = items(one)
        found = gather(one, integer(0), found, ident(b"r" + name), b"r" + name, name)
    return checked(call(b"_<_", found, integer(9)))


def made_against():
    """Expressions whose neighbours differ: their names and their bytes."""
    yield "a list of 50 levels that grows, with a list of 480 of its items of two kinds in turn", deep_in_turns(
        50, lambda acc: first(items(*[first(acc), first_again(acc)] * 240)))
    yield "a list of 50 levels that grows, with 490 of its items joined in each turn", deep_in_turns(
        50, lambda acc: joined([first(acc)] * 490))
    yield "a list of 50 levels that grows, with a list of 1,800 of two locals in turn", two_locals_in_turn(1_800)
    yield "3 nested loops of 80 turns, with 200 branches that differ", differing_branches(200, 80)
    yield "14 nested loops of 2 turns, with 300 branches that compare their texts", compared_branches(14, 300)
    yield "20 nested loops of 2 turns, with 270 branches that compare their texts", compared_branches(20, 270)
    for levels, loops, leaves in ((10, 14, 560), (50, 10, 540), (50, 14, 500)):
        name = f"{loops} nested loops of 2 turns, with {leaves} branches of {levels} levels"
        yield f"{name}, counted", joined_lists(levels, loops, leaves, False)
        yield f"{name}, compared", joined_lists(levels, loops, leaves, True)


def looped(names, step, turns=2, entry=b""):
    """Loops of so many turns, one in another, whose texts grow by what the innermost one's step gives."""
    grown = choice(step, X, X)
    for level in reversed(range(len(names))):
        grown = gather(ones(turns), X, plus(ident(names[level]), grown), X, names[level], b"x%d" % level)
    return checked(length(grown), entry)


def made_against_formulas():
    """Expressions made against formulas: their names and their bytes."""
    names = [b"t%d" % level for level in range(14)]
    pairs_of = [(one, other) for one in names for other in names if one != other]

    def inner(name):
        return first(first(items(items(ident(name)))))

    nested_tests = [call(b"_==_", inner(one), inner(other)) for one, other in pairs_of[:90]]
    yield "14 nested loops of 2 turns, with 90 branches that compare items of lists in lists", looped(
        names, choices(nested_tests))
    many = [b"t%d" % level for level in range(20)]
    joined_tests = [call(b"_==_", plus(ident(one), ident(other)), ident(one)) for one in many for other in many if one != other]
    yield "20 nested loops of 2 turns, with 200 branches that join and compare their texts", looped(
        many, choices(joined_tests[:200]))
    wide = first(items(*[plus(ident(one), ident(other)) for one, other in (pairs_of * 2)[:350]]))
    yield "14 nested loops of 2 turns, with a list of 350 texts that are joined", looped(names, call(b"_==_", wide, X))


def made_with_tables():
    """Expressions with loops of two variables, deep types and wide literals in one: their names and their bytes."""
    names = [b"t%d" % level for level in range(11)]
    pairs_of = [(one, other) for one in names for other in names if one != other]
    table = pairs((string(b"a"), X), (string(b"bb"), string(b"xxxx")))
    tests = [call(b"_==_", plus(ident(b"k" + one), ident(other)), ident(b"v" + other)) for one, other in pairs_of]
    grown = choice(choices((tests * 2)[:190]), X, X)
    for level in reversed(range(len(names))):
        name = names[level]
        grown = gather_table(table, X, plus(ident(name), grown), X, name, b"k" + name, b"v" + name)
    yield "11 nested loops over tables of 2 entries, with 190 branches that compare keys and values", checked(length(grown))
    wide = [plus(ident(one), ident(other)) for one, other in (pairs_of * 2)[:150]]
    yield "11 nested loops of 2 turns, with two literals of 150 texts that are compared", looped(
        names, call(b"_==_", items(*wide), items(*reversed(wide))))
    levels = 40
    empty, entry = deep_list(levels)
    locals_of = [b"d%d" % level for level in range(12)]
    tree = choices([ident(locals_of[at % 12]) for at in range(300)])
    grown = choice(call(b"_==_", tree, empty), X, X)
    for level in reversed(range(12)):
        name = locals_of[level]
        grown = gather(ones(2), empty, plus(ident(name), items(first(ident(name)))), grown, name, b"e%d" % level)
    yield f"12 nested loops of 2 turns, with 300 branches of {levels} levels that are locals, in results", checked(
        length(grown), entry)


def over_locals(names, step):
    """The same as `looped`, whose ranges are the variable of a loop around: a list of two items."""
    grown = choice(step, X, X)
    for level in reversed(range(len(names))):
        grown = gather(ident(b"two"), X, plus(ident(names[level]), grown), X, names[level], b"x%d" % level)
    found = gather(items(ones(2)), integer(0), length(grown), ident(b"all"), b"all", b"two")
    return checked(call(b"_<_", found, integer(9)))


def pairs_of(names):
    return [(ident(one), ident(other)) for one in names for other in names if one != other]


def is_in(item, of):
    return call(b"@in", item, of)


def is_same(one, other):
    return call(b"_==_", one, other)


def made_against_terms():
    """Expressions made against terms: their names and their bytes."""
    names = [b"t%d" % level for level in range(14)]
    many = [b"t%d" % level for level in range(20)]
    of_many = pairs_of(many)
    yield "20 nested loops of 2 turns, with 200 branches that look for two joined texts in a list", looped(
        many, choices([is_in(plus(one, other), items(other)) for one, other in of_many[:200]]))
    threes = [(ident(one), ident(other), ident(names[at % 14])) for at, (one, other) in enumerate(
        (one, other) for one in names for other in names if one != other)]
    yield "14 nested loops of 2 turns, with 200 branches that compare lists of two texts with lists of one", looped(
        names, choices([is_same(items(one, other), items(third)) for one, other, third in (threes * 2)[:200]]))
    yield "14 nested loops over a local, with 280 branches that compare their texts", over_locals(
        names, choices([is_same(one, other) for one, other in (pairs_of(names) * 2)[:280]]))


def looped_lists(names, step):
    """Loops of two turns, one in another, whose lists of texts grow by what the innermost one's step gives."""
    grown = choice(step, items(X), items(X))
    for level in reversed(range(len(names))):
        grown = gather(ones(2), items(X), plus(ident(names[level]), grown), items(X), names[level], b"x%d" % level)
    return checked(length(grown))


def made_without_forms():
    """Expressions whose branches have no form: their names and their bytes."""
    names = [b"t%d" % level for level in range(14)]
    two = pairs_of(names) * 2
    yield "14 nested loops of 2 turns, with 280 branches that compare their lists", looped_lists(
        names, choices([is_same(one, other) for one, other in two[:280]]))
    yield "14 nested loops of 2 turns, with 200 branches that look for an item in their lists", looped_lists(
        names, choices([is_in(first(one), other) for one, other in two[:200]]))
    yield "14 nested loops of 2 turns, with 200 branches that join their lists", looped_lists(
        names, choices([is_short(plus(one, other)) for one, other in two[:200]]))
    yield "14 nested loops of 2 turns, with 200 branches that look for their texts in maps", looped(
        names, choices([is_in(one, pairs((other, X))) for one, other in two[:200]]))
    yield "14 nested loops of 2 turns, with 150 branches that compare maps", looped(
        names, choices([is_same(pairs((one, other)), pairs((other, one))) for one, other in two[:150]]))
    yield "14 nested loops of 2 turns, with 120 branches that compare results of loops", looped(
        names, choices([is_same(gather(ones(1), one, plus(ident(b"q"), other), ident(b"q"), b"q", b"y"), other)
                        for one, other in two[:120]]))
    yield "14 nested loops of 2 turns, with 200 branches that compare bytes of texts", looped(
        names, choices([is_same(call(b"bytes", one), call(b"bytes", other)) for one, other in two[:200]]))


def deep_lists(levels, loops, test_of):
    """Loops of two turns, one in another, whose lists of many levels grow. In each turn of the innermost, a test of these lists. Two
    kinds of lists alternate: neither has room for the other."""
    names = [b"t%d" % level for level in range(loops)]
    grown = choice(test_of(names), ident(b"y"), ident(b"y"))
    for level in reversed(range(loops)):
        kind = ident(b"y" if level % 2 else b"x")
        grown = gather(ones(2), kind, plus(ident(names[level]), grown), kind, names[level], b"e%d" % level)
    found = length(grown)
    for name, entry in ((b"y", (X, string(b"xxxx"))), (b"x", (string(b"xxxx"), X))):
        one = pairs(entry)
        for _ in range(levels):
            one = items(one)
        found = gather(one, integer(0), found, ident(b"r" + name), b"r" + name, name)
    return checked(is_short_number(found))


def is_short_number(of):
    return call(b"_<_", of, integer(9))


def compared_pairs(names, count):
    """Branches that compare two lists each."""
    return choices([is_same(one, other) for one, other in (pairs_of(names) * 4)[:count]])


def compared_fours(names, count):
    """Branches that compare the join of the innermost list and three others, each time of three others."""
    threes = list(itertools.combinations(names[:-1], 3))
    random.Random(1).shuffle(threes)
    return choices([is_same(choices([ident(name) for name in (names[-1], *three)]), ident(b"y")) for three in threes[:count]])


def made_against_numbers():
    """Expressions made against lists of numbers: their names and their bytes."""
    for loops, levels in ((12, 38), (14, 38)):
        yield f"{loops} nested loops of 2 turns, with 280 branches that compare lists of {levels} levels", deep_lists(
            levels, loops, lambda names: compared_pairs(names, 280))
    for loops, levels in ((12, 38), (13, 36)):
        yield f"{loops} nested loops of 2 turns, with 100 branches that join four lists of {levels} levels", deep_lists(
            levels, loops, lambda names: compared_fours(names, 100))


def is_short(of):
    return call(b"_<_", length(of), integer(9))


def negated(levels):
    return boolean() if levels == 0 else call(b"!_", negated(levels - 1))


def one_turn(over, step):
    """A loop over the list whose accumulator, a bool, stays."""
    return gather(over, TRUE, step, ident(b"q"), b"q", b"y")


def made_against_visits():
    """Expressions made against the visits themselves, each of another kind of work in one visit: their names and their bytes. In each
    turn of the innermost of 11 loops of 2 turns, so many branches are measured. All take about 2^22 visits, and few steps."""
    names = [b"t%d" % level for level in range(11)]
    kinds = (
        ("sizes of texts", 310, lambda one, other: is_short(one)),
        ("bytes of texts", 270, lambda one, other: is_same(call(b"bytes", one), call(b"bytes", other))),
        ("lists of a text", 270, lambda one, other: is_same(items(one), items(other))),
        ("lists of a list of a text", 210, lambda one, other: is_same(items(items(one)), items(items(other)))),
        ("maps of a text", 200, lambda one, other: is_same(pairs((one, other)), pairs((other, one)))),
        ("values of maps", 190, lambda one, other: is_same(call(b"_[_]", pairs((one, other)), one), other)),
        ("items of lists", 230, lambda one, other: is_same(first(items(one)), other)),
        ("texts in lists", 300, lambda one, other: is_in(one, items(other))),
        ("texts of numbers", 300, lambda one, other: is_same(call(b"string", integer(5)), one)),
        ("20 negations", 76, lambda one, other: negated(20)),
        ("a loop of one turn", 200, lambda one, other: one_turn(ones(1), ident(b"q"))),
        ("a loop of two turns", 150, lambda one, other: one_turn(ones(2), call(b"_&&_", ident(b"q"), TRUE))),
        ("a loop over a map", 170, lambda one, other: gather_table(
            pairs((X, one)), TRUE, ident(b"q"), ident(b"q"), b"q", b"k", b"v")),
    )
    two = pairs_of(names) * 3
    for kind, count, make in kinds:
        yield f"11 nested loops of 2 turns, with {count} branches, each with {kind}", looped(
            names, choices([make(one, other) for one, other in two[:count]]))
    lists = (
        ("450 empty maps", 4, *deep_map(1)),
        ("75 maps", 8, pairs((integer(1), integer(2))), b""),
        ("450 empty lists", 4, *deep_list(1)),
        ("450 empty lists of 50 levels", 4, *deep_list(50)),
        ("450 empty maps of 50 levels", 4, *deep_map(50)),
    )
    for kind, count, item, entry in lists:
        items_of = items(*[item] * int(kind.split()[0]))
        yield f"11 nested loops of 2 turns, with {count} branches, each with a list of {kind}", looped(
            names, choices([is_short(items_of)] * count), entry=entry)


def turned(names, test):
    """A test of the size of a text: loops of two turns, one in another, whose texts grow by what the innermost one's step gives."""
    grown = choice(test, X, X)
    for level in reversed(range(len(names))):
        grown = gather(ones(2), X, plus(ident(names[level]), grown), X, names[level], b"x%d" % level)
    return checked(is_short(grown))


def joined_in_turns(loops, leaves, levels):
    """The same over lists of many levels, of two kinds in turn, which a tree of branches joins."""
    names = [b"t%d" % level for level in range(loops)]
    tree = choices([ident(names[-1] if at % 2 else names[at // 2 % (loops - 1)]) for at in range(leaves)])
    grown = choice(call(b"_==_", tree, ident(b"y")), ident(b"y"), ident(b"y"))
    for level in reversed(range(loops)):
        kind = ident(b"y" if level % 2 else b"x")
        grown = gather(ones(2), kind, plus(ident(names[level]), grown), kind, names[level], b"e%d" % level)
    found = length(grown)
    for name, pair in ((b"y", (X, string(b"xxxx"))), (b"x", (string(b"xxxx"), X))):
        one = pairs(pair)
        for _ in range(levels):
            one = items(one)
        found = gather(one, integer(0), found, ident(b"r" + name), b"r" + name, name)
    return checked(call(b"_<_", found, integer(9)))


def within_shares():
    """Five kinds of conditions of almost 4,000 bytes, none of which takes more than 3,900 steps: their names and their bytes. So 256 of
    one kind fill a filter, and take almost all of its usual budget."""
    def of_two(loops, count, make):
        names = [b"t%d" % level for level in range(loops)]
        made = [make(ident(one), ident(other)) for one in names for other in names if one != other]
        return names, (made * count)[:count]

    def inner(of):
        return first(first(items(items(of))))

    names, tests = of_two(6, 58, is_same)
    yield "6 loops with 58 branches that compare texts", turned(names, choices(tests))
    names, tests = of_two(5, 38, lambda one, other: is_same(plus(one, other), one))
    yield "5 loops with 38 branches that join and compare texts", turned(names, choices(tests))
    names, tests = of_two(5, 16, lambda one, other: is_same(inner(one), inner(other)))
    yield "5 loops with 16 branches that compare items of lists in lists", turned(names, choices(tests))
    names, texts = of_two(2, 96, plus)
    yield "2 loops with a list of 96 texts that are joined", turned(names, is_same(first(items(*texts)), X))
    yield "5 loops with 84 branches of 10 levels", joined_in_turns(5, 84, 10)
