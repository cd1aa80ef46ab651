"""Names by which the new names of two rules meet: the rules' right sides as terms, solved."""
import itertools
from collections.abc import Callable, Iterator

from .filters import HASH, Levels, is_name, meet
from .rules import Capture, Rule, Side
from .topic_plan import Plan

Variable = tuple[int, str | int]  # of which rule, and a capture or a place behind its `#`
Term = str | Variable
Terms = list[Term]
Values = Callable[[Term], str]


def collisions(plan: Plan) -> Iterator[tuple[Rule, Rule, tuple[Levels, Levels], Levels]]:
    """Pairs of rules, the same one perhaps, each with two names and the new name of both."""
    moves = [rule for rule in plan.rules if rule.right is not None]
    for one, other in itertools.combinations_with_replacement(moves, 2):
        if not may_meet(one, other):
            continue
        found = (made for names in meetings(plan, one, other)
                 if (made := collision(plan, (one, other), names)) is not None)
        for names, new in itertools.islice(found, 1):
            yield one, other, names, new


def may_meet(one: Rule, other: Rule) -> bool:
    """Two new names of one rule are the same only where it drops something."""
    if one is other:
        kept = set(one.right or ())
        return any(item not in kept for item in one.left
                   if isinstance(item, Capture) or item == HASH)
    return meet(one.to_filter, other.to_filter) is not None


def collision(plan: Plan, rules: tuple[Rule, Rule],
              names: tuple[Levels, Levels]) -> tuple[tuple[Levels, Levels], Levels] | None:
    """The names and their new one, if there is one and these rules decide about them."""
    if names[0] == names[1] or not all(map(is_name, names)):
        return None
    made = [plan.new_name(name) for name in names]
    decide = all(plan.rule_for(name) is rule for name, rule in zip(names, rules))
    return (names, made[0]) if decide and made[0] is not None and made[0] == made[1] else None


def meetings(plan: Plan, one: Rule, other: Rule) -> Iterator[tuple[Levels, Levels]]:
    """With levels that nobody names where any may stand, and each length behind a `#` that
    matters: an earlier rule that is about such a name is about all of that length."""
    deep = 2 + max(len(side) for rule in plan.rules for side in (rule.left, rule.right or ()))
    lengths = [range(deep) if rule.has_tail else range(1) for rule in (one, other)]
    for tails in itertools.product(*lengths):
        left = terms_of(one, 0, tails[0])
        right = terms_of(other, 1, tails[1])
        values = solved(plan, left[1], right[1])
        if values is not None:
            yield tuple(map(values, left[0])), tuple(map(values, right[0]))


def terms_of(rule: Rule, which: int, length: int) -> tuple[Terms, Terms]:
    """Both sides, with a variable for each capture and each level that the `#` stands for."""
    tail: Terms = [(which, place) for place in range(length)]

    def terms(side: Side) -> Terms:
        found: Terms = []
        for item in side:
            if isinstance(item, Capture):
                found.append((which, item.name))
            else:
                found += tail if item == HASH else [item]
        return found
    return terms(rule.left), terms(rule.right or ())


def solved(plan: Plan, one: Terms, other: Terms) -> Values | None:
    """What the variables stand for where both are equal, or None where they can't be."""
    if len(one) != len(other):
        return None
    same: dict[Variable, Term] = {}

    def root(term: Term) -> Term:
        while not isinstance(term, str) and term in same:
            term = same[term]
        return term
    for left, right in zip(map(root, one), other):
        left, right = root(left), root(right)
        if left == right:
            continue
        if not isinstance(left, str):
            same[left] = right
        elif not isinstance(right, str):
            same[right] = left
        else:
            return None
    return values_of(set(plan.literals()), root)


def values_of(named: set[str], root: Callable[[Term], Term]) -> Values:
    """A level that nobody names for each variable that is free."""
    made: dict[Variable, str] = {}

    def value(term: Term) -> str:
        found = root(term)
        if isinstance(found, str):
            return found
        if found not in made:
            texts = (f"x{number}" for number in itertools.count(1))
            made[found] = next(text for text in texts if text not in named)
            named.add(made[found])
        return made[found]
    return value
