"""What is odd in a plan."""
import itertools
from collections.abc import Iterable, Iterator
from typing import NamedTuple

from .filters import Levels, covers, meet, text_of
from .meetings import collisions
from .rules import Rule
from .topic_plan import Plan
from .translator import a_name


class Remark(NamedTuple):
    line: int
    words: str


class Pair(NamedTuple):
    """What is said of a rule beside another one, with the words for the first such."""
    rule: Rule
    other: Rule
    words: str


def from_filters(rules: Iterable[Rule]) -> list[Levels]:
    return [rule.from_filter for rule in rules]


def never_used(plan: Plan) -> Iterator[tuple[Rule, list[Rule]]]:
    """Rules whose names earlier ones all take: with these, or the one that does alone."""
    for rule in plan.rules:
        before = [other for other in plan.before(rule)
                  if meet(rule.from_filter, other.from_filter)]
        if a_name(plan, rule.from_filter, from_filters(before)) is None:
            alone = [other for other in before if covers(other.from_filter, rule.from_filter)]
            yield rule, alone[:1] or before


def crossing(plan: Plan) -> Iterator[Pair]:
    """Two rules about one name, neither of them about all of the other's, and to which they would
    give different new names."""
    for one, other in itertools.combinations(plan.rules, 2):
        if one.right is None or other.right is None:
            continue
        met = meet(one.from_filter, other.from_filter)
        if (met is None or covers(one.from_filter, other.from_filter)
                or covers(other.from_filter, one.from_filter)):
            continue
        name = a_name(plan, met, from_filters(plan.before(one)))
        if name is not None and one.new_name(name) != other.new_name(name):
            yield Pair(other, one, f"line {one.line} matches {text_of(name)} too, and decides")


def falling_together(plan: Plan) -> Iterator[Pair]:
    for one, other, names, made in collisions(plan):
        by = "" if one is other else f" (line {one.line})"
        yield Pair(other, one, f"{text_of(names[0])}{by} and {text_of(names[1])} both become "
                               f"{text_of(made)}")


def chained(plan: Plan) -> Iterator[Pair]:
    """Rules that give a name which a rule takes for an old one. While both names are in use such a
    name means two things."""
    moves = [rule for rule in plan.rules if rule.moves]
    for rule, other in itertools.product(moves, moves):
        back = rule.back(other.from_filter)
        name = None if back is None else a_name(plan, back, from_filters(plan.before(rule)))
        new = None if name is None else plan.new_name(name)
        if name is None or new is None:
            continue
        if plan.rule_for(name) is rule and plan.rule_for(new) is other:
            yield Pair(rule, other, f"{text_of(name)} becomes {text_of(new)}, which line "
                                    f"{other.line} takes for an old topic")


def by_rule(found: Iterable[Pair]) -> Iterator[Remark]:
    """Of each rule the first, and the lines of the other rules beside which it holds too."""
    groups: dict[int, list[Pair]] = {}
    for pair in found:
        groups.setdefault(pair.rule.line, []).append(pair)
    for line, group in groups.items():
        lines = [str(pair.other.line) for pair in group if pair.other is not pair.rule]
        word = "line" if len(lines) == 2 else "lines"
        more = f"; the same with {word} {', '.join(lines[1:])}" if len(lines) > 1 else ""
        yield Remark(line, group[0].words + more)


def remarks(plan: Plan) -> list[Remark]:
    found = []
    for rule, before in never_used(plan):
        lines = ", ".join(str(other.line) for other in before)
        takes = "line {} takes" if len(before) == 1 else "lines {} take"
        found.append(Remark(
            rule.line, f"never used: {takes.format(lines)} each topic that it matches"))
    for pairs in (crossing(plan), falling_together(plan), chained(plan)):
        found += by_rule(pairs)
    return sorted(found, key=lambda remark: remark.line)
