"""Differences of access lists on names that no topic of a day has, and the `none` line of a plan
that says that nobody has them.

A difference is about topics about which the same rule of the plan and the same lines of both lists
decide, for clients of a kind.
"""
from collections import defaultdict
from collections.abc import Iterable, Iterator
from dataclasses import dataclass
from itertools import islice
from typing import Any

from ..script.access_list import AccessList, Line, Question
from ..script.text_faults import is_topic
from ..script.topics import TopicTree
from .filters import Levels, levels, matches, meet, text_of
from .list_lines import line_of, opened
from .plan_lines import LineFault, MARKS, rule_of
from .rules import Rule
from .topic_plan import Plan

MOST_QUESTIONS = 50_000  # of each list, for all differences
FEW = 20  # topics that are asked about first

Lines = tuple[Line | None, Line | None]  # of the old list and of the new one; None: no line does


@dataclass(frozen=True)
class About:
    """What decides of a difference: a line of the plan or none, and the lines of the lists; with
    questions that stand for its clients, whose topics don't count, and what of their client ids and
    user names stands for others."""
    rule: int | None
    lines: Lines
    asked: tuple[Question, ...]
    placeholders: frozenset[str]


@dataclass(frozen=True)
class Proposal:
    """A line for a plan: before another line, or where that is None at the end."""
    text: str
    before: int | None

    def json(self) -> dict[str, Any]:
        return {"line": self.text, "before": self.before}

    def in_words(self) -> str:
        where = "at the end" if self.before is None else f"before line {self.before}"
        return f"{self.text} ({where})"


@dataclass(frozen=True)
class Named:
    """A topic of the day, with its new name."""
    old: Levels
    new: Levels

    def pair(self, asked: Question) -> tuple[Question, Question]:
        """What is asked of the old list, and of the new one."""
        return asked._replace(topic=text_of(self.old)), asked._replace(topic=text_of(self.new))


class RuleNames:
    """The topics of a day about which one rule decides, or none."""

    def __init__(self) -> None:
        self.old, self.new = TopicTree(), TopicTree()
        self.by_old: dict[str, Named] = {}
        self.by_new: defaultdict[str, list[Named]] = defaultdict(list)

    def add(self, one: Named) -> None:
        old, new = text_of(one.old), text_of(one.new)
        self.old.add(old)
        self.new.add(new)
        self.by_old[old] = one
        self.by_new[new].append(one)

    def matching(self, old: Levels | None, new: Levels | None) -> Iterator[Named]:
        """Those whose old name the one filter matches, and whose new name the other."""
        if old is None:
            wanted = () if new is None else self.new.matching(text_of(new))
            yield from (one for name in wanted for one in self.by_new[name])
            return
        for name in self.old.matching(text_of(old)):
            one = self.by_old[name]
            if new is None or matches(new, one.new):
                yield one


class DayNames:
    """The topics of a day that have a new name, by the line of the rule that decides."""

    def __init__(self, plan: Plan, texts: Iterable[str],
                 lists: tuple[AccessList, AccessList]) -> None:
        self.plan, self.lists, self.left = plan, lists, MOST_QUESTIONS
        self.rules = {rule.line: rule for rule in plan.rules}
        self.names: defaultdict[int | None, RuleNames] = defaultdict(RuleNames)
        for name in map(levels, filter(is_topic, dict.fromkeys(texts))):
            new = plan.new_name(name)
            if new is not None:
                self.names[line_or_none(plan.rule_for(name))].add(Named(name, new))

    def is_unused(self, about: About) -> bool | None:
        """Whether it is about none of the topics. None: that isn't known."""
        filters = filters_of(about)
        old, new = (None if wanted is None else opened(wanted) for wanted in filters)
        may_ask = max(0, self.left) // len(about.asked)
        names = list(islice(self.names[about.rule].matching(old, new), may_ask + 1))
        if not names:
            return True
        has_marks = any(set(MARKS) & set(wanted or ()) for wanted in filters)
        stand_in = any(about.placeholders & set(one.old + one.new) for one in names)
        if has_marks or stand_in or len(names) > may_ask:
            return None
        self.left -= len(names) * len(about.asked)
        return not any(
            self.decide(about, [one.pair(asked) for one in some for asked in about.asked])
            for some in (names[:FEW], names[FEW:]))

    def decide(self, about: About, asked: list[tuple[Question, Question]]) -> bool:
        """Whether the lines decide about one of these."""
        for one, questions in zip(self.lists, zip(*asked)):
            one.ask_all(questions)
        return any(
            all(number(one.verdict(question).deciding_line()) == number(line)
                for one, question, line in zip(self.lists, pair, about.lines))
            for pair in asked)

    def proposal(self, about: About) -> Proposal | None:
        """The line by which none of its topics has a new name, and each topic of the day keeps
        the one that it has; None where there is none."""
        wanted = self.span(about)
        if wanted is None or any(self.names[about.rule].matching(wanted, None)):
            return None
        text = f"none {text_of(wanted)}"
        return Proposal(text, about.rule) if is_line_of(text, wanted) else None

    def span(self, about: About) -> Levels | None:
        """A filter that matches all of its topics; None where that isn't known."""
        old, new = (None if wanted is None else opened(wanted) for wanted in filters_of(about))
        rule = None if about.rule is None else self.rules[about.rule]
        if rule is not None and new is not None:
            new = rule.back(new)
            if new is None:
                return None
        sides = [old, new, None if rule is None else rule.from_filter]
        wanted, *others = [one for one in sides if one is not None]
        for other in others:
            met = meet(wanted, other)
            if met is None:
                return None
            wanted = met
        return wanted


def line_or_none(rule: Rule | None) -> int | None:
    return None if rule is None else rule.line


def number(line: Line | None) -> int:
    return 0 if line is None else line.line


def filters_of(about: About) -> list[Levels | None]:
    """Those of the lines."""
    found = [None if line is None else line_of(line.line, line.text) for line in about.lines]
    return [None if one is None else one.wanted for one in found]


def is_line_of(text: str, wanted: Levels) -> bool:
    """Whether a plan reads the text as a rule about this filter."""
    try:
        rule = rule_of(1, text)
    except LineFault:
        return False
    return rule is not None and rule.right is None and rule.from_filter == wanted
