"""The regions of a plan: the names to which one rule gives new ones, or that keep theirs."""
from dataclasses import dataclass

from .filters import Levels, begins_with_dollar
from .rules import Rule
from .topic_plan import Plan
from .walk import DOLLAR, PLAIN, Rows, allowing, denying, start_of


@dataclass(frozen=True)
class Region:
    """The names that a rule is about, or where it is None those that keep their names and begin
    with `$` or don't; without those that the rows of `out` match."""
    rule: Rule | None
    start: str
    out: Rows

    def has(self, wanted: Levels) -> bool:
        """Whether the filter may match a name here that keeps its name."""
        return begins_with_dollar(wanted) == (self.start == DOLLAR)

    def old(self, filters: tuple[Levels, ...]) -> Rows:
        """What old filters match here."""
        if self.rule is None:
            return allowing(filter(self.has, filters))
        met = map(self.rule.within, filters)
        return allowing(wanted for wanted in met if wanted is not None)

    def new(self, filters: tuple[Levels, ...]) -> Rows:
        """What new filters match here, by its old names."""
        if self.rule is None:
            return allowing(filter(self.has, filters))
        met = map(self.rule.back, filters)
        return allowing(wanted for wanted in met if wanted is not None)


def regions(plan: Plan) -> list[Region]:
    """Each name that has a new one is in exactly one of these."""
    found = []
    for place, rule in enumerate(plan.rules):
        if rule.right is None:
            continue
        before = (rule.within(other.from_filter) for other in plan.rules[:place])
        out = [wanted for wanted in before if wanted is not None] + rule.without()
        found.append(Region(rule, start_of(rule.from_filter), denying(dict.fromkeys(out))))
    taken = [rule.from_filter for rule in plan.rules] + plan.reserved
    for start in (PLAIN, DOLLAR):
        out = [wanted for wanted in taken if start_of(wanted) == start]
        found.append(Region(None, start, denying(dict.fromkeys(out))))
    return found


def fresh(base: str, named: set[str]) -> str:
    """A level that isn't named."""
    text = base
    while text in named:
        text += "x"
    return text


def others_than(named: set[str]) -> tuple[str, str]:
    """Two levels that aren't named; the second one begins with `$`."""
    return fresh("x", named), fresh("$x", named)
