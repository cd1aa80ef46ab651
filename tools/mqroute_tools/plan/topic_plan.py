"""A plan: its rules, and the new names of topics."""
from collections.abc import Iterable

from ..common.exit_status import Fault
from ..common.files import at, decoded, open_input
from .filters import HASH, Levels, matches
from .plan_lines import LineFault, rule_of
from .rules import Rule


class Plan:
    """The rules in their order; the first that is about a name decides about it."""

    def __init__(self, name: str, text: str, rules: Iterable[Rule]) -> None:
        self.name, self.text, self.rules = name, text, list(rules)
        found = [rule.to_filter for rule in self.rules if rule.right is not None]
        self.reserved = list(dict.fromkeys(found))

    def rule_for(self, name: Levels) -> Rule | None:
        """The rule that decides about a name."""
        return next((rule for rule in self.rules if rule.matches(name)), None)

    def new_name(self, name: Levels) -> Levels | None:
        """The new name of a topic, or None. One that no rule is about keeps its name, unless the
        plan takes that for its own."""
        rule = self.rule_for(name)
        if rule is not None:
            return rule.new_name(name)
        return None if self.is_reserved(name) else name

    def is_reserved(self, name: Levels) -> bool:
        return any(matches(wanted, name) for wanted in self.reserved)

    def before(self, rule: Rule) -> list[Rule]:
        """The rules that take names from a rule, or might."""
        return self.rules[:self.rules.index(rule)]

    def literals(self) -> set[str]:
        """The levels that its sides name."""
        return {item for rule in self.rules for side in (rule.left, rule.right or ())
                for item in side if isinstance(item, str) and item != HASH}


def plan_of(text: str, name: str = "plan") -> Plan:
    """The plan with this text. Raises Fault at its first faulty line."""
    rules = []
    for number, line in enumerate(text.split("\n"), 1):
        try:
            rule = rule_of(number, line)
        except LineFault as fault:
            raise Fault(f"{at(name, number)}: {fault}") from fault
        rules += [] if rule is None else [rule]
    return Plan(name, text, rules)


def read_plan(name: str) -> Plan:
    return plan_of(read_text(name), name)


def read_text(name: str) -> str:
    """A plan or an access list."""
    with open_input(name) as stream:
        return decoded(stream.read(), name)
