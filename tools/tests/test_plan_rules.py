"""Filters, rules and plans beside all names of few levels."""
import itertools
import random
import unittest
from functools import lru_cache

from plan_names import LEVELS, NAMES, new_name, random_filter, random_plan, random_rule
from mqroute_tools.common.exit_status import Fault
from mqroute_tools.plan.filters import covers, is_filter, join, levels, meet, text_of
from mqroute_tools.plan.meetings import collisions
from mqroute_tools.plan.remarks import chained, crossing, never_used
from mqroute_tools.plan.rules import Rule
from mqroute_tools.plan.topic_plan import Plan, plan_of
from mqroute_tools.plan.translator import Translator
from mqroute_tools.script.topics import matches

ODD_PLANS = ("a/# -> /#", "+p/# -> /#\na/# -> b/#", "# -> /#", "a/b -> a\na/# -> /#")
SPLIT = {name: levels(name) for name in NAMES}


@lru_cache(None)
def matched(wanted: tuple[str, ...] | None) -> frozenset[str]:
    """The names that a filter matches."""
    return frozenset() if wanted is None else frozenset(
        name for name in NAMES if matches(text_of(wanted), name))


class Filters(unittest.TestCase):
    def test_pairs(self):
        """`meet`, `covers` and `join` of all pairs of small filters."""
        parts = itertools.chain.from_iterable(
            itertools.product([*LEVELS, "+", "#"], repeat=count) for count in (1, 2))
        small = [wanted for wanted in parts if is_filter(wanted)]
        small += [("a", "+", "b"), ("a", "+", "#"), ("+", "b", "#"), ("", "+", "#"), ("+", "", "a")]
        sets = {wanted: matched(wanted) for wanted in small}
        for one, other in itertools.product(small, repeat=2):
            with self.subTest(one=one, other=other):
                self.assertEqual(matched(meet(one, other)), sets[one] & sets[other])
                self.assertEqual(covers(one, other), sets[other] <= sets[one])
                joined = join(one, other)
                if joined is not None:
                    self.assertLessEqual(sets[one] | sets[other], matched(joined))


def rules(chance: random.Random, count: int) -> list[Rule]:
    found: list[Rule] = []
    while len(found) < count:
        try:
            found += plan_of(random_rule(chance)).rules
        except Fault:
            pass
    return found


class OneRule(unittest.TestCase):
    def test_a_capture_used_twice(self):
        """And levels that the right side drops, and names that would be empty."""
        levels_of = itertools.product(["a", "b", "+"], ["a", "b", "+"], ["a", "b", "+", "#"])
        for text in ("+p/a -> a/+p/+p", "+p/+q -> a/+q/+p", "b/+p/# -> a/+p/+p/#", "a/# -> /#",
                     "+p/# -> /#", "a/+p/# -> b/+p"):
            [rule] = plan_of(text).rules
            for wanted in ["/#", "/+/#", "#", *map("/".join, levels_of)]:
                with self.subTest(rule=rule.text, wanted=wanted):
                    self.look_at(rule, wanted)

    def test_filters(self):
        """`within`, `back` and `forth` beside the names one by one."""
        chance = random.Random(7)
        for rule in rules(chance, 500):
            wanted = random_filter(chance)
            with self.subTest(rule=rule.text, wanted=wanted):
                if rule.right is not None:
                    self.look_at(rule, wanted)

    def look_at(self, rule: Rule, wanted: str) -> None:
        parts = levels(wanted)
        within, back, forth = (matched(rule.within(parts)), matched(rule.back(parts)),
                               rule.forth(parts))
        about = [name for name in NAMES if rule.matches(SPLIT[name])]
        self.assertLessEqual(within | back, set(about))
        for name in about:
            new = rule.new_name(SPLIT[name])
            self.assertEqual(name in within, matches(wanted, name))
            if new is None:
                continue
            self.assertEqual(name in back, matches(wanted, text_of(new)))
            if matches(wanted, name):
                self.assertTrue(forth is not None and matches(text_of(forth), text_of(new)))


class Plans(unittest.TestCase):
    def test_random_ones(self):
        """New names, remarks and translations of random plans beside the names one by one."""
        exact = several = wider = falling = 0
        for seed in range(200):
            chance = random.Random(seed)
            plan = plan_of(ODD_PLANS[seed]) if seed < len(ODD_PLANS) else random_plan(chance)
            with self.subTest(plan=plan.text):
                renamed = self.names_of(plan)
                falling += self.remarks_on(plan, renamed)
                translator = Translator(plan)
                for wanted in ["/#", "+/b", *(random_filter(chance) for _ in range(3))]:
                    made, more = self.translation(translator, wanted, renamed)
                    exact += made == 1 and not more
                    several += made > 1
                    wider += more
        self.assertGreater(min(exact, several, wider, falling), 50)

    def names_of(self, plan: Plan) -> list[tuple[str, str]]:
        found = []
        for name in NAMES:
            new = plan.new_name(SPLIT[name])
            wanted = new_name(plan.text.split("\n"), name)
            self.assertEqual(None if new is None else text_of(new), wanted, name)
            found += [] if wanted is None else [(name, wanted)]
        return found

    def remarks_on(self, plan: Plan, renamed: list[tuple[str, str]]) -> bool:
        """A topic that falls together with another one is shown, a rule that is used isn't said
        never to be, and what is shown of two rules is so."""
        pairs = [{one.line, other.line} for one, other, _, _ in collisions(plan)]
        first: dict[str, str] = {}
        for name, new in renamed:
            other = first.setdefault(new, name)
            by = [plan.rule_for(SPLIT[one]) for one in (name, other)]
            if other != name and None not in by:
                self.assertIn({rule.line for rule in by if rule}, pairs, (name, other))
        idle = {rule.line for rule, _ in never_used(plan)}
        used = {rule.line for name in NAMES if (rule := plan.rule_for(SPLIT[name]))}
        self.assertFalse(idle & used)
        for pair in crossing(plan):
            self.assertLess(pair.other.line, pair.rule.line)
        for pair in chained(plan):
            self.assertTrue(pair.rule.moves and pair.other.moves)
        for one, other, names, new in collisions(plan):
            self.assertNotEqual(*names)
            self.assertEqual([plan.new_name(name) for name in names], [new, new])
        return bool(pairs)

    def translation(self, translator: Translator, wanted: str,
                    renamed: list[tuple[str, str]]) -> tuple[int, bool]:
        """How many filters there are, and whether they match more: never fewer. None covers
        another one."""
        filters = translator.translation(levels(wanted)).new
        new = list(map(text_of, filters))
        self.assertFalse(any(itertools.starmap(covers, itertools.permutations(filters, 2))), new)
        more = False
        for name, is_now in renamed:
            found = any(matches(one, is_now) for one in new)
            self.assertTrue(found or not matches(wanted, name), (wanted, new, name))
            more |= found and not matches(wanted, name)
        witness = translator.differs((levels(wanted),), tuple(map(levels, new)))
        if witness is None:
            self.assertFalse(more, (wanted, new))
        else:
            is_now = text_of(translator.plan.new_name(witness) or ())
            self.assertTrue(any(matches(one, is_now) for one in new), (wanted, new, witness))
            self.assertFalse(matches(wanted, text_of(witness)), (wanted, new, witness))
        return len(new), witness is not None


if __name__ == "__main__":
    unittest.main()
