"""Differences of lists on names that no topic of a day has: behind the others, each with the `none`
line by which it is gone."""
import html
import itertools
import json
import random
import re
import unittest

from plan_names import LEVELS, NAMES, new_name, random_filter, random_plan
from test_plan import Case as PlanCase, OWN, OWN_LIST, wants_acl, wants_programs
from test_preview import CURRENT, Case as PreviewCase, text_of
from test_preview_plan import PLAN, PROPOSED, SCRIPT, TRANSLATED
from two_runs import publish, subscribe
from mqroute_tools.common.exit_status import Fault
from mqroute_tools.plain.access_lists import rows_of
from mqroute_tools.plan.asking import Difference, differences
from mqroute_tools.plan.filters import levels
from mqroute_tools.plan.list_differences import ListText, Note, about_of, judged
from mqroute_tools.plan.lists_report import Day, names_of
from mqroute_tools.plan.topic_plan import Plan, plan_of
from mqroute_tools.plan.unused import Proposal

OLD = """\
user u
topic read a/x/#
topic read a/#
"""
CHECKED = """\
Access list new.acl in place of old.acl: it allows something else under the new names
old.acl:4: topic read plant/#: user dash may no longer read plant/x/energy -> site/x/meters/energy
old.acl:6: topic read plant/+/energy: user hq may no longer read plant/x/energy -> \
site/x/meters/energy
new.acl:9: topic write site/#: user plc may now write plant/x/energy -> site/x/meters/energy

On names that no topic of script has
new.acl:6: topic read site/+/meter/energy: user hq may now read site/x/meter/energy
    if nobody uses them: none site/+/meter/energy (at the end)
new.acl:9: topic write site/#: user plc may now write site
    if nobody uses them: none site/# (at the end)
"""


class Found(unittest.TestCase):
    def notes(self, plan: str, old: str, new: str, *names: str) -> list[Note]:
        made, first, second = plan_of(plan), ListText("old", old), ListText("new", new)
        return judged(made, first, second, None,
                      names_of(Day("day", list(names)), made, first, second))

    def rows(self, plan: str, old: str, new: str, *names: str) -> list[tuple]:
        """Of each note the line, whether it is unused, and what is proposed."""
        return [(note.line, note.unused, [one.in_words() for one in note.proposals])
                for note in self.notes(plan, old, new, *names)]

    def gone(self, plan: str, old: str, new: str, *names: str) -> None:
        """With the proposed lines in the plan nothing unused is left, and the rest as it was."""
        notes = self.notes(plan, old, new, *names)
        lines = plan.splitlines()
        for one in sorted({one for note in notes for one in note.proposals},
                          key=lambda one: -(one.before or len(lines) + 1)):
            lines.insert((one.before or len(lines) + 1) - 1, one.text)
        after = self.notes("\n".join(lines), old, new, *names)
        self.assertEqual([note.words for note in after],
                         [note.words for note in notes if not note.unused])
        self.assertLess(len(after), len(notes))


@wants_acl
class Proposals(Found):
    def test_by_a_rule(self):
        """The line stands before the rule that decides."""
        plan = "keep z\na/+h/door -> b/+h/state\n"
        old, new = "topic read a/+/door\n", "topic read z\n"
        self.assertEqual(self.rows(plan, old, new), [
            (1, True, ["none z (before line 1)"]), (1, True, ["none a/+/door (before line 2)"])])
        self.gone(plan, old, new)
        self.assertEqual(self.rows(plan, old, new, "a/1/door", "z"),
                         [(1, False, []), (1, False, [])])

    def test_a_narrow_line(self):
        """What the line of the list has of the rule, and goes back through it."""
        plan, new = "a/+x/+y -> b/+y/+x\n", "topic read b/door/+\n"
        self.assertEqual(self.rows(plan, "", new, "a/door/1"),
                         [(1, True, ["none a/+/door (before line 1)"])])
        self.gone(plan, "", new, "a/door/1")

    def test_no_rule(self):
        self.assertEqual(self.rows("a/# -> b/#\n", "topic read c/#\n", "", "a/1"),
                         [(1, True, ["none c/# (at the end)"])])
        self.gone("a/# -> b/#\n", "topic read c/#\n", "", "a/1")
        self.assertEqual(self.rows("a/# -> b/#\n", "topic read c/#\n", "", "c/1"), [(1, False, [])])

    def test_a_topic_without_a_new_name(self):
        """It is of no difference, and the line takes nothing from it."""
        self.assertEqual(self.rows("none a/x\na/# -> b/#\n", "topic read a/#\n", "", "a/x"),
                         [(1, True, ["none a/# (before line 2)"])])

    def test_other_lines_decide(self):
        """A line matches a topic of the day, and another one before it decides: no `none` line
        leaves that topic its name."""
        new = "user u\ntopic read b/x/#\n"
        self.assertEqual(self.rows("a/# -> b/#\n", OLD, new, "a/x/1"), [(3, True, [])])
        self.assertEqual(self.rows("a/# -> b/#\n", OLD, new, "a/x/1", "a/y"), [(3, False, [])])
        self.assertEqual(self.rows("a/# -> b/#\n", OLD, new), [
            (3, True, ["none a/# (before line 1)"])])

    def test_marks(self):
        """A client of the day may have the id: that isn't looked at, and so not said."""
        old = "pattern read a/%c/state\n"
        self.assertEqual(self.rows("a/# -> b/#\n", old, "", "a/1/state"), [(1, False, [])])
        self.assertEqual(self.rows("a/# -> b/#\n", old, "", "a/1/door"),
                         [(1, True, ["none a/+/state (before line 1)"])])

    def test_names_that_stand_for_others(self):
        """A topic of the day has the client id that mqroute-acl takes for any."""
        old = "topic read a/#\npattern deny a/%c\n"
        self.assertEqual(self.rows("a/# -> b/#\n", old, "", "a/client"), [(1, False, [])])

    def test_odd_names(self):
        """What is no topic is none of the day's."""
        self.assertEqual(self.rows("a/# -> b/#\n", "topic read a/#\n", "", "a/+", "", "a/\ud800"),
                         [(1, True, ["none a/# (before line 1)"])])


class Decided:
    """Which line of a list decides, by the plain reader's rows."""

    def __init__(self, text: str) -> None:
        numbers = [number for number, line in enumerate(text.split("\n"), 1)
                   if line.startswith(("topic", "pattern"))]
        self.rows = list(zip(numbers, rows_of(text), strict=True))

    def line(self, client: str, user: str | None, topic: str, access: str) -> tuple[bool, int]:
        found = [(number, row) for number, row in self.rows
                 if row.applies(user) and row.covers(client, user, topic)]
        for number, row in found:
            if row.is_deny:
                return False, number
        return next(((True, number) for number, row in found if access in row.grants), (False, 0))


def random_list(chance: random.Random) -> str:
    lines = []
    for user in ("", "user u\n"):
        access = ("read", "write", "readwrite", "deny")
        lines += [user] + [f"topic {chance.choice(access)} {random_filter(chance)}\n"
                           for _ in range(chance.randint(0, 3))]
    if chance.random() < 0.4:
        lines.append(f"pattern {chance.choice(('read', 'deny'))} {chance.choice('ab')}/%c\n")
    return "".join(lines)


@wants_acl
class AtRandom(Found):
    USERS = {None: [None], "u": ["u"], "user": ["other", "a"]}  # by how a difference names them

    def test_beside_every_topic_of_a_day(self):
        """What is said to be unused is so for each client that there may be; and with the proposed
        lines it is gone, and each topic of the day has its new name."""
        unused = proposed = 0
        for seed in range(60):
            chance = random.Random(seed)
            plan, old = random_plan(chance), random_list(chance)
            new = random_list(chance)
            day = chance.sample([name for name in NAMES if name.count("/") < 3], 12)
            try:
                found = differences(plan, old, new)
            except Fault as fault:  # a rule by which a name would be empty
                self.assertIn("or an empty one", str(fault))
                continue
            names = names_of(Day("day", day), plan, ListText("old", old), ListText("new", new))
            for one in found:
                about = about_of(one, ListText("old", old), ListText("new", new))
                if not names.is_unused(about):
                    continue
                unused += 1
                with self.subTest(plan=plan.text, old=old, new=new, one=one):
                    self.assertEqual(self.falling_under(one, plan, (old, new), day), [])
                    line = names.proposal(about)
                    proposed += line is not None
                    self.assert_gone(plan, (old, new), day, one, line)
        self.assertGreater(unused, 150)
        self.assertGreater(proposed, 100)

    def falling_under(self, one: Difference, plan: Plan, lists: tuple[str, str],
                      day: list[str]) -> list[tuple]:
        """The topics of the day about which the same lines decide, with a client each."""
        sides = [Decided(text) for text in lists]
        ids = [*LEVELS, "x", "any"] if one.client in one.placeholders else [one.client]
        wanted = [(number or 0) for number in (one.old, one.new)]
        found = []
        for topic, client, user in itertools.product(day, filter(None, ids), self.USERS[one.user]):
            rule, new = plan.rule_for(levels(topic)), new_name(plan.text.split("\n"), topic)
            if new is None or (rule and rule.line) != one.rule:
                continue
            said = [side.line(client, user, name, one.access)
                    for side, name in zip(sides, (topic, new))]
            if [number for _, number in said] == wanted and said[0][0] != said[1][0]:
                found.append((topic, client, user))
        return found

    def assert_gone(self, plan: Plan, lists: tuple[str, str], day: list[str], one: Difference,
                    line: Proposal | None) -> None:
        if line is None:
            return
        lines = plan.text.split("\n")
        place = (line.before or len(lines) + 1) - 1
        after = plan_of("\n".join([*lines[:place], line.text, *lines[place:]]))
        for topic in day:
            self.assertEqual(after.new_name(levels(topic)), plan.new_name(levels(topic)), line)
        shifted = {number: number + (number > place) for number in range(len(lines) + 2)}
        rule = one.rule and shifted[one.rule]
        left = [other for other in differences(after, *lists) if (
            other.old, other.new, other.access, other.user, other.rule) == (
            one.old, one.new, one.access, one.user, rule)]
        self.assertEqual(left, [], line)


@wants_programs
class Check(PlanCase):
    LISTS = ("--acl-file", "old.acl", "--new-acl-file", "new.acl")
    WORDS = ("check", "plan", "--script", "script", *LISTS)

    def setUp(self) -> None:
        super().setUp()
        for name, text in (("plan", PLAN), ("old.acl", CURRENT), ("new.acl", PROPOSED),
                           ("script", text_of(SCRIPT))):
            self.write(name, text)

    def test_text(self):
        found = self.shown(1, *self.WORDS)
        self.assertTrue(found.endswith(f"\n\n{CHECKED}"), found)

    def test_json(self):
        found = [json.loads(line) for line in self.shown(1, *self.WORDS, "--json").splitlines()]
        unused = {one["words"].split(":")[0]: one["none"] for one in found if one.get("unused")}
        self.assertEqual(unused, {
            "topic read site/+/meter/energy": [{"line": "none site/+/meter/energy",
                                                "before": None}],
            "topic write site/#": [{"line": "none site/#", "before": None}]})
        self.assertIn({"kind": "list", "file": "new.acl", "in_place_of": "old.acl", "lines": 5,
                       "exact": False}, found)

    def test_without_a_script(self):
        """Nothing is known of a day, and all stand together."""
        found = self.shown(1, "check", "plan", *self.LISTS)
        self.assertNotIn("none site/#", found)
        self.assertIn("\nnew.acl:6: topic read site/+/meter/energy: user hq may now read", found)

    def test_the_translated_list(self):
        """Its differences too: here of a line that is for one client alone."""
        self.write("plan", OWN)
        self.write("old.acl", OWN_LIST)
        found = self.shown(1, "check", "plan", "--script", "script", "--acl-file", "old.acl")
        self.assertIn("""
On names that no topic of script has
old.acl:1: pattern read cmd/%c/#: a client without a user name, client id gateway, may no longer \
read cmd/gateway -> site/gateway/cmd, and 1 more
    if nobody uses them: none cmd/gateway/# (before line 1)
""", found)
        self.write("script", text_of([*SCRIPT, publish("plc-1", "cmd/gateway/x")]))
        found = self.shown(1, "check", "plan", "--script", "script", "--acl-file", "old.acl")
        self.assertNotIn("On names that", found)

    def test_a_list_that_allows_the_same(self):
        self.write("new.acl", TRANSLATED)
        found = self.shown(1, *self.WORDS)  # for the topic that has no new name
        self.assertTrue(found.endswith("Access list new.acl in place of old.acl: it allows the "
                                       "same under the new names\n"))

    def test_usage(self):
        self.refused("--new-acl-file needs --acl-file", "check", "plan", *self.LISTS[2:])
        self.write("new.acl", "topc a\n")
        self.refused('new.acl:1: unknown keyword "topc"', *self.WORDS)


@wants_programs
class Preview(PreviewCase):
    WORDS = ("old.acl", "new.acl", "script", "--plan", "plan", "--rules", "own")

    def setUp(self) -> None:
        super().setUp()
        self.write("plan", PLAN)
        self.write("new.acl", PROPOSED)
        self.write("script", text_of(SCRIPT))

    def test_text(self):
        """Behind those of the day, in paragraphs of their own."""
        done = self.shown(*self.WORDS)
        sections = {part.split("\n")[0]: part for part in done.stdout.split("\n\n")}
        titles = [title for title in sections if "llowed" in title]
        self.assertEqual(titles, [
            "Newly allowed, whether or not anybody tried",
            "No longer allowed, whether or not anybody tried",
            "Newly allowed, on names that no topic of the script has"])
        self.assertNotIn("nobody uses", sections[titles[0]] + sections[titles[1]])
        self.assertEqual(sections[titles[2]].split("\n")[1:], [
            "  user hq",
            "    may now read  for example site/<level>/meter/energy",
            "      old.acl    no line allows it",
            "      new.acl:6  topic read site/+/meter/energy",
            "      plan       no line is about it",
            "      if nobody uses them, the plan can say so: none site/+/meter/energy "
            "(at the end)",
            "  user plc",
            "    may now write  for example site",
            "      old.acl    no line allows it",
            "      new.acl:9  topic write site/#",
            "      plan       no line is about it",
            "      if nobody uses them, the plan can say so: none site/# (at the end)"])

    def test_json(self):
        found = self.found(*self.WORDS)
        lines = [{"line": f"none {wanted}", "before": None}
                 for wanted in ("site/+/meter/energy", "site/#")]
        self.assertEqual([(one["unused"], one["none"]) for one in found["granted"]],
                         [(False, None), *((True, line) for line in lines)])
        self.assertEqual([(one["unused"], one["none"]) for one in found["taken"]],
                         [(False, None)] * 2)

    def test_the_lines_in_the_plan(self):
        """They are gone, and the others stay."""
        before = self.found(*self.WORDS)
        lines = [one["none"]["line"] for one in before["granted"] if one["none"]]
        self.write("plan", PLAN + "".join(line + "\n" for line in lines))
        after = self.found(*self.WORDS)
        self.assertEqual((len(after["granted"]), after["taken"]), (1, before["taken"]))
        self.assertEqual(after["granted"][0], before["granted"][0])
        self.assertEqual(after["users"], before["users"])

    def test_subscribed_to_by_name(self):
        """Somebody has such a name, though nobody published to it that day."""
        self.write("script", text_of([*SCRIPT, subscribe("hq-1", "$share/g/site/h1/meter/energy")]))
        found = self.found(*self.WORDS)
        self.assertEqual([one["unused"] for one in found["granted"]], [False] * 3)
        self.write("script", text_of([*SCRIPT, subscribe("hq-1", "site/+/meter/energy")]))
        found = self.found(*self.WORDS)
        self.assertEqual([one["unused"] for one in found["granted"]], [False, True, True])

    def test_page(self):
        self.shown(*self.WORDS, "--html", "page")
        page = (self.folder / "page").read_text("utf-8")
        text = html.unescape(re.sub(r"<[^>]*>", "", page))
        self.assertEqual(text.count("on names that no topic of the script has"), 2)
        self.assertIn("if nobody uses them, the plan can say so: none site/+/meter/energy (at the "
                      "end)", text)


if __name__ == "__main__":
    unittest.main()
