"""What a right is shown to be of: in words, and on random lists beside a test of every topic of few
levels."""
import itertools
import random
import sys
import unittest
from collections import Counter

from test_preview import Case, text_of, wants_programs
from two_runs import connect, publish
from worked import TOP
from mqroute_tools.preview.acl_answers import Lists
from mqroute_tools.preview.findings import LOST, Client, Right
from mqroute_tools.preview.scopes import Scopes
from mqroute_tools.script.topics import matches

sys.path.insert(0, str(TOP / "tests"))
from plain_lists import MosquittoRules, OwnRules, allowed, rows_of  # noqa: E402

LEVELS = ("a", "b", "$s", "$SYS", "u1", "c1")
TOPICS = ["/".join(parts) for count in (1, 2, 3)
          for parts in itertools.product((*LEVELS, "x"), repeat=count)]
NAMES = ("zz", "a", "b", "c1", "x")  # that other clients and users have, where no line names them
RULES = {"own": OwnRules, "mosquitto": MosquittoRules}
PAIRS = 25  # of lists, by each rules


def random_list(chance: random.Random) -> str:
    lines = []
    for _ in range(chance.randint(1, 6)):
        if chance.random() < 0.3:
            lines.append("user " + chance.choice(("u1", "u2")))
        kind = chance.choice(("topic", "topic", "pattern"))
        parts = [chance.choice((*LEVELS, "+", "+", *(("%c", "%u") if kind == "pattern" else ())))
                 for _ in range(chance.randint(1, 3))]
        parts[-1] = "#" if chance.random() < 0.5 else parts[-1]
        access = chance.choice(("read", "write", "readwrite", "readwrite", "deny"))
        lines.append(f"{kind} {access} {'/'.join(parts)}")
    return "\n".join(lines) + "\n"


class Model:
    """Both lists, read plainly."""

    def __init__(self, rules: str, old: str, new: str) -> None:
        self.rules, self.old, self.new = RULES[rules], rows_of(old), rows_of(new)
        rows = [*self.old, *self.new]
        self.named = {row.user for row in rows} | {
            level for row in rows for level in row.filter.split("/")}

    def changes(self, right: Right, client: str, user: str | None, topic: str) -> bool:
        was, is_now = (allowed(self.rules, rows, client, user, topic, right.access)
                       for rows in (self.old, self.new))
        return (was, is_now) == ((True, False) if right.change == LOST else (False, True))

    def clients(self, one: Client) -> list[tuple[str, str | None]]:
        """Whom such a client stands for."""
        names = [name for name in NAMES if name not in self.named]
        ids = {one.client, *(names if one.client in one.placeholders else ())}
        users = {one.user, *(names if one.is_any_user() else ())}
        return list(itertools.product(sorted(ids), sorted(users, key=str)))


def filled(text: str, client: str, user: str | None) -> str:
    return text.replace("%c", client).replace("%u", user or "%u")


@wants_programs
class RandomLists(Case):
    def setUp(self) -> None:
        super().setUp()
        self.chance, self.rows, self.narrow = random.Random(82), 0, 0

    def test_all_outside_of_what_narrows_it(self):
        """Of the whole filter, but for what is named, the right changes, for all whom it is of; the
        topic of the day is one of it."""
        for rules, number in itertools.product(RULES, range(PAIRS)):
            old, new = random_list(self.chance), random_list(self.chance)
            self.write("old.acl", old)
            self.write("new.acl", new)
            lists = Lists(str(self.folder / "old.acl"), str(self.folder / "new.acl"), rules)
            with self.subTest(rules=rules, number=number, old=old, new=new):
                self.judge(lists, Model(rules, old, new))
        self.assertGreater(self.rows, 4 * PAIRS)
        self.assertGreater(self.narrow, PAIRS // 4)

    def judge(self, lists: Lists, model: Model) -> None:
        published = Counter({topic: self.chance.randint(1, 9)
                             for topic in self.chance.sample(TOPICS, 40)})
        scopes = Scopes(lists, published)
        rights = lists.rights()
        for right in rights:
            right.scope = scopes.scope(right)
        scopes.exemplify(rights)
        for right in rights:
            scope = right.scope
            self.rows += 1
            self.narrow += bool(scope.but_for)
            pairs = [pair for one in right.clients for pair in model.clients(one)]
            if not scope.in_part:
                self.whole(right, model, pairs)
            if scope.published:
                self.assertEqual(scope.published, published[scope.topic])
                for one in right.clients:
                    self.assertTrue(model.changes(right, one.client, one.user, scope.topic))

    def whole(self, right: Right, model: Model, pairs: list[tuple[str, str | None]]) -> None:
        for client, user in pairs:
            wanted, *others = (filled(text, client, user)
                               for text in (right.scope.filter, *right.scope.but_for))
            for topic in TOPICS:
                if matches(wanted, topic) and not any(matches(one, topic) for one in others):
                    self.assertTrue(model.changes(right, client, user, topic),
                                    (right, client, user, topic))


@wants_programs
class Words(Case):
    DAY = [connect("s", "scada"), *[publish("s", "werk/pm1/order/1")] * 3,
           *[publish("s", "werk/pm1/a/b/cmd")] * 5, publish("s", "werk"),
           *[publish("s", "other/x")] * 4]
    OLD = "user scada\ntopic readwrite werk/#\n"

    def rows(self, new: str, old: str = OLD, day: list[dict] = DAY) -> list[str]:
        for name, text in (("old.acl", old), ("new.acl", new), ("script", text_of(day))):
            self.write(name, text)
        done = self.shown("--rules", "mosquitto", "--html", "page.html", "old.acl", "new.acl",
                          "script")
        self.assertNotIn("Traceback", done.stderr)
        return [line.strip() for line in done.stdout.splitlines() if line.startswith("    may ")]

    def test_a_topic_of_the_day(self):
        """The most published of those that the row is about, which is outside what narrows it."""
        new = "user scada\ntopic read werk/#\ntopic write werk/+/+/+/cmd\n"
        self.assertEqual(self.rows(new), ["may no longer write  werk/#, but for werk/+/+/+/cmd  "
                                          "such as werk/pm1/order/1 (3 publishes)"])
        page = (self.folder / "page.html").read_text("utf-8")
        self.assertIn("<code><bdi>werk/#</bdi></code>, but for <code><bdi>werk/+/+/+/cmd</bdi>"
                      "</code><div class='such-as'>such as <code><bdi>werk/pm1/order/1</bdi></code>"
                      " (3\u00a0publishes)</div>", page)
        [right] = self.found("--rules", "mosquitto", "old.acl", "new.acl", "script")["taken"]
        self.assertEqual({name: right[name] for name in
                          ("filter", "but_for", "in_part", "such_as", "publishes")},
                         {"filter": "werk/#", "but_for": ["werk/+/+/+/cmd"], "in_part": False,
                          "such_as": {"topic": "werk/pm1/order/1", "publishes": 3},
                          "publishes": 4})

    def test_what_is_no_topic_name(self):
        """mqroute refuses such a publish, and mqroute-acl takes no such topic: nothing is asked
        about it, however often it is published."""
        for day in ([*self.DAY, publish("s", "werk/+"), publish("s", "werk/\ud800")],
                    [*self.DAY, *[publish("s", "werk/+"), publish("s", "werk/\ud800")] * 9]):
            self.assertEqual(self.rows("user scada\ntopic read werk/#\n", day=day), [
                "may no longer write  werk/#  such as werk/pm1/a/b/cmd (5 publishes)"])
        [right] = self.found("--rules", "mosquitto", "old.acl", "new.acl", "script")["taken"]
        self.assertEqual(right["publishes"], 9)

    def test_no_topic_of_the_day(self):
        """The shortest below the filter: the level above a `#` only where nothing else is left."""
        for grant, words in (("", "werk/#  such as werk/<level>"),
                             ("topic write werk/+", "werk/#, but for werk/+  such as "
                              "werk/<level>/<level>"),
                             ("topic write werk/+/#", "werk/#, but for werk/+/#  such as werk"),
                             ("topic write werk/pm1\ntopic write werk/pm1/#", "werk/#, but for "
                              "werk/pm1/#  such as werk/<level>")):
            with self.subTest(grant=grant):
                new = f"user scada\ntopic read werk/#\n{grant}\n"
                rows = self.rows(new, day=self.DAY[:1])
                self.assertEqual(rows, [f"may no longer write  {words}"])

    def test_a_line_that_denies(self):
        """What both filters match; with marks it isn't known in a filter's words."""
        new = self.OLD + "topic deny werk/+/order/#\n"
        such_as = "werk/+/order/#  such as werk/pm1/order/1 (3 publishes)"
        self.assertEqual(self.rows(new), [f"may no longer read  {such_as}",
                                          f"may no longer write  {such_as}"])
        old, denied = "pattern read werk/#\n", "pattern deny werk/%c/#\n"
        self.assertEqual(self.rows(old + denied, old), [
            "may no longer read  some of werk/#  such as werk/<client id>"])

    def test_no_wildcard(self):
        self.assertEqual(self.rows(self.OLD + "topic write other/x\n"),
                         ["may now write  other/x"])

    def test_several_narrow_it_otherwise(self):
        """Where it isn't the same for all of a row, nothing is said of the whole filter; of many
        filters the first are shown."""
        old = "user a\ntopic read x/+\nuser b\npattern read werk/#\n"
        new = "user a\ntopic read x/+\nuser b\ntopic read werk/b/#\n"
        self.assertIn("may no longer read  some of werk/#  such as werk/pm1/a/b/cmd (5 publishes)",
                      self.rows(new, old))
        grants = "".join(f"topic write werk/{name}\n" for name in "abcde")
        [row] = self.rows(f"user scada\ntopic read werk/#\n{grants}")
        self.assertTrue(row.startswith("may no longer write  werk/#, but for werk/a, werk/b, "
                                       "werk/c and 2 more  such as"), row)

    def test_in_order(self):
        """By publishes, then by how much a filter matches."""
        names = ("a/b", "c/+", "d/#", "other/#")
        new = self.OLD + "".join(f"topic write {name}\n" for name in names)
        self.assertEqual([row.split("  ")[1] for row in self.rows(new)],
                         ["other/#", "d/#", "c/+", "a/b"])

    def test_a_list_that_is_read_otherwise(self):
        """With a tab in a line our own rules read another filter than mosquitto: then a row has the
        topic that `compare` shows."""
        new = self.OLD + "topic read\ta/#\n"
        self.assertIn('may now write  "read\\ta/#"',
                      [row.partition("  such as")[0] for row in self.rows(new)])
        done = self.shown("--rules", "own", "old.acl", "new.acl", "script")
        self.assertIn("    may now read  for example a\n", done.stdout)

    def test_topics_of_the_broker(self):
        """Of what mosquitto refuses by itself a filter's words would say too much."""
        self.assertEqual(self.rows(self.OLD + "topic read $SYS/#\n"),
                         ["may now read  some of $SYS/#  such as $SYS/<level>"])


if __name__ == "__main__":
    unittest.main()
