"""The words of a preview and its rows of topics, of findings that are made here."""
import os
import re
import shlex
import shutil
import subprocess
import unittest
import unittest.mock

import worked  # noqa: F401  it knows where the tools are
from mqroute_tools.common.terminal import (
    GREEN, PLAIN, RED, YELLOW, Terminal, standard_output)
from mqroute_tools.losses.findings import Place, Totals
from mqroute_tools.preview.findings import (
    Cause, Client, Deciding, Preview, Right, Subscription, UserRow)
from mqroute_tools.preview.gathered_topics import Topics, gathered
from mqroute_tools.preview.text_report import report
from mqroute_tools.preview.verdict import verdict
from mqroute_tools.preview.why_command import quoted
from mqroute_tools.preview.words import concerned, share, summary
from mqroute_tools.script.access_list import Line


class Topic(unittest.TestCase):
    def test_gathered(self):
        """As far as it takes to have few rows; each topic is counted once."""
        meters = {f"plant/hall-{n % 4}/energy/m-{n}": 2 for n in range(24)}
        self.assertEqual([(row.filter, row.topics, row.messages) for row in gathered(meters)],
                         [("plant/+/energy/+", 24, 48)])
        self.assertEqual([(row.filter, row.topics, row.messages) for row in gathered(
                              {name: n for name, n in meters.items() if "hall-3" not in name})],
                         [(f"plant/hall-{n}/energy/+", 6, 12) for n in range(3)])
        presses = {f"plant/hall-{n % 4}/press-{n}/count": 1 for n in range(12)}
        vary_together = {f"plant/hall-{n}/agv/agv-{n}/{what}": 3 for n in range(4)
                         for what in ("pos", "battery")}
        self.assertEqual([(row.filter, row.topics) for row in
                          gathered({**meters, **presses, **vary_together})],
                         [("plant/+/energy/+", 24), ("plant/+/+/count", 12),
                          ("plant/+/agv/+/battery", 4), ("plant/+/agv/+/pos", 4)])

    def test_what_stays(self):
        """Levels that say what it is, and no more rows than it takes."""
        for levels, wanted in (
                (("site", 5, "line", 5, ("state", "temp", "speed", "count")),
                 [f"+/+/{name}" for name in ("count", "speed", "state", "temp")]),
                (("h", 3, "p", 9, ("state",)), [f"h-{n}/+/state" for n in range(3)]),
                (("plant", 1, "p", 5, ("a", "b", "c", "d")),
                 [f"plant-0/+/{name}" for name in "abcd"])):
            first, firsts, second, seconds, names = levels
            topics = {f"{first}-{a}/{second}-{b}/{name}": 1 for a in range(firsts)
                      for b in range(seconds) for name in names}
            self.assertEqual([row.filter for row in gathered(topics)], wanted)
        self.assertEqual([row.filter for row in gathered({f"x/{n}": 1 for n in range(5)})],
                         ["x/+"])

    def test_not_gathered(self):
        for topics in ({}, {"a": 1}, {f"x/{n}": 1 for n in range(3)},
                       {f"$x{n}": 1 for n in range(9)},  # `+` matches no `$` there
                       {"/".join(map(str, range(n, n + 20))): 1 for n in range(9)}):
            self.assertEqual({row.filter for row in gathered(topics)}, set(topics))


class Words(unittest.TestCase):
    def preview(self, **more) -> Preview:
        fields = {"users": [], "refused": [], "granted": [], "taken": [], "subscriptions": [],
                  "remarks": [], "copies": Totals(0, 0, 0, 0, 0, 0, 0)}
        return Preview("old.acl", "new.acl", ["day.log"], "own", None, **fields | more)

    def test_shares(self):
        for part, whole, words in ((0, 5, "0 %"), (1, 1000, "under 1 %"), (2, 3, "67 %"),
                                   (999, 1000, "over 99 %"), (5, 5, "100 %")):
            self.assertEqual(share(part, whole), words)

    def test_one_of_each(self):
        one = Subscription(1, "c", None, "x")
        right = Right("gained", "read", "x", Deciding(None, None), [Client(None, "c", [])])
        found = self.preview(
            users=[UserRow("u", 1, 1, 1, 1, 1)], granted=[right], subscriptions=[one],
            copies=Totals(1, 1, 1, 1, 0, 0, 0))
        self.assertEqual(summary(found), "1 user loses 1 of 1 message, 1 gains; 1 right granted, 0 "
                         "taken away; 1 subscription can receive nothing any more")
        self.assertEqual(" ".join(f"{one.strong} {one.rest}".strip() for one in verdict(found)),
                         "u would lose all of what it gets now and gain 1 message. 1 new right "
                         "would be granted. 1 subscription would get nothing any more.")
        self.assertEqual([one.rest for one in verdict(self.preview())],
                         ["Nothing would change for anybody."])

    def test_nearly_everybody(self):
        """All but few, in place of many names."""
        known = [f"user-{n}" for n in range(9)]

        def words(count: int, *others: Client) -> str:
            clients = [Client(user, "c", []) for user in known[:count]]
            return concerned(Right("gained", "read", "x", Deciding(None, None),
                                   [*others, *clients], known=known))
        any_user, nameless = Client("any", "c", ["any"]), Client(None, "c", [])
        self.assertEqual(words(8, nameless, any_user), "everybody but user-8")
        self.assertEqual(words(7, any_user), "all users but user-7, user-8")
        self.assertEqual(words(9, nameless, any_user), "everybody")
        self.assertEqual(words(9), "users user-0, user-1, user-2, user-3 and 5 more")
        self.assertEqual(words(5, any_user),
                         "users user-0, user-1, user-2, user-3 and 1 more; other users")

    def test_new_rights_to_write_come_first(self):
        """By the filter of the line that grants, and as a warning."""
        def right(user: str | None, text: str) -> Right:
            return Right("gained", "write", "x", Deciding(None, Line("new.acl", 1, text)),
                         [Client(user, "id", ["id"])])
        rights = [right("valmet", "topic write pm2/+/cmd"), right("b", "topic a b/#"),
                  right(None, "pattern readwrite %c/#"), right("d", "topic x")]
        found = self.preview(users=[UserRow("u", 1, 1, 1, 1)], granted=rights)
        said = [(one.strong, one.rest, one.is_loss) for one in verdict(found)]
        self.assertEqual(said[:4], [
            ("user valmet", "may newly write topics of pm2/+/cmd.", True),
            ("user b", "may newly write topics of a b/#.", True),
            ("Clients without a user name", "may newly write topics of %c/#.", True),
            ("", "So may others, by 1 more right.", True)])
        self.assertEqual(said[-1][1], "4 new rights would be granted.")
        painted = report(found, Terminal(60, True))
        self.assertIn(f"{YELLOW}    may now write", painted)

    def test_without_a_user_name(self):
        found = self.preview(users=[UserRow(None, 2, 4, 3, 1)])
        [said] = verdict(found)
        self.assertEqual(f"{said.strong} {said.rest}", "Clients without a user name would lose "
                         "25 % of what they get.")
        self.assertIn("  clients without a user name lose 1 of 4 (25 %)\n",
                      report(found, Terminal()))

    def test_on_a_terminal(self):
        """As wide as it is, with colours; names have none of their own."""
        names = [Client(f"user-{n}", "c", []) for n in range(9)]
        right = Right("gained", "read", "plant/hall/press/temperature",
                      Deciding(None, Line("new.acl", 3, "topic read plant/+/+/temperature")), names)
        cause = Cause("lost", 3, "may no longer read", None, [Place(7, "\33[31mc", "x", 0)])
        row = UserRow("\33[31mu", 1, 9, 6, 3, topics_lost=[Topics("a/+", 3, 3)], causes=[cause])
        found = self.preview(users=[row], granted=[right])
        plain = report(found, Terminal(60))
        self.assertLessEqual(max(map(len, plain.splitlines()[:-1])), 60)
        self.assertIn("  users user-0, user-1, user-2, user-3 and 5 more\n    may now read  "
                      "for example plant/hall/press/temperature\n", plain)
        self.assertNotIn("\33", plain)
        painted = report(found, Terminal(60, True))
        self.assertIn(f'{RED}  "\\u{{1b}}[31mu" loses 3 of 9 (33 %){PLAIN}\n', painted)
        self.assertIn(f"{GREEN}    may now read  for example plant/hall/press/temperature{PLAIN}\n",
                      painted)
        self.assertEqual(re.sub("\33\\[\\d+m", "", painted), plain)

    def test_where_there_are_colours(self):
        for is_terminal, around, colours in (
                (False, {}, False), (True, {"TERM": "xterm"}, True),
                (True, {"NO_COLOR": "1"}, False), (True, {"TERM": "dumb"}, False)):
            with (unittest.mock.patch.dict(os.environ, around | {"COLUMNS": "70"}, clear=True),
                  unittest.mock.patch("sys.stdout.isatty", lambda: is_terminal)):
                out = standard_output()
            self.assertEqual((out.width, out.has_colours), (70 if is_terminal else None, colours))

    @unittest.skipUnless(shutil.which("bash"), "there is no bash")
    def test_quoted(self):
        for word in ("a", "a b", "it's", "\33[31m", "a\u202eb'\\", "zähler (1)"):
            done = subprocess.run(["bash", "-c", f"printf %s {quoted(word)}"], capture_output=True)
            self.assertEqual(done.stdout.decode("utf-8"), word)
            self.assertTrue(quoted(word).isprintable())
        self.assertEqual(shlex.split(quoted("it's")), ["it's"])


if __name__ == "__main__":
    unittest.main()
