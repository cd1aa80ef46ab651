"""mqroute-plan on a plant (examples/topic-plan), from the first draft of its plan to the day on
which all clients use the new names, and on a recorded log.

The numbers are those of a study by another implementation of plans, of access lists and of routing.
Only a filter that another one covers was among its filters, and isn't here.
"""
import json
import subprocess
import sys
import tempfile
import unittest
from pathlib import Path

from test_plan import ACL_PROGRAM, wants_acl, wants_programs
from worked import HERE, PROGRAM, TOP
from mqroute_tools.plan.list_translation import translated
from mqroute_tools.plan.topic_plan import read_plan, read_text
from mqroute_tools.plan.translator import Translator
from mqroute_tools.script.topics import matches

PLANT, RECORDED = TOP / "examples/topic-plan", TOP / "brokers/recorded"
DRAFT_1 = """\
draft-1:8: plant/x1/door (line 7) and plant/x1/door/main both become acme/a/x1/doors/main/state
draft-1:16: line 8 matches plant/x/door/order too, and decides; the same with line 10
draft-1:18: plant/hall-1/line1/oven/temp (line 13) and hall-1/oven/temp both become \
acme/a/hall-1/lines/line1/oven/process/temp
draft-1:19: plant/hall-1/line1/oven/state (line 12) and hall-1/oven/state both become \
acme/a/hall-1/lines/line1/oven/state; the same with lines 13, 14, 15, 18
draft-1:22: agv/x1/pos (line 21) and agv/x1/position both become acme/a/logistics/agv/x1/position
draft-1:24: lab/x1/result and lab/x2/result both become acme/a/lab/results
draft-1:27: plant/cmd/energy (line 3) and cmd/meters/energy both become acme/a/cmd/meters/energy; \
the same with lines 4, 5, 7, 8, 10, 12, 13, 14, 15, 16
draft-1:29: never used: line 7 takes each topic that it matches
"""
DRAFT_2 = """\
draft-2:12: plant/x1/door (line 11) and plant/x1/door/front both become \
acme/a/x1/doors/front/state
draft-2:20: line 12 matches plant/x/door/order too, and decides; the same with line 14
draft-2:29: plant/lab/alarm/result (line 14) and lab/alarms/result both become \
acme/a/lab/alarms/result
"""
ODD = """\
To be looked at
was             becomes                                clients  first line
plant/+/+/+/+   acme/a/halls/+/lines/+/+/+                   2         158  3 filters
                acme/a/halls/+/lines/+/+/process/temp
                acme/a/halls/+/lines/+/+/kpi/count
                or acme/a/halls/+/lines/+/+/+/#                             more: topics of line 18
plant/+/door/+  acme/a/halls/+/doors/+/state                 1         224  alone it would match \
more, its clients have that by other subscriptions
"""
EXACT = ("In all 7324 copies before and 7324 after: 0 lost, 0 gained, 0 changed. 6 lines refused "
         "before, 6 after.\n")
BY_HAND = """\
Copies
client  topic           before  after  lost  gained  changed
mailer  acme/a/halls/#      37      0    37       0        0

In all 7324 copies before and 7287 after: 37 lost, 0 gained, 0 changed. 6 lines refused before, 6 \
after.
"""
BRIDGED = """\
Copies
client   topic     before  after  lost  gained  changed
archive  acme/a/#     911   1822     0     911        0

In all 7324 copies before and 8235 after: 0 lost, 911 gained, 0 changed. 6 lines refused before, 6 \
after.
"""
UNBRIDGED = ("In all 7324 copies before and 4083 after: 3241 lost, 0 gained, 0 changed, 57 another "
             "member's turn. 6 lines refused before, 6 after.")
TOMORROW = "".join(
    f"tablet-{tablet}  no longer subscribes to  acme/a/halls/hall-{hall}/meters/energy  which was "
    f"plant/hall-{hall}/energy\n" for tablet, hall in enumerate((2, 3, 4, 1, 2), 1))
OF_THE_BRIDGE = "\nuser bridge\ntopic readwrite #\n"
SPLIT = """\
# halls are places of a site; doors are no measurement
plant/+hall/energy  -> site/a/+hall/meters/energy
plant/+hall/heat    -> site/a/+hall/meters/heat
plant/+hall/door    -> site/a/doors/+hall
plant/#             -> site/a/other/#
"""
WHOLE = """\
# halls keep their subtree
plant/+hall/energy  -> site/a/+hall/meters/energy
plant/+hall/heat    -> site/a/+hall/meters/heat
plant/#             -> site/a/#
alarm/+where/#      -> site/alarms/+where/#
"""


class Folder(unittest.TestCase):
    """A folder for all tests of a class, with the plant's files."""

    @classmethod
    def setUpClass(cls) -> None:
        folder = tempfile.TemporaryDirectory()
        cls.addClassCleanup(folder.cleanup)
        cls.folder = Path(folder.name)
        for file in PLANT.iterdir():
            (cls.folder / file.name).write_bytes(file.read_bytes())

    @classmethod
    def done(cls, *words: object, tool: str = "plan.py") -> subprocess.CompletedProcess:
        done = subprocess.run([sys.executable, HERE / tool, *map(str, words)], cwd=cls.folder,
                              capture_output=True, encoding="utf-8")
        assert done.returncode in (0, 1), done.stderr
        return done

    @classmethod
    def written(cls, name: str, *words: object) -> str:
        done = cls.done(*words)
        (cls.folder / name).write_text(done.stdout, encoding="utf-8")
        return done.stderr

    def losses(self, before: str, after: str, *words: str, plan: str = "plan") -> str:
        """After runs of old.jsonl and new.jsonl under these lists."""
        for script, acl, output in (("old.jsonl", before, "before"), ("new.jsonl", after, "after")):
            done = subprocess.run([PROGRAM, "--acl-file", acl, script], cwd=self.folder,
                                  capture_output=True)
            (self.folder / output).write_bytes(done.stdout)
        return self.done("--plan", plan, "--new", "new.jsonl", *words, "old.jsonl", "before",
                         "after", tool="who_loses.py").stdout


class Drafts(Folder):
    def test_drafts(self):
        self.assertEqual(self.done("check", "draft-1").stdout, DRAFT_1)
        self.assertEqual(self.done("check", "draft-2").stdout, DRAFT_2)

    @wants_acl
    def test_layout(self):
        """Halls side by side with what is no hall: 11 filters in the place of one."""
        found = self.done("name", "draft-2", "plant/#").stdout.splitlines()
        self.assertEqual(len(found), 12)
        self.assertTrue(found[0].endswith("  more: acme/a/hall-1/lines/line1/oven/process/temp, "
                                          "which was hall-1/oven/temp; 11 filters"))
        self.assertEqual(found[-3:], [
            "         acme/a/+/lines/+/order", "         acme/a/notice",
            "         or acme/a/+/#                    more: topics of lines 22, 23, 25, 26, 27, "
            "29, 30, 32, 33"])
        self.assertEqual(self.done("name", "plan", "plant/#").stdout, "plant/#  acme/a/halls/#\n")

    @wants_acl
    def test_what_none_takes(self):
        """`#` covers its parent, and so all alarms were gone."""
        found = self.done("check", "draft-3", "--script", "day.jsonl").stdout
        self.assertEqual(found.splitlines()[:3], [
            "draft-3:11: never used: line 5 takes each topic that it matches",
            "draft-3:12: never used: line 4 takes each topic that it matches",
            "draft-3:24: agv/x1/pos (line 23) and agv/x1/position both become "
            "acme/a/agv/x1/position"])
        self.assertIn("\nday.jsonl:244: plant/hall-1/alarm/fire has no new name\n", found)


@wants_programs
class Plant(Folder):
    @classmethod
    def setUpClass(cls) -> None:
        super().setUpClass()
        cls.said = cls.written("new.acl", "acl", "plan", "current.acl")
        cls.both = translated(Translator(read_plan(str(PLANT / "plan"))),
                              read_text(str(PLANT / "current.acl")), "current.acl", both=True)

    def test_list(self):
        """It is exact, and all but the lines with filters stays."""
        self.assertEqual(self.said, "")
        old, new = ((self.folder / name).read_text("utf-8").splitlines()
                    for name in ("current.acl", "new.acl"))
        others = [[line for line in lines if not line.startswith(("topic", "pattern"))]
                  for lines in (old, new)]
        self.assertEqual(*others)
        self.assertIn("topic write acme/a/halls/+/lines/+/order", new)
        self.assertIn("pattern deny acme/a/cmd/%c/firmware", new)

    def test_by_hand(self):
        """A day shows one slip of the list that was translated by hand. There are more."""
        done = subprocess.run(
            [ACL_PROGRAM, "compare", "--rules=own", "--json", "--plan", "plan", "current.acl",
             "by-hand.acl"], cwd=self.folder, capture_output=True, encoding="utf-8")
        found = [json.loads(line) for line in done.stdout.splitlines()]
        rows = {(one["change"], one["access"], one["topic"], json.dumps([one["old"], one["new"]]))
                for one in found}
        self.assertEqual((len(rows), len(found)), (22, 39))  # one row is of 18 kinds of clients
        self.assertEqual({(one["user"], one["access"]) for one in found if one["change"] == "lost"},
                         {("erp", "write"), ("plc", "read"), ("mailer", "read")})

    def test_check(self):
        found = self.done("check", "plan", "--script", "day.jsonl").stdout
        self.assertEqual(found.split("\n\n")[0], "plan:14: line 12 matches plant/x/door/order too, "
                                                 "and decides; the same with line 13")
        self.assertIn("\nlines with no topic there: 3, 4, 5, 6, 32\n\n"
                      "Subscriptions of day.jsonl: 88, of which 3 stay, "
                      "83 become one other that matches exactly what they did\n",
                      found)
        self.assertTrue(found.endswith("\n\n" + ODD))

    def test_at_once(self):
        said = self.written("new.jsonl", "script", "--old", "old.jsonl", "plan", "day.jsonl")
        self.assertIn(": 1134 lines, 2 of them became several lines or none; ", said)
        self.assertEqual(self.losses("current.acl", "new.acl"), EXACT)
        self.assertEqual(self.losses("current.acl", "by-hand.acl", "--depth", "3"), BY_HAND)
        self.tomorrow()

    def tomorrow(self) -> None:
        """Five tablets forget a level."""
        words = ["compare", "plan", "day.jsonl"]
        done = self.done(*words, "new.jsonl")
        self.assertEqual((done.returncode, done.stdout),
                         (0, "each client subscribes to what it did\n"))
        lines = (self.folder / "new.jsonl").read_text("utf-8").splitlines(keepends=True)
        lines = [line.replace("halls/hall", "hall") if '"client":"tablet' in line
                 and "subscribe" in line else line for line in lines]
        (self.folder / "tomorrow.jsonl").write_text("".join(lines), "utf-8")
        done = self.done(*words, "tomorrow.jsonl")
        self.assertEqual((done.returncode, done.stdout), (1, TOMORROW + "5 differences\n"))

    def test_step_by_step(self):
        """Meters, machines and dashboards first: nobody loses anything, and who subscribes to all
        gets all twice. Without a bridge nearly half is lost."""
        (self.folder / "both.acl").write_text(self.both.text + OF_THE_BRIDGE, "utf-8")
        words = ["script", "--moved", "moved", "--old", "old.jsonl", "plan", "day.jsonl"]
        self.written("new.jsonl", *words, "--bridge", "plan-bridge:bridge", "--acl-file",
                     "both.acl")
        self.assertEqual(self.losses("current.acl", "both.acl", "--depth", "2"), BRIDGED)
        self.written("new.jsonl", *words, "--no-bridge")
        found = self.losses("current.acl", "both.acl", "--depth", "2")
        self.assertEqual(found.splitlines()[-1], UNBRIDGED)


@wants_programs
class Recorded(Folder):
    """What is lost of a recorded log is lost by what the tool named before."""

    def move(self, plan: str) -> tuple[list[dict], dict]:
        """What is to be looked at of the script under the plan, and what who-loses shows."""
        (self.folder / "split").write_text(plan, "utf-8")
        script, acl = RECORDED / "plain.jsonl", RECORDED / "plain.acl"
        self.assertEqual(self.written("new.acl", "acl", "split", acl), "")
        self.written("new.jsonl", "script", "--old", "old.jsonl", "split", script)
        named = self.done("check", "split", "--script", script, "--json").stdout
        found = json.loads(self.losses(str(acl), "new.acl", "--json", plan="split"))
        return [json.loads(line) for line in named.splitlines()], found

    def test_split(self):
        named, found = self.move(SPLIT)
        shared = [(one["clients"], one["filter"]) for one in named
                  if one["kind"] == "remark" and "filter" in one]
        totals = found["totals"]
        self.assertEqual((totals["before"], totals["lost"], totals["gained"], totals["changed"]),
                         (763, 8, 0, 0))
        self.assertEqual(found["refused"], [])
        for row in found["copies"]:
            with self.subTest(row=row):
                self.assertTrue(any(row["client"] in clients and matches(wanted, row["topic"])
                                    for clients, wanted in shared))

    def test_whole(self):
        named, found = self.move(WHOLE)
        self.assertFalse([one for one in named if "filter" in one])
        self.assertEqual((found["totals"]["before"], found["copies"], found["refused"]),
                         (763, [], []))


if __name__ == "__main__":
    unittest.main()
