"""mqroute-plan: what it shows of a plan, a list and a script, and what it writes.

The programs are $MQROUTE and $MQROUTE_ACL_PROGRAM, or those that `make` builds; without them the
tests that run them are skipped.
"""
import json
import os
import random
import subprocess
import sys
import tempfile
import unittest
from pathlib import Path

from plan_names import NAMES, new_name, random_filter, random_plan
from worked import HERE, PROGRAM, TOP
from mqroute_tools.common.exit_status import Fault
from mqroute_tools.plan.asking import verdicts
from mqroute_tools.plan.filters import levels
from mqroute_tools.plan.list_lines import lines_of_list
from mqroute_tools.plan.topic_plan import plan_of
from mqroute_tools.plan.translator import Translator
from mqroute_tools.script.topics import matches

ACL_PROGRAM = Path(os.environ.get("MQROUTE_ACL_PROGRAM", TOP / "bin/mqroute-acl"))
HAS_PLAN = ACL_PROGRAM.exists() and b"--plan" in subprocess.run(
    [ACL_PROGRAM, "compare", "--help"], capture_output=True).stdout
wants_acl = unittest.skipUnless(HAS_PLAN, f"there is no {ACL_PROGRAM} with compare --plan")
wants_programs = unittest.skipUnless(HAS_PLAN and PROGRAM.exists(),
                                     f"there is no {PROGRAM}, or no {ACL_PROGRAM} with compare "
                                     "--plan")

PLAN = """\
# what is measured stands behind the hall; all of it below a site
plant/+hall/energy  -> site/a/+hall/meters/energy
plant/+hall/heat    -> site/a/+hall/meters/heat
plant/+hall/door    -> site/a/+hall/doors/state
keep plant/notice
# there is nothing else below plant, and nothing yet below site
none plant/#
none site/#
"""
LIST = """\
# anyone without a user name looks, and touches nothing
topic read plant/#

user ops
topic readwrite plant/#
topic write command/#

user finance
topic read plant/#

user meters
topic write plant/#

# each client reads what is sent to it by name
pattern read command/%c/#
"""
SCRIPT = """\
{"do":"connect","client":"dashboard","user":"ops"}
{"do":"connect","client":"billing","user":"finance"}
{"do":"connect","client":"wall-display"}
{"do":"connect","client":"meter-17","user":"meters"}
{"do":"connect","client":"meter-18","user":"meters"}
{"do":"subscribe","client":"dashboard","filter":"plant/#","qos":1}
{"do":"subscribe","client":"billing","filter":"plant/+/energy","qos":2}
{"do":"subscribe","client":"wall-display","filter":"plant/hall-1/#"}
{"do":"subscribe","client":"meter-17","filter":"command/meter-17/#","qos":1}
{"do":"publish","client":"meter-17","topic":"plant/hall-1/energy","payload":"412 kWh","qos":1}
{"do":"publish","client":"meter-18","topic":"plant/hall-2/energy","payload":"388 kWh","qos":1}
{"do":"publish","client":"meter-17","topic":"plant/hall-1/door","payload":"open"}
{"do":"publish","client":"dashboard","topic":"command/meter-17/reset","payload":"","qos":1}
{"do":"publish","client":"wall-display","topic":"command/meter-17/reset","payload":""}
"""
DOUBTS = """\
lab/+sample/result     -> lab/results
plant/+hall/door       -> site/+hall/doors/main
plant/+hall/door/+door -> site/+hall/doors/+door
plant/#                -> plant/old/#
plant/hall-1/heat      -> site/hall-1/heat
"""
OWN = """\
cmd/gateway/#        -> site/gateway/cmd/#
cmd/+device/#        -> site/devices/+device/cmd/#
plant/+meter/energy  -> site/meters/+meter/energy
none site/#
"""
OWN_LIST = """\
pattern read cmd/%c/#
pattern write plant/%c/energy
user ops
topic readwrite #
"""
CHECKED = """\
Topics of script.jsonl
line  rule                                               topics  publishes  first
   2  plant/+hall/energy  -> site/a/+hall/meters/energy       2          2  plant/hall-1/energy
   4  plant/+hall/door    -> site/a/+hall/doors/state         1          1  plant/hall-1/door
      keep their names                                        1          2  command/meter-17/reset
lines with no topic there: 3, 5, 7, 8

Subscriptions of script.jsonl: 4, of which 1 stay, 2 become one other that matches exactly what \
they did
line  subscriptions  clients  first line  first of them
                  1        1           8  plant/hall-1/#  -> site/a/hall-1/#
   2              1        1           7  plant/+/energy  -> site/a/+/meters/energy

To be looked at
was      becomes       clients  first line
plant/#  site/a/#            1           6  2 filters; 1 match no topic of the script
         plant/notice

Access list current.acl: 4 of 6 lines change; it allows the same under the new names
"""
NAMED = """\
plant/hall-1/door        site/a/hall-1/doors/state   plan:4  plant/+hall/door    -> \
site/a/+hall/doors/state
plant/+/energy           site/a/+/meters/energy
plant/#                  site/a/#                    2 filters
                         plant/notice
$share/g/plant/hall-1/+  $share/g/site/a/hall-1/+/+
site/x                   (none)                      plan:8  none site/#
"""
FAULTS = (
    ("plant/+a -> site/+b", "1: FROM has no +b"),
    ("# plant moves\nplant/+/+ -> site/+",
     "2: FROM has 2 + and TO has 1: name them, as in +hall"),
    ("a/+ -> x/#", "1: FROM has no #"),
    ("+a/+ -> x/+", "1: FROM has 1 + and TO has 1: name them, as in +hall"),
    ("v1/# -> #", "1: TO must begin with a level of its own"),
    ("\n\r\nplant/x ->",
     "3: TO is missing; for topics that go away write: none FROM"),
    ("-> b", "1: expected FROM -> TO, keep FROM or none FROM"),
    ("keep", "1: expected FROM -> TO, keep FROM or none FROM"),
    ("a->b", "1: expected FROM -> TO, keep FROM or none FROM"),
    (" keep a/#/b", '1: FROM has a level "#": it can\'t be a level of a topic filter '
                    'there'),
    ("a\"\t+ -> b", '1: FROM has a level "a\\"\\t+": it can\'t be a level of a topic '
                    'filter there'),
    ("none +a b", '1: FROM has a level "+a b": a name has letters, digits, - and _'),
    ("a -> %c/b", '1: TO has a level "%c": a plan has no %c and %u'),
    ("+a/+a -> x/+a", "1: +a stands more than once in FROM"),
    (f"a/{'x' * 301} -> b",
     "1: FROM has more than 200 levels, or a level of more than 300 bytes"),
    ("a -> b" + "/" * 200,
     "1: TO has more than 200 levels, or a level of more than 300 bytes"))
NO_FAULTS = ("", "# -> site/#", "#\t->  a/#", "#a -> +", " keep -> b\r", "a b -> c d",
             "a -> b -> c", "keep +/#", "none #", "+x/+y/# -> a/+y/+y", "a -> /b", "$a/# -> b/#")
LIST_FAULTS = (
    ("topc a", '1: unknown keyword "topc": expected topic, pattern or user'),
    ("\ntopic", "2: the topic is missing"), ("user", "1: the user name is missing"),
    ("topic reed a", '1: unknown access "reed": expected read, write, readwrite or deny'),
    ("topic a/#/b", '1: "a/#/b" is not a topic filter'),
    ("pattern read a%c/b", '1: %c and %u must be whole levels: "a%c/b"'))


class Case(unittest.TestCase):
    def setUp(self) -> None:
        folder = tempfile.TemporaryDirectory()
        self.addCleanup(folder.cleanup)
        self.folder = Path(folder.name)
        for name, text in (("plan", PLAN), ("current.acl", LIST), ("script.jsonl", SCRIPT)):
            self.write(name, text)

    def write(self, name: str, text: str) -> None:
        (self.folder / name).write_bytes(text.encode())

    def done(self, *words: object, tool: str = "plan.py") -> subprocess.CompletedProcess:
        return subprocess.run([sys.executable, HERE / tool, *map(str, words)], cwd=self.folder,
                              capture_output=True, encoding="utf-8")

    def shown(self, status: int, *words: object, tool: str = "plan.py") -> str:
        """What is shown, with nothing on standard error."""
        done = self.done(*words, tool=tool)
        self.assertEqual((done.stderr, done.returncode), ("", status))
        return done.stdout

    def written(self, name: str, *words: object) -> str:
        """What is said on standard error beside a file that is written."""
        done = subprocess.run([sys.executable, HERE / "plan.py", *map(str, words)],
                              cwd=self.folder, capture_output=True)
        said = done.stderr.decode()
        self.assertIn(done.returncode, (0, 1), said)
        (self.folder / name).write_bytes(done.stdout)
        self.assertEqual(done.returncode == 0,
                         "what to look at" not in said and ".acl:" not in said)
        return said

    def refused(self, said: str, *words: object, tool: str = "plan.py") -> None:
        done = self.done(*words, tool=tool)
        self.assertEqual((done.returncode, done.stdout), (2, ""))
        self.assertIn(said, done.stderr)
        self.assertNotIn("Traceback", done.stderr)

    def run_script(self, script: str, acl: str, output: str) -> None:
        done = subprocess.run([PROGRAM, "--acl-file", acl, script], cwd=self.folder,
                              capture_output=True)
        self.assertIn(done.returncode, (0, 1), done.stderr)
        (self.folder / output).write_bytes(done.stdout)

    def losses(self, status: int, *words: str) -> str:
        """After runs of both scripts."""
        return self.shown(status, "--plan", "plan", "--new", "new.jsonl", *words, "old.jsonl",
                          "before", "after", tool="who_loses.py")


class Reading(Case):
    def test_faults(self):
        for text, said in FAULTS:
            with self.subTest(text=text[:40]):
                with self.assertRaises(Fault) as raised:
                    plan_of(text, "bad")
                self.assertEqual(str(raised.exception), f"bad:{said}")
        for text in NO_FAULTS:
            plan_of(text)

    def test_faults_of_lists(self):
        for text, said in LIST_FAULTS:
            with self.assertRaises(Fault) as raised:
                list(lines_of_list(text, "bad"))
            self.assertEqual(str(raised.exception), f"bad:{said}")

    @wants_acl
    def test_as_the_program_reads(self):
        """The same words for each fault, and none where there is none."""
        self.write("list", "topic read a")
        for text in [*(text for text, _ in FAULTS), *NO_FAULTS]:
            self.write("bad", text)
            done = subprocess.run(
                [ACL_PROGRAM, "compare", "--rules=own", "list", "list", "--plan", "bad"],
                cwd=self.folder, capture_output=True, encoding="utf-8")
            with self.subTest(text=text[:40]):
                try:
                    plan_of(text, "bad")
                    self.assertIn(done.returncode, (0, 1), done.stderr)
                except Fault as fault:
                    self.assertEqual(done.stderr, f"{fault}\n")
        for text, said in LIST_FAULTS:
            self.write("bad", text)
            done = subprocess.run([ACL_PROGRAM, "lint", "--rules=own", "bad"], cwd=self.folder,
                                  capture_output=True, encoding="utf-8")
            self.assertIn(f"bad:{said}", done.stdout + done.stderr)

    def test_refusals(self):
        self.write("bad", "plant/+a -> site/+b\n")
        self.write("latin", "a")
        (self.folder / "latin").write_bytes(b"a -> b\n\xff\n")
        self.refused(": bad:1: FROM has no +b\n", "name", "bad", "a")
        self.refused(": latin:2: not UTF-8\n", "check", "latin")
        self.refused(": nowhere: No such file or directory\n", "check", "nowhere")
        self.refused(': "a/#/b" is neither a topic nor a filter\n', "name", "plan", "a/#/b")
        self.refused("current.acl", "script", "plan", "current.acl")
        self.write("current.acl", "tpic a")
        self.refused(": current.acl:1: unknown keyword", "acl", "plan", "current.acl")
        self.refused("--bridge, --no-bridge and --acl-file need --moved", "script", "plan",
                     "script.jsonl", "--no-bridge")
        self.refused("standard input can be read once", "compare", "-", "-", "script.jsonl")
        self.refused("--write-old script.jsonl: it would overwrite script.jsonl", "script", "plan",
                     "script.jsonl", "--old", "script.jsonl")
        self.refused("the following arguments are required: COMMAND")


class PlanAlone(Case):
    def test_doubts(self):
        self.write("plan", DOUBTS)
        self.assertEqual(self.shown(1, "check", "plan"), """\
plan:1: lab/x1/result and lab/x2/result both become lab/results
plan:3: plant/x1/door (line 2) and plant/x1/door/main both become site/x1/doors/main
plan:4: plant/door becomes plant/old/door, which line 2 takes for an old topic; the same with line 3
plan:5: never used: line 4 takes each topic that it matches
""")
        found = [json.loads(line) for line in self.shown(1, "check", "--json", "plan").splitlines()]
        self.assertEqual(found[3], {
            "kind": "remark", "file": "plan", "line": 5,
            "words": "never used: line 4 takes each topic that it matches"})

    def test_nothing_odd(self):
        self.assertEqual(self.shown(0, "check", "plan"), "")

    def test_topics(self):
        self.assertEqual(self.shown(0, "name", "plan", "plant/a/door", "else"), """\
plant/a/door  site/a/a/doors/state  plan:4  plant/+hall/door    -> site/a/+hall/doors/state
else          else                  no rule is about it
""")
        self.write("plan", "a/\x1b/# -> b/#\na/# -> b/#")
        self.assertIn('plan:2: a/\\u{1b} (line 1) and a ', self.shown(1, "check", "plan"))
        self.write("plan", "a/# -> b/#")
        self.assertEqual(self.shown(1, "name", "plan", "b/x"),
                         "b/x  (none)  the plan takes this name for its own\n")


@wants_acl
class Asked(Case):
    def test_name(self):
        self.assertEqual(self.shown(1, "name", "plan", "plant/hall-1/door", "plant/+/energy",
                                    "plant/#", "$share/g/plant/hall-1/+", "site/x"), NAMED)
        self.write("plan", DOUBTS)
        self.assertEqual(self.shown(1, "name", "plan", "plant/+/door/+", "a "), """\
plant/+/door/+  site/+/doors/+  more: site/x/doors/main, which was plant/x/door
"a "            "a "            no rule is about it
""")
        self.assertIn("not compared", self.shown(1, "name", "plan", "plant/+/%c"))

    def test_check(self):
        words = ["check", "plan", "--script", "script.jsonl", "--acl-file", "current.acl"]
        self.assertEqual(self.shown(1, *words), CHECKED)
        found = [json.loads(line) for line in self.shown(1, *words, "--json").splitlines()]
        self.assertIn({"kind": "topics", "rule": 2, "topics": 2, "publishes": 2,
                       "first": "plant/hall-1/energy"}, found)
        self.assertIn({"kind": "subscription", "was": "plant/#",
                       "becomes": ["site/a/#", "plant/notice"], "clients": ["dashboard"],
                       "line": 6, "words": "2 filters; 1 match no topic of the script",
                       "or": None}, found)
        self.assertEqual(found[-1], {"kind": "list", "file": "current.acl", "lines": 6,
                                     "changed": 4, "exact": True})

    def test_exact_list(self):
        self.assertEqual(self.written("new.acl", "acl", "plan", "current.acl"), "")
        text = (self.folder / "new.acl").read_text()
        self.assertEqual(text.splitlines()[:3], [LIST.splitlines()[0], "topic read site/a/#",
                                                 "topic read plant/notice"])
        done = subprocess.run([ACL_PROGRAM, "compare", "--rules=own", "current.acl", "new.acl",
                               "--plan", "plan"], cwd=self.folder, capture_output=True)
        self.assertEqual(done.returncode, 0)
        self.written("both.acl", "acl", "--both", "plan", "current.acl")
        self.assertIn("topic read plant/#\ntopic read site/a/#\ntopic read plant/notice\n\nuser",
                      (self.folder / "both.acl").read_text())

    def test_inexact_list(self):
        self.write("plan", OWN)
        self.write("old.acl", OWN_LIST + "topic write site/x\r\n")
        said = self.written("new.acl", "acl", "plan", "old.acl")
        self.assertEqual((self.folder / "new.acl").read_bytes(), b"""\
pattern read site/devices/%c/cmd/#
pattern write site/meters/%c/energy
user ops
topic readwrite #
# no new name: topic write site/x\r
""")
        self.assertEqual(said.splitlines(), [
            "old.acl:1: pattern read cmd/%c/#: by line 1 of the plan it is for the client id "
            "gateway alone: left out of this rule",
            "old.acl:1: pattern read cmd/%c/#: a client without a user name, client id gateway, "
            "may no longer read cmd/gateway -> site/gateway/cmd, and 1 more",
            "old.acl:5: topic write site/x: none of its topics has a new name: left out",
            "plan: the list isn't exact: mqroute-acl compare --plan shows all differences"])

    def test_marks_of_names_that_stay(self):
        """A line that stays is for the one user too; one that becomes another line isn't."""
        self.write("plan", "keep wu/weather/#\nwu/+site/level -> v2/+site/level\n")
        self.write("old.acl", "pattern read wu/%u/#\n")
        self.assertEqual(self.written("new.acl", "acl", "plan", "old.acl"), "")
        self.write("old.acl", "pattern read wu/%u/level\n")
        self.assertEqual(self.written("new.acl", "acl", "plan", "old.acl").splitlines()[:2], [
            "old.acl:1: pattern read wu/%u/level: by line 1 of the plan it is for the user name "
            "weather alone: left out of this rule",
            "old.acl:1: pattern read wu/%u/level: user weather may no longer read "
            "wu/weather/level"])

    def test_lists_of_a_script(self):
        self.write("plan", OWN)
        command = {"do": "acl", "text": OWN_LIST}
        self.write("script.jsonl", json.dumps(command) + '\n{"do":"acl","text":"tpic"}\nno\n\n')
        self.assertIn("script.jsonl:1: line 1 of the list: pattern read cmd/%c/#: by line 1",
                      self.shown(1, "check", "plan", "--script", "script.jsonl"))
        self.assertIn("shows what to look at",
                      self.written("new.jsonl", "script", "plan", "script.jsonl"))
        new = (self.folder / "new.jsonl").read_text().splitlines()
        self.assertEqual(json.loads(new[0])["text"].splitlines()[0],
                         "pattern read site/devices/%c/cmd/#")
        self.assertEqual(new[1:], ['{"do":"acl","text":"tpic"}', "no", ""])

    def test_what_filters_match(self):
        """What the program says of the proposals for random filters under random plans is what
        holds for all names of few levels."""
        asked = exact = 0
        for seed in range(40):
            chance = random.Random(seed)
            plan = random_plan(chance)
            translator = Translator(plan)
            olds = [levels(random_filter(chance)) for _ in range(6)]
            pairs = [((old,), translator.translation(old).new) for old in olds]
            try:
                said = verdicts(plan, pairs)
            except Fault as fault:  # a rule by which a name would be empty
                self.assertIn("or an empty one", str(fault))
                continue
            renamed = [(name, new) for name in NAMES
                       if (new := new_name(plan.text.split("\n"), name)) is not None]
            for (old, news), verdict in zip(pairs, said):
                asked += 1
                exact += verdict.is_exact
                with self.subTest(plan=plan.text, old=old, news=news):
                    self.assertIsNone(verdict.fewer)
                    self.assertEqual(verdict.more is None,
                                     translator.differs(old, news) is None)
                    more = [name for name, new in renamed
                            if not matches("/".join(old[0]), name)
                            and any(matches("/".join(one), new) for one in news)]
                    self.assertFalse(verdict.is_exact and more)
        self.assertGreater(asked, 150)
        self.assertGreater(exact, 50)


@wants_programs
class Run(Case):
    def test_both_scripts(self):
        self.written("new.acl", "acl", "plan", "current.acl")
        said = self.written("new.jsonl", "script", "--old", "old.jsonl", "plan", "script.jsonl")
        self.assertEqual(said, "plan: 14 lines, 1 of them became several lines or none; plan "
                               "check plan --script script.jsonl shows what to look at\n")
        self.assertEqual((self.folder / "new.jsonl").read_text().splitlines()[5:8], [
            '{"do":"subscribe","client":"dashboard","filter":"site/a/#","qos":1}',
            '{"do":"subscribe","client":"dashboard","filter":"plant/notice","qos":1}',
            '{"do":"subscribe","client":"billing","filter":"site/a/+/meters/energy","qos":2}'])
        self.assertEqual((self.folder / "old.jsonl").read_text().splitlines()[5:7],
                         [SCRIPT.splitlines()[5], ""])
        self.run_script("old.jsonl", "current.acl", "before")
        self.run_script("new.jsonl", "new.acl", "after")
        self.assertEqual(self.losses(0), "In all 8 copies before and 8 after: 0 lost, 0 gained, 0 "
                                         "changed. 1 line refused before, 1 after.\n")

    def test_what_has_no_new_name(self):
        """A publish whose topic has none becomes a blank line, and its copies are lost."""
        self.write("plan", PLAN.replace("plant/+hall/door    -> ", "none plant/+/door\n# "))
        self.assertIn("script.jsonl:12: plant/hall-1/door has no new name\n",
                      self.shown(1, "check", "plan", "--script", "script.jsonl"))
        self.written("new.jsonl", "script", "--old", "old.jsonl", "plan", "script.jsonl")
        self.write("all.acl", "pattern readwrite #")
        for script, output in (("old.jsonl", "before"), ("new.jsonl", "after")):
            self.run_script(script, "all.acl", output)
        self.assertEqual(self.losses(1).splitlines()[2:], [
            "dashboard     plant/hall-1/door       1      0     1       0        0",
            "wall-display  plant/hall-1/door       1      0     1       0        0", "",
            "In all 9 copies before and 7 after: 2 lost, 0 gained, 0 changed. 0 lines refused "
            "before, 0 after."])

    def test_a_chain_has_no_bridge(self):
        self.write("plan", DOUBTS)
        self.write("moved", "meter-*\n")
        self.refused(": plan:4: plant/door becomes plant/old/door, which line 2 takes for an old "
                     "topic: old and new names can't be in use at once\n", "script", "plan",
                     "script.jsonl", "--moved", "moved")

    def test_bridge(self):
        self.write("moved", "# these\nmeter-*\n")
        self.write("all.acl", "pattern readwrite #")
        said = self.written("new.jsonl", "script", "--moved", "moved", "--old", "old.jsonl",
                            "plan", "script.jsonl")
        self.assertIn(": 14 lines, 0 of them became several lines or none, 10 of the bridge; ",
                      said)
        lines = (self.folder / "new.jsonl").read_text().splitlines()
        self.assertEqual(lines[0], '{"do":"connect","client":"plan-bridge"}')
        self.assertIn('{"do":"publish","client":"plan-bridge","topic":"plant/hall-1/energy",'
                      '"payload":"412 kWh","qos":1}', lines)
        for script, output in (("old.jsonl", "before"), ("new.jsonl", "after")):
            self.run_script(script, "all.acl", output)
        self.assertEqual(self.losses(0), "In all 9 copies before and 9 after: 0 lost, 0 gained, 0 "
                                         "changed. 0 lines refused before, 0 after.\n")
        self.refused('a client "meter-17" of its own', "script", "--moved", "moved", "--bridge",
                     "meter-17", "plan", "script.jsonl")

    def test_compare(self):
        self.written("new.jsonl", "script", "plan", "script.jsonl")
        words = ["compare", "plan", "script.jsonl"]
        self.assertEqual(self.shown(0, *words, "new.jsonl"),
                         "each client subscribes to what it did\n")
        new = (self.folder / "new.jsonl").read_text()
        self.write("new.jsonl", new.replace("+/meters/energy", "hall-1/#").replace(
            '"plant/notice","qos":1', '"plant/notice"'))
        self.assertEqual(self.shown(1, *words, "new.jsonl"), """\
dashboard  QoS 1  no longer subscribes to  plant/notice
billing           no longer subscribes to  site/a/x/meters/energy     which was plant/x/energy
billing           subscribes now to        site/a/hall-1/meters/heat  which was plant/hall-1/heat
3 differences
""")
        self.write("new.jsonl", new.replace("+/meters/energy", "%c/meters/energy"))
        self.assertIn("billing  not compared: ", self.shown(1, *words, "new.jsonl"))


class LossesRefused(Case):
    def test_usage(self):
        words = ["script.jsonl", "before", "after"]
        for said, options in (("--plan and --new-script go together", ["--plan", "plan"]),
                              ("--by can't be used with --plan",
                               ["--plan", "plan", "--new", "new", "--by", "user"])):
            self.refused(said, *options, *words, tool="who_loses.py")
        self.write("new.jsonl", SCRIPT + "\n")
        for name in ("before", "after"):
            self.write(name, "")
        options = ["--plan", "plan", "--new", "new.jsonl"]
        self.refused("script.jsonl has 14 lines and new.jsonl has 15", *options, *words,
                     tool="who_loses.py")
        self.write("new.jsonl", SCRIPT)
        self.refused("script.jsonl:1: not answered in before", *options, *words,
                     tool="who_loses.py")


if __name__ == "__main__":
    unittest.main()
