"""What a proposed list and a topic plan would change together: beside mqroute-plan,
mqroute-who-loses and mqroute-acl."""
import html
import json
import re
import shlex
import subprocess
import sys
import unittest

from test_preview import CURRENT, SHORT_DAY, Case, text_of, wants_programs
from two_runs import connect, publish, subscribe
from worked import HERE, PROGRAM

PLAN = """\
# halls are places of a site
plant/+hall/energy -> site/+hall/meters/energy
plant/+hall/state  -> site/+hall/machines/state
none plant/#
"""
TRANSLATED = """\
user meter
topic write site/+/meters/energy
user dash
topic read site/+/meters/energy
topic read site/+/machines/state
user hq
topic read site/+/meters/energy
user plc
topic write site/+/machines/state
"""
# dash loses what meters say, plc may write it, and what hq reads is written wrong
PROPOSED = (TRANSLATED.replace("topic read site/+/meters/energy\n", "", 1)
            .replace("user hq\ntopic read site/+/meters", "user hq\ntopic read site/+/meter")
            + "topic write site/#\n")
SCRIPT = [*SHORT_DAY, publish("plc-1", "plant/h1/count")]  # publishes in lines 7 to 10
TOP_OF_TEXT = """\
new.acl in place of old.acl, topics renamed by plan, tried on script: 4 clients, 4 publishes; \
by mqroute's own rules

Who loses, who gains, of the messages delivered
  hq loses all 2
      plant/h1/energy -> site/h1/meters/energy, plant/h2/energy -> site/h2/meters/energy
    2 lost: may no longer read
        old.acl:6  topic read plant/+/energy
        new.acl    no line allows it
        mqroute-why --acl-file new.acl --rules own kept/new.jsonl 8 hq-1
  dash loses 2 of 3 (67 %)
      plant/h1/energy -> site/h1/meters/energy, plant/h2/energy -> site/h2/meters/energy
    2 lost: may no longer read
        old.acl:4  topic read plant/#
        new.acl    no line allows it
        mqroute-why --acl-file new.acl --rules own kept/new.jsonl 8 dash-1
"""
CARRIED = """\
What the plan can't carry over as it is
  script:10  plant/h1/count has no new name
  script:5  plant/#
      -> site/+/meters/energy, site/+/machines/state
      2 filters
"""


@wants_programs
class Renamed(Case):
    WORDS = ("old.acl", "new.acl", "script", "--plan", "plan", "--rules", "own")

    def setUp(self) -> None:
        super().setUp()
        self.write("plan", PLAN)
        self.write("new.acl", PROPOSED)
        self.write("script", text_of(SCRIPT))

    def tool(self, name: str, *words: str) -> subprocess.CompletedProcess:
        return subprocess.run([sys.executable, HERE / f"{name}.py", *words], cwd=self.folder,
                              capture_output=True, encoding="utf-8")

    def test_text(self):
        done = self.shown(*self.WORDS, "--keep", "kept")
        self.assertEqual((done.returncode, done.stderr), (1, ""))
        self.assertEqual(done.stdout[:len(TOP_OF_TEXT)], TOP_OF_TEXT)
        self.assertIn(f"\n\n{CARRIED}\n", done.stdout)
        self.assertIn("\n\nSubscriptions that can receive nothing any more\n"
                      "  script:5  dash-1  user dash  plant/# -> site/+/meters/energy\n"
                      "  script:6  hq-1  user hq  plant/+/energy -> site/+/meters/energy\n\n",
                      done.stdout)
        self.assertEqual(
            done.stdout.splitlines()[-1], "2 users lose 4 of 5 messages, 0 gain; 3 rights granted, "
            "2 taken away; 2 subscriptions can receive nothing any more")
        commands = re.findall(r"mqroute-why (.*)", done.stdout)
        self.assertEqual(len(commands), 2)
        for command in commands:
            why = self.tool("why", *shlex.split(command))
            self.assertEqual(why.returncode, 1, why.stderr)
            self.assertIn("may not read it: no line of new.acl allows it", why.stdout)

    def test_rights_as_compare_shows_them(self):
        rows = self.acl("compare", "--rules=own", "--plan=plan", "old.acl", "new.acl").stdout
        done = self.shown(*self.WORDS).stdout
        shown = [" ".join(line.split()) for line in done.splitlines()]
        for row in rows.splitlines()[:-1]:
            self.assertIn(" ".join(row.split()), shown)

    def test_as_who_loses_counts(self):
        """With a group, a kept session, a bridge's own topic and a publish that is refused."""
        script = [*SCRIPT, connect("h-1", "dash"), connect("h-2", "dash"),
                  subscribe("h-1", "$share/g/plant/+/energy"),
                  subscribe("h-2", "$share/g/plant/+/energy"), connect("away", "dash", True),
                  subscribe("away", "plant/#", qos=1), {"do": "disconnect", "client": "away"},
                  *(publish("meter-1", f"plant/h{n}/energy", qos=1, retain=True)
                    for n in range(3)), publish("meter-1", "plant/h1/state"),
                  connect("away", "dash", True), subscribe("hq-1", "plant/h1/energy")]
        self.write("script", text_of(script))
        for proposed in (PROPOSED, TRANSLATED, TRANSLATED.replace("user meter", "user metre"),
                         TRANSLATED.replace("topic write site/+/m", "topic write site/+/M")):
            self.write("new.acl", proposed)
            found = self.found(*self.WORDS)
            self.tool("plan", "script", "--old", "old.jsonl", "plan", "script")
            new = self.tool("plan", "script", "plan", "script").stdout
            self.write("new.jsonl", new)
            for name, script_name, out in (("old.acl", "old.jsonl", "before"),
                                           ("new.acl", "new.jsonl", "after")):
                done = subprocess.run([PROGRAM, "--acl-file", name, script_name], cwd=self.folder,
                                      capture_output=True, encoding="utf-8")
                self.write(out, done.stdout)
            counted = json.loads(self.tool(
                "who_loses", "--json", "--plan", "plan", "--new", "new.jsonl", "old.jsonl",
                "before", "after").stdout)
            totals = {name: found["totals"][name] for name in counted["totals"]}
            self.assertEqual(totals, counted["totals"])
            for name in ("lost", "gained", "changed"):
                self.assertEqual(sum(user[name] for user in found["users"]), totals[name])
                self.assertEqual(sum(cause["count"] for user in found["users"]
                                     for cause in user["causes"] if cause["what"] == name),
                                 totals[name])

    def test_nothing_changes(self):
        """The list that the plan makes; what can't be carried over alone is no change."""
        self.write("script", text_of(SCRIPT[:-1]))
        self.write("old.acl", CURRENT)
        self.write("new.acl", self.tool("plan", "acl", "plan", "old.acl").stdout)
        done = self.shown(*self.WORDS)
        self.assertEqual(done.returncode, 0, done.stdout + done.stderr)
        self.assertIn("0 users lose 0 of 5 messages", done.stdout)

    def test_no_new_name(self):
        """Its copies are lost, and that is the cause."""
        self.write("new.acl", TRANSLATED)
        self.write("plan", PLAN.replace("plant/+hall/state  -> site/+hall/machines/state",
                                        "none plant/+hall/state"))
        found = self.found(*self.WORDS)
        [user] = found["users"]
        [cause] = user["causes"]
        self.assertEqual((user["user"], cause["because"], cause["line"], cause["why"]),
                         ("dash", "its topic has no new name", 9, None))
        self.assertEqual(user["topics_lost"], [
            {"filter": "plant/h1/state", "topics": 1, "messages": 1, "new": "no new name"}])

    def test_faults(self):
        self.write("plan", "plant/+hall/energy -> site/+halle/energy\n")
        self.refused("plan:1: FROM has no +halle\n", *self.WORDS)
        self.write("plan", PLAN)
        self.refused("--plan goes by mqroute's own rules alone: give --rules own",
                     *self.WORDS[:-1], "mosquitto")
        self.refused("standard input can be read once", *self.WORDS[:-3], "-", "--begin", "-")
        self.refused("plan: it would overwrite plan, which is read too", *self.WORDS,
                     "--html", "plan")
        (self.folder / "old.jsonl").write_text("x")
        self.refused("--save .: old.jsonl is there already", *self.WORDS, "--keep", ".")

    def test_page(self):
        """It has the rows of --json, under both names, and says by which plan."""
        found = self.found(*self.WORDS, "--html", "page.html")
        page = (self.folder / "page.html").read_text("utf-8")
        tables = {name: body.count("<tr ") for name, body in re.findall(
            r"<table id='([a-z-]+)'.*?<tbody[^>]*>(.*?)</tbody>", page, re.S)}
        self.assertEqual(tables, {
            "users": 2 * len(found["users"]), "granted": len(found["granted"]),
            "taken": len(found["taken"]), "receive-nothing": len(found["subscriptions"]),
            "carried": len(found["carried"]), "remarks": len(found["remarks"])})
        self.assertEqual(page.count("<dt><bdi>plan"), len(found["granted"] + found["taken"]))
        text = html.unescape(re.sub(r"<[^>]*>", "", page))
        for words in ("topics renamed by plan", "plant/h1/energy → site/h1/meters/energy",
                      "plant/+/energy → site/+/meters/energy",
                      "plant/<level>/energy -> site/<level>/meters/energy",
                      "no line is about it", "plant/h1/count has no new name", found["summary"]):
            self.assertIn(words, text)

    def test_plan_on_standard_input(self):
        words = [word if word != "plan" else "-" for word in self.WORDS]
        done = self.shown(*words, input=PLAN)
        self.assertEqual(done.returncode, 1, done.stderr)
        self.assertIn("standard input:2  plant/+hall/energy -> site/+hall/meters/energy\n",
                      done.stdout)
        self.assertEqual(self.found(*words, input=PLAN)["plan"], "-")


if __name__ == "__main__":
    unittest.main()
