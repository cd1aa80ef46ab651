"""What a preview with a plan shows of retained messages under old names, and of sessions that are
away; and the script that moves the messages."""
import html
import json
import re
import subprocess
import unittest

from test_preview import CURRENT, Case, text_of, wants_programs
from test_preview_plan import PLAN, TRANSLATED
from two_runs import connect, leave, publish, subscribe
from worked import PROGRAM, TOP

RECORDED = TOP / "brokers/recorded"
SCRIPT = [
    connect("meter-1", "meter"), connect("dash-1", "dash", True),
    subscribe("dash-1", "plant/#", qos=1), subscribe("dash-1", "office/x"), leave("dash-1"),
    publish("meter-1", "plant/h1/energy", payload="5", qos=1, retain=True),
    publish("meter-1", "plant/h2/energy", payload="7 bytes", retain=True),
    publish("meter-1", "plant/h1/state", payload="denied", retain=True), connect("plc-1", "plc"),
    publish("plc-1", "plant/h1/state", payload="on", qos=1, retain=True)]
KEPT = """\
Retained under old names when the script ends
  3 messages, of which 3 have another new name
  script:6  meter-1  plant/h1/energy -> site/h1/meters/energy
  script:7  meter-1  plant/h2/energy -> site/h2/meters/energy
      its payload isn't known: it can be cleared, and not moved
  script:10  plc-1  plant/h1/state -> site/h1/machines/state
  They stay in the broker under their old names until they are cleared. Who subscribes to the new \
names isn't sent them. With --save FOLDER a script stays that moves them.
  Not known: what the broker had before the first line of the script; 1 payload, of which the \
script has the size alone; properties of MQTT 5 other than the expiry.

Away when the script ends, with subscriptions under old names
  1 session, of which 1 has subscriptions under old names
  script:5  dash-1  user dash  2 messages wait
      plant/# -> site/+/meters/energy, site/+/machines/state
  The broker keeps these subscriptions until the client unsubscribes or begins a new session. \
Nothing waits for it under the new names before it subscribes to them.
  Not known: what the broker had before the first line of the script; 1 payload, of which the \
script has the size alone; properties of MQTT 5 other than the expiry.
"""
MOVING = [
    {"do": "connect", "client": "plan-mover"},
    {"do": "publish", "client": "plan-mover", "topic": "site/h1/meters/energy", "payload": "5",
     "qos": 1, "retain": True},
    {"do": "publish", "client": "plan-mover", "topic": "plant/h1/energy", "retain": True},
    {"do": "publish", "client": "plan-mover", "topic": "plant/h2/energy", "retain": True},
    {"do": "publish", "client": "plan-mover", "topic": "site/h1/machines/state", "payload": "on",
     "qos": 1, "retain": True},
    {"do": "publish", "client": "plan-mover", "topic": "plant/h1/state", "retain": True}]


@wants_programs
class Kept(Case):
    WORDS = ("old.acl", "new.acl", "script", "--plan", "plan", "--rules", "own")

    def setUp(self) -> None:
        super().setUp()
        self.write("plan", PLAN)
        self.write("new.acl", TRANSLATED)
        self.write("script", text_of(SCRIPT))

    def test_text(self):
        """It doesn't count for the status: nobody loses anything by the lists."""
        done = self.shown(*self.WORDS)
        self.assertIn(f"\n\n{KEPT}\n", done.stdout)
        self.assertEqual((done.returncode, done.stderr), (0, ""))

    def test_json(self):
        found = self.found(*self.WORDS)["kept"]
        self.assertEqual(found["totals"], {"retained": 3, "renamed": 3, "moved": 2, "nameless": 0,
                                           "away": 1, "sessions": 1})
        self.assertEqual(found["retained"][1], {
            "topic": "plant/h2/energy", "becomes": "site/h2/meters/energy", "line": 7,
            "client": "meter-1", "user": "meter", "payload": None, "qos": 0, "expiry": None,
            "is_moved": False,
            "words": "its payload isn't known: it can be cleared, and not moved"})
        self.assertEqual(found["sessions"], [{
            "client": "dash-1", "user": "dash", "line": 5, "waiting": 2, "subscriptions": [
                {"was": "plant/#", "becomes": ["site/+/meters/energy",
                                               "site/+/machines/state"]}]}])
        self.assertEqual(len(found["not_known"]), 3)
        self.assertIsNone(found["script"])

    def test_the_script(self):
        """It stays with --keep, and mqroute accepts all of it under both lists together."""
        done = self.shown(*self.WORDS, "--keep", "kept")
        self.assertIn("kept/retained.jsonl is a script that moves them.\n", done.stdout)
        text = (self.folder / "kept/retained.jsonl").read_text("utf-8")
        self.assertEqual(list(map(json.loads, text.splitlines())), MOVING)
        done = subprocess.run([PROGRAM], input=text.encode(), capture_output=True)
        self.assertEqual(done.returncode, 0)
        (self.folder / "other").mkdir()
        self.write("other/retained.jsonl", "mine")
        self.refused("retained.jsonl is there already", *self.WORDS, "--keep", "other")

    def test_a_client_of_that_name(self):
        self.write("script", text_of([connect("plan-mover", "meter"), *SCRIPT]))
        self.shown(*self.WORDS, "--keep", "kept")
        first = (self.folder / "kept/retained.jsonl").read_text("utf-8").splitlines()[0]
        self.assertEqual(json.loads(first), {"do": "connect", "client": "plan-moverx"})

    def test_page(self):
        found = self.found(*self.WORDS, "--html", "page")["kept"]
        page = (self.folder / "page").read_text("utf-8")
        rows = {name: body.count("<tr ") for name, body in re.findall(
            r"<table id='(retained|away)'.*?<tbody[^>]*>(.*?)</tbody>", page, re.S)}
        self.assertEqual(rows, {"retained": len(found["retained"]), "away": 1})
        text = html.unescape(re.sub(r"<[^>]*>", "", page))
        for line in KEPT.splitlines():
            words = line.strip()
            if not re.match(r"script:|plant/# ->", words):
                self.assertIn(words, text)
        self.assertIn("plant/# → site/+/meters/energy, site/+/machines/state", text)

    def test_nothing_kept(self):
        """Then it says nothing of it in words, and in JSON that there is nothing."""
        self.write("script", text_of(SCRIPT[:1]))
        self.assertNotIn("under old names", self.shown(*self.WORDS).stdout)
        found = self.found(*self.WORDS)["kept"]
        self.assertEqual((found["retained"], found["sessions"]), ([], []))

    def test_a_log(self):
        """It has no payloads: what is retained can be cleared alone."""
        self.write("plan", "plant/# -> site/#\n")
        acl = (RECORDED / "plain.acl").read_text("utf-8")
        self.write("new.acl", acl.replace("plant/", "site/"))
        words = ["--no-check", RECORDED / "plain.acl", "new.acl", RECORDED / "plain.log",
                 *self.WORDS[3:]]
        found = self.found(*words)["kept"]
        self.assertGreater(found["totals"]["renamed"], 5)
        self.assertEqual(found["totals"]["moved"], 0)
        self.assertEqual({one["payload"] for one in found["retained"]}, {None})
        self.assertIn("With --save FOLDER a script stays that clears them.\n",
                      self.shown(*words).stdout)

    def test_without_a_plan(self):
        self.write("new.acl", CURRENT)
        self.assertNotIn("kept", self.found(*self.WORDS[:3]))


if __name__ == "__main__":
    unittest.main()
