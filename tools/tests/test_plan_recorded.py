"""A recorded log moved by a plan of its own: what changes is what mqroute-plan named before, each
mistake that is made then is shown, and a mosquitto does the same."""
import functools
import json
import subprocess
import sys
import unittest
from pathlib import Path

import mosquitto
from mosquitto import PAHO, wants_paho
from test_plan import ACL_PROGRAM, wants_programs
from test_plan_plant import Folder, RECORDED
from test_replay import OnABroker
from worked import HERE, PROGRAM
from mqroute_tools.plan.list_translation import translated
from mqroute_tools.plan.topic_plan import plan_of
from mqroute_tools.plan.translator import Translator
from mqroute_tools.script.topics import matches

PLAN = """\
# one tree below v2; staff/.. keeps its names
shop/stock/+good  -> v2/goods/+good/stock
keep shop/door
shop/till/+till   -> v2/tills/+till/state
till/+till/paper  -> v2/tills/+till/paper
none will/page
will/+who         -> v2/gone/+who
chat/+from/+to    -> v2/chat/to/+to/from/+from
news/#            -> v2/news/#
"""
SCRIPT, ACL = RECORDED / "mixed.jsonl", RECORDED / "mixed.acl"


@functools.cache
def moved_list() -> str:
    return translated(Translator(plan_of(PLAN)), ACL.read_text("utf-8"), "mixed.acl").text


@wants_programs
class Mixed(Folder):
    @classmethod
    def setUpClass(cls) -> None:
        super().setUpClass()
        (cls.folder / "own").write_text(PLAN, "utf-8")
        (cls.folder / "new.acl").write_text(moved_list(), "utf-8")
        cls.written("new.jsonl", "script", "--old", "old.jsonl", "own", SCRIPT)
        cls.right = (cls.folder / "new.jsonl").read_text("utf-8")

    def setUp(self) -> None:
        (self.folder / "new.jsonl").write_text(self.right, "utf-8")

    def found(self, acl: str = "new.acl") -> dict:
        return json.loads(self.losses(str(ACL), acl, "--json", plan="own"))

    def lost(self, acl: str = "new.acl") -> set[tuple[str, str]]:
        return {(row["client"], row["topic"]) for row in self.found(acl)["copies"] if row["lost"]}

    def test_what_was_named(self):
        """All that changes is of a topic without a new name, of a filter that a client has twice,
        or of one that matches more."""
        said = [json.loads(line) for line in self.done(
            "check", "own", "--script", SCRIPT, "--json").stdout.splitlines()]
        gone = {one["topic"] for one in said if one["kind"] == "remark" and "topic" in one}
        shared = [one for one in said if "filter" in one]
        more = [one for one in said if one["kind"] == "subscription" and "more: " in one["words"]]
        found = self.found()
        self.assertEqual((gone, found["totals"]["lost"], found["totals"]["gained"]),
                         ({"will/page"}, 67, 11))
        for row in found["copies"]:
            client, topic = row["client"], row["topic"]
            twice = any(client in one["clients"] and matches(one["filter"], topic)
                        for one in shared)
            wider = any(client in one["clients"] and matches(wanted, topic)
                        for one in more for wanted in one["becomes"])
            with self.subTest(row=row):
                self.assertTrue(topic in gone or (twice if row["lost"] else wider))
        self.assertEqual({row["topic"] for row in found["refused"]}, gone)

    def changed_script(self, old: str, new: str) -> None:
        self.assertIn(old, self.right)
        (self.folder / "new.jsonl").write_text(self.right.replace(old, new), "utf-8")

    def test_a_filter_that_is_left(self):
        """By the copies, and by what later clients subscribe to."""
        self.changed_script('"filter":"v2/tills/+/state"', '"filter":"shop/till/+"')
        lost = {("phone (bo)", "v2/tills/1/state"), ("printer", "v2/tills/2/state")}
        self.assertLessEqual(lost, self.lost())
        done = self.done("compare", "own", SCRIPT, "new.jsonl")
        self.assertEqual(done.returncode, 1)
        self.assertIn("printer              no longer subscribes to  v2/tills/x/state  which was "
                      "shop/till/x\n", done.stdout)

    def test_a_rule_that_is_forgotten(self):
        """Its topics are still published under old names."""
        (self.folder / "short").write_text(PLAN.replace("till/+till/paper  ->", "# "), "utf-8")
        self.written("new.jsonl", "script", "short", SCRIPT)
        said = map(json.loads, self.done("check", "own", "--script", "new.jsonl",
                                         "--json").stdout.splitlines())
        self.assertEqual([(one["rule"], one["first"]) for one in said if one["kind"] == "topics"
                          and one["rule"] not in (None, 3)], [(5, "till/kiosk/paper")])

    def test_a_line_that_is_lost(self):
        """Of the list, by the copies, and by mqroute-acl."""
        line = "topic read v2/chat/to/anna/from/+\n"
        self.assertEqual(moved_list().count(line), 1)
        (self.folder / "slip.acl").write_text(moved_list().replace(line, ""), "utf-8")
        self.assertIn(("phone (anna)", "v2/chat/to/anna/from/bo"),
                      self.lost("slip.acl") - self.lost())
        for name, text in (("old", ACL.read_text("utf-8")), ("slip", moved_list())):
            anna = text[text.index("user anna"):text.index("user bo")]
            (self.folder / f"{name}.anna").write_text(anna.replace(line, ""), "utf-8")
        done = subprocess.run([ACL_PROGRAM, "compare", "--rules=own", "--json", "--plan", "own",
                               "old.anna", "slip.anna"], cwd=self.folder, capture_output=True)
        found = [json.loads(line) for line in done.stdout.splitlines()]
        self.assertEqual([(one["user"], one["change"], one["rule"]["line"]) for one in found],
                         [("anna", "lost", 8)])


@wants_paho
@wants_programs
class Lived(OnABroker):
    """The first lines of the log, as they were and moved, on a mosquitto."""

    def lived(self, script: list[str], access: str) -> str:
        """The broker's own log, after a run in which it does as mqroute does."""
        at = Path(self.folder.name)
        log = at / "log"
        self.start(f"log_dest file {log}\nlog_type all\n", access)
        (at / "run.jsonl").write_text("\n".join(script), "utf-8")
        done = subprocess.run([PROGRAM, "--rules", "mosquitto", "--acl-file", at / "acl",
                               at / "run.jsonl"], capture_output=True)
        (at / "output").write_bytes(done.stdout)
        done = subprocess.run([PAHO, HERE / "replay.py", "--port", str(self.port),
                               at / "run.jsonl", at / "output"], capture_output=True, timeout=100)
        self.assertEqual((done.returncode, done.stdout, done.stderr), (0, b"", b""))
        return log.read_text("utf-8")

    def tool(self, name: str, *words: object) -> subprocess.CompletedProcess:
        return subprocess.run([sys.executable, HERE / name, *map(str, words)],
                              cwd=self.folder.name, capture_output=True, encoding="utf-8")

    def test_both(self):
        """And the moved broker's log subscribes as agreed, but for one filter that matches more."""
        at = Path(self.folder.name)
        lines = [line for line in SCRIPT.read_text("utf-8").splitlines() if "advance" not in line]
        (at / "script").write_text("\n".join(lines[:400]), "utf-8")
        (at / "plan").write_text(PLAN, "utf-8")
        moved = self.tool("plan.py", "script", "--old", "old", "plan", "script").stdout
        self.lived((at / "old").read_text("utf-8").splitlines(), ACL.read_text("utf-8"))
        self.port = mosquitto.free_port()
        (at / "log.of").write_text(self.lived(moved.splitlines(), moved_list()), "utf-8")
        (at / "later").write_text(self.tool("log_to_script.py", "log.of").stdout, "utf-8")
        self.assertEqual(self.tool("plan.py", "compare", "plan", "script", "later").stdout,
                         "tablet  subscribes now to  v2/news  which was news\n1 difference\n")


if __name__ == "__main__":
    unittest.main()
