"""Which lines of both access lists decide what is lost and gained, and lists that don't fit."""
import json
import os
import re
import subprocess
import tempfile
import unittest
import unittest.mock
from pathlib import Path

from two_runs import (
    ALL, AWAY, BACK, NO_READING, NO_WRITING, Compared, P, R, connect, publish, subscribe)
from worked import wants_program


@wants_program
class Deciding(Compared):
    """The lines of both lists, by a program that stands for mqroute-acl."""
    ASKED = '''#!/usr/bin/env python3
import json, sys
*words, file = sys.argv[1:]
assert words == ["why", "--json", "--rules=own", "--questions=-", "--"], sys.argv
open(sys.argv[0] + ".calls", "a").write(file + "\\n")
lists, name = {}, None
for number, line in enumerate(open(file).read().splitlines(), 1):
    name = line[5:] if line.startswith("user ") else name
    if line.startswith("topic deny "):
        shown = {"file": file, "line": number, "text": f"{line}  "}
        lists.setdefault((name, line.split()[-1]), shown)
for text in sys.stdin:
    open(sys.argv[0] + ".asked", "a").write(f"{file} {text}")
    asked = json.loads(text)
    access, grant = asked["access"], {"file": file, "line": 1, "text": "pattern readwrite #"}
    deny = lists.get((asked["user"], asked["topic"])) if "user" in asked else None
    print(json.dumps({"access": access, "allowed": not deny, "deny": deny, "grant": grant}))
'''

    LISTS = ("--acl-before", "before.acl", "--acl-after", "after.acl")
    SWAPPED = ("--acl-before", "after.acl", "--acl-after", "before.acl")

    def shown(self, script: list[dict], after: str, *words: str, lists=LISTS, before: str = ALL,
              **more) -> subprocess.CompletedProcess:
        folder = tempfile.TemporaryDirectory()
        self.addCleanup(folder.cleanup)
        program = Path(folder.name, "why")
        program.write_text(self.ASKED)
        program.chmod(0o755)
        with unittest.mock.patch.dict(os.environ, MQROUTE_ACL_PROGRAM=str(program)):
            done = self.compared(script, before, after, *lists, "--rules=own", *words, **more)
        self.asked, self.calls = (path.read_text().splitlines() if path.exists() else [] for path in
                                  (Path(f"{program}.asked"), Path(f"{program}.calls")))
        return done

    def test_readers_and_publishers(self):
        script = [P, R, subscribe("r"), publish("p")]
        shown = "1: pattern readwrite # -> 3: topic deny x"
        for after, cause in ((NO_READING, "may no longer read 1"),
                             (NO_WRITING, "publish by meter refused (NotAuthorized) 1")):
            self.assertIn(f"{cause} ({shown})", self.shown(script, after).stdout)
            by_user = self.shown(script, after, "--by", "user").stdout
            self.assertRegex(by_user, rf"lost +1 +.* 4  {re.escape(shown)}\n")
            [row] = json.loads(self.shown(script, after, "--json").stdout)["copies"]
            self.assertEqual(row["causes"][0]["decided"]["after"]["deny"]["line"], 3)
        self.assertRegex(
            self.shown(script, NO_WRITING).stdout, rf"NotAuthorized 1  {re.escape(shown)}\n")

    def test_on_the_page(self):
        with tempfile.TemporaryDirectory() as folder:
            self.shown([P, R, subscribe("r"), publish("p")], NO_READING, "--html", f"{folder}/page")
            page = Path(folder, "page").read_text("utf-8")
        self.assertIn(
            "<div>before: <code><bdi>1: pattern readwrite #</bdi></code></div><div>after: "
            "<code><bdi>3: topic deny x</bdi></code></div>", page)

    TWO = ALL + "user ops\ntopic deny x/1\ntopic deny x/2\n"
    THREE = [P, R, connect("r2", "ops"), subscribe("r", "#"), subscribe("r2", "#"),
             *(publish("p", f"x/{n}") for n in (1, 2, 1))]  # six copies

    def test_each_pair_of_lines(self):
        """Each has a row with its own number of copies, and each topic is asked for once, by one
        process for each list."""
        done = self.shown(self.THREE, self.TWO, "--by", "user", "--depth", "1")
        grant = "1: pattern readwrite #"
        rows = [line.split("may no longer read")[0].split() + [line.split("  ")[-1]]
                for line in done.stdout.splitlines() if line.startswith("ops")]
        self.assertEqual(rows, [["ops", "2", "x/#", "lost", "4", f"{grant} -> 3: topic deny x/1"],
                                ["ops", "2", "x/#", "lost", "2", f"{grant} -> 4: topic deny x/2"]])
        self.assertEqual(len(self.asked), len(set(self.asked)))
        self.assertEqual(len(self.asked), 4)
        self.assertEqual(self.calls, ["before.acl", "after.acl"])
        done = self.shown(self.THREE, self.TWO, "--by", "user", "--depth", "1", "--json")
        [row] = json.loads(done.stdout)["copies"]
        denied = [cause["decided"]["after"]["deny"]["line"] for cause in row["causes"]]
        lines = [[at["line"] for at in cause["lines"]] for cause in row["causes"]]
        self.assertEqual((denied, lines), ([3, 4], [[6, 6, 8, 8], [7, 7]]))
        self.assertEqual([cause["copies"] for cause in row["causes"]], [4, 2])
        self.assertEqual((row["lost"], row["clients"]), (6, 2))
        self.assertIn(f"may no longer read 2 ({grant} -> 3: topic deny x/1), "
                      f"may no longer read 1 ({grant} -> 4: topic deny x/2)",
                      self.shown(self.THREE, self.TWO, "--depth", "1").stdout)

    def test_each_pair_of_lines_on_the_page(self):
        with tempfile.TemporaryDirectory() as folder:
            self.shown(self.THREE, self.TWO, "--depth", "1", "--html", f"{folder}/page")
            page = Path(folder, "page").read_text("utf-8")
        for number in ("3: topic deny x/1", "4: topic deny x/2"):
            cell = f"<small><bdi>1: pattern readwrite # -&gt; {number}</bdi></small>"
            self.assertEqual(page.count(cell), 1)

    def test_refused_by_several_pairs(self):
        """And a row for the lines that both runs refuse, so that each line is in one row."""
        denied = ALL + "user meter\ntopic deny x/0\n"
        script = [P, *(publish("p", f"x/{n}") for n in (0, 1, 2, 0, 1))]
        after = denied + "topic deny x/1\ntopic deny x/2\n"
        done = self.shown(script, after, "--by", "user", "--depth", "1", before=denied)
        grant = "1: pattern readwrite #"
        self.assertEqual(done.stdout.partition("Refused\n")[2].partition("\n\n")[0], f"""\
user   clients  topic  before  after  why              decided by
meter        1  x/#         0      2  NotAuthorized 2  {grant} -> 4: topic deny x/1
meter        1  x/#         0      1  NotAuthorized 1  {grant} -> 5: topic deny x/2
meter        1  x/#         2      2  refused in both""")

    def test_the_user_of_that_time(self):
        """Whoever the client is later; and what waited was for the user who left."""
        later = connect("r", "boss", kept=True)
        waited = [*AWAY, publish("p", qos=1), publish("p", "y", qos=1), later]
        for script in ([P, R, subscribe("r"), publish("p"), connect("r", "boss")], waited):
            done = self.shown(script, NO_READING, "--why")
            self.assertIn("may no longer read 1 (1: pattern readwrite # -> 3: topic deny x)",
                          done.stdout, done.stderr)

    def contradicts(self, done: subprocess.CompletedProcess, said: str) -> None:
        said = f"who_loses: by mqroute's own rules the lists don't fit the outputs: {said}\n"
        self.assertEqual((done.returncode, done.stdout, done.stderr), (2, "", said))

    def test_lists_that_do_not_fit(self):
        script = [P, R, subscribe("r"), publish("p")]
        swapped = ("swapped? line 4 of the script: after.acl doesn't let {} x, "
                   "and the output before shows that it may").format
        done = self.shown(script, NO_READING, lists=self.SWAPPED)
        self.contradicts(done, swapped("r (user ops) read"))
        done = self.shown(script, NO_WRITING, lists=self.SWAPPED)
        self.contradicts(done, swapped("p (user meter) write"))
        before = ("--acl-before", "before.acl", "--acl-after", "before.acl")
        self.contradicts(self.shown(script, NO_READING, lists=before),
                         "line 4 of the script: before.acl lets r (user ops) read x, "
                         "and the output after shows that it may not")

    def test_what_is_no_contradiction(self):
        """Of a list of the script's own, of full queues and turns no list says anything."""
        own = [*AWAY, publish("p", qos=1), publish("p", "y", qos=1), {"do": "acl", "text": ALL}]
        own.append(BACK)
        queue = [*AWAY, publish("p", qos=1), publish("p", qos=1), publish("p", qos=1), BACK]
        full = ["--max-retained", "1"], ["--max-retained", "0"]
        for lists in (self.LISTS, self.SWAPPED):
            self.assertEqual(self.shown(own, NO_READING, lists=lists).returncode, 1)
            self.assertEqual(self.asked, [])
            few = {"lists": lists, "options": ([], ["--max-queued", "1"])}
            done = self.shown(queue, NO_READING, before=NO_READING, **few)
            self.assertEqual((done.returncode, done.stderr), (0, ""))
            self.assertIn("queue full 2", self.shown(queue, ALL, **few).stdout)
            store = [P, R, publish("p", retain=True), subscribe("r")]
            done = self.shown(store, NO_READING, lists=lists, before=NO_READING, options=full)
            self.assertIn("RetainedFull 1", done.stdout)
        group = [subscribe(client, "$share/g/x") for client in ("a", "b")]
        turns = [P, connect("q"), connect("a"), connect("b"), *group,
                 publish("p"), publish("q"), publish("q")]
        self.assertEqual(self.shown(turns, NO_WRITING).stdout.count("another member's turn 2"), 2)

    def test_not_under_another_list(self):
        done = self.shown([P, R, {"do": "acl", "text": NO_READING}, subscribe("r"), publish("p")],
                          NO_WRITING, "--why")
        self.assertNotIn("->", done.stdout)
        done = self.shown([P, R, subscribe("r"), publish("p"), {"do": "acl"}], NO_READING, "--why")
        self.assertIn("->", done.stdout)

    def test_faults(self):
        with unittest.mock.patch.dict(os.environ, MQROUTE_ACL_PROGRAM="/nowhere/mqroute-acl"):
            done = self.compared([P, R, subscribe("r"), publish("p")], ALL, NO_READING,
                                 "--acl-before", "before.acl", "--acl-after", "after.acl")
        self.assertEqual(
            (done.returncode, done.stderr),
            (2, "who_loses: cannot run /nowhere/mqroute-acl: No such file or directory\n"))
        self.assertEqual(self.compared([P], ALL, ALL, "--acl-before", "before.acl").returncode, 2)

    def test_by_whose_rules(self):
        """Without the option by mosquitto's: a topic line decides before a pattern line."""
        script, lists = [P, R, subscribe("r"), publish("p")], [*self.LISTS, "--why"]
        before = "topic readwrite x\nuser ops\ntopic read x\nuser meter\ntopic write x\n"
        after = before + "pattern deny x\n"
        own = self.compared(script, before, after, *lists, "--rules=own")
        self.assertIn("5: topic write x -> 6: pattern deny x", own.stdout)
        done = self.compared(script, before, after, *lists)
        self.assertEqual(done.returncode, 2)
        self.assertIn("by mosquitto's rules the lists don't fit the outputs", done.stderr)


if __name__ == "__main__":
    unittest.main()
