"""How many processes of mqroute-acl the tools start: as many for many clients and topics as for
few."""
import json
import os
import subprocess
import sys
import unittest
from collections import Counter
from pathlib import Path

from test_preview import ACL_PROGRAM, Case, text_of, wants_programs
from two_runs import connect, publish, subscribe
from worked import HERE, PROGRAM

COUNTING = '#!/bin/sh\necho "$1" >> "$0.calls"\nexec \'{}\' "$@"\n'
MANY, FEW = (6, 5), (1, 1)
# a preview: which lines mosquitto doesn't take and what is to be remarked, of both lists; what
# differs; what subscriptions can receive; who loses what by which lines; examples of the rights
OF_PREVIEW = {"lint": 4, "compare": 1, "reach": 2, "why": 4}


def day(clients: int, topics: int) -> list[dict]:
    """Each client publishes to topics under its own name, and two see all of them."""
    viewers = [one for name in ("view-1", "view-2")
               for one in (connect(name, "view"), subscribe(name, "#"))]
    names = [f"d{number}" for number in range(clients)]
    return viewers + [connect(name, "device") for name in names] + [
        publish(name, f"dev/{name}/{number}") for name in names for number in range(topics)]


@wants_programs
class Processes(Case):
    def setUp(self) -> None:
        super().setUp()
        program = Path(self.folder, "mqroute-acl")
        program.write_text(COUNTING.format(ACL_PROGRAM.resolve()))
        program.chmod(0o755)
        self.calls = Path(f"{program}.calls")
        self.around = os.environ | {"MQROUTE_ACL_PROGRAM": str(program)}
        self.write("old.acl", "pattern readwrite dev/%c/#\nuser view\ntopic read #\n")
        self.write("new.acl", "pattern readwrite dve/%c/#\nuser view\ntopic read #\n")

    def started(self, tool: str, *words: str) -> tuple[dict[str, int], str]:
        """How many by their subcommands, and what the tool prints."""
        self.calls.write_text("")
        done = subprocess.run([sys.executable, HERE / f"{tool}.py", *words], cwd=self.folder,
                              capture_output=True, encoding="utf-8", env=self.around)
        self.assertLess(done.returncode, 2, done.stderr)
        return Counter(self.calls.read_text().split()), done.stdout

    def of_day(self, size: tuple[int, int], *words: str) -> dict[str, int]:
        """Those of a preview in which each message is lost and each publish refused."""
        self.write("script", text_of(day(*size)))
        calls, text = self.started("preview", *words, "--json", "old.acl", "new.acl", "script")
        found, pairs = json.loads(text), size[0] * size[1]
        [user], [row] = found["users"], found["refused"]
        self.assertEqual((user["lost"], row["refused"]), (2 * pairs, pairs))
        self.assertTrue(all(cause["deciding"]["current"]["line"] == 1
                            for cause in user["causes"] + row["causes"]))
        return calls

    def test_preview(self):
        for size in (MANY, FEW):
            self.assertEqual(self.of_day(size, "--rules", "mosquitto"), OF_PREVIEW)

    def test_preview_by_a_plan(self):
        """Whose rights have no examples; what the plan can't carry over is asked too."""
        self.write("plan", "dev/+name/+what -> site/dev/+name/+what\n")
        for size in (MANY, FEW):
            self.assertEqual(self.of_day(size, "--rules", "own", "--plan", "plan"),
                             OF_PREVIEW | {"compare": 2, "why": 2})

    def test_who_loses(self):
        for size in (MANY, FEW):
            self.write("script", text_of(day(*size)))
            for name in ("old", "new"):
                done = subprocess.run(
                    [PROGRAM, "--rules=mosquitto", f"--acl-file={name}.acl", "script"],
                    cwd=self.folder, capture_output=True, encoding="utf-8")
                self.write(f"{name}.out", done.stdout)
            calls, text = self.started("who_loses", "--acl-before", "old.acl", "--acl-after",
                                       "new.acl", "script", "old.out", "new.out")
            self.assertEqual(calls, {"why": 2})
            self.assertEqual(text.count("1: pattern readwrite dev/%c/# -> no line allows it"),
                             3 * size[0] * size[1])

    def test_why(self):
        """Each of these clients is asked about, and has an answer of its own."""
        clients = [f"c{number}" for number in range(6)]
        script = [connect("p", "view"), *(connect(one, f"u{one}") for one in clients),
                  *(subscribe(one, "#") for one in clients), publish("p", "x")]
        self.write("old.acl", "topic write x\nuser view\ntopic write x\nuser uc1\ntopic deny x\n")
        self.write("script", text_of(script))
        calls, text = self.started("why", "--json", "--acl-file=old.acl", "script",
                                   str(len(script)))
        causes = {row["client"]: row["deny"] and row["deny"]["line"]
                  for row in map(json.loads, text.splitlines()) if row["cause"] == "MayNotRead"}
        self.assertEqual(causes, dict.fromkeys(clients) | {"c1": 5})
        self.assertEqual(calls, {"why": 1})
        calls, _ = self.started("why", "--acl-file=old.acl", "script", str(len(script)), "p")
        self.assertEqual(calls, {})  # it isn't subscribed


if __name__ == "__main__":
    unittest.main()
