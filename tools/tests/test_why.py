"""Why a client was sent a message, or wasn't: each cause once, what mqroute contradicts, usage."""
import json
import os
import subprocess
import sys
import tempfile
import unittest
from collections import Counter
from pathlib import Path

from worked import HERE, PROGRAM, TOP, wants_program

sys.path.append(str(TOP / "dev"))
import check_why  # noqa: E402

ACL_PROGRAM = Path(os.environ.get("MQROUTE_ACL_PROGRAM", TOP / "bin/mqroute-acl"))
FOREVER = 4_294_967_295
LIST = "topic readwrite #\nuser u\ntopic read x\ntopic deny x/no\ntopic read x/#\n"
# A mqroute that writes something else: each line that it gets goes through a function.
WRITES_OTHERWISE = '''#!/usr/bin/env python3
import os, subprocess, sys
done = subprocess.run([os.environ["REAL"], *sys.argv[1:]], stdin=sys.stdin, stdout=subprocess.PIPE)
for line in done.stdout.decode().splitlines():
    found = eval(os.environ["OTHER"])(line)
    print(found, end="\\n" if found else "")
sys.exit(done.returncode)
'''


def connect(client: str, **more) -> dict:
    return {"do": "connect", "client": client} | more


def subscribe(client: str, filter: str = "x", **more) -> dict:
    return {"do": "subscribe", "client": client, "filter": filter} | more


def publish(client: str = "p", topic: str = "x", **more) -> dict:
    return {"do": "publish", "client": client, "topic": topic, "payload": "1"} | more


def leave(client: str) -> dict:
    return {"do": "disconnect", "client": client}


KEPT = {"session_expiry": FOREVER, "clean": False}
AWAY = [connect("p"), connect("c", **KEPT), subscribe("c", qos=1), leave("c")]  # lines 1 to 4
WAITS = publish(qos=1)
GROUP = [connect("p"), connect("c", **KEPT), connect("d"), subscribe("d", "$share/g/x"),
         subscribe("c", "$share/g/x")]
# The script, the line of the publish, what is shown of the client c, and options.
CASES = [
    ("Sent 3", [connect("c"), subscribe("c"), publish("c")], 3, {}),
    ("ClientId", [publish("", "x"), connect("c")], 1, {}),
    ("NotConnected", [publish(), connect("c")], 1, {}),
    ("TopicName", [connect("p"), publish(topic="x/+"), connect("c")], 2, {}),
    ("NotAuthorized", [connect("p", user="u"), publish(), connect("c")], 2, {"acl": LIST}),
    ("RetainedFull", [connect("p"), publish(retain=True), publish(topic="y", retain=True),
                      connect("c")], 3, {"max_retained": 1}),
    ("NoSession", [connect("p"), publish(), connect("c")], 2, {}),
    ("NoSession, ended 4", [connect("p"), connect("c"), subscribe("c"), leave("c"), publish()], 5,
     {}),
    ("NoSubscription", [connect("c"), subscribe("c", "x/+"), publish("c")], 3, {}),
    ("NoSubscription, ended 3", [connect("c"), subscribe("c"), connect("c"), publish("c")], 4, {}),
    ("NoLocal", [connect("c"), subscribe("c", no_local=True), publish("c")], 3, {}),
    ("MayNotRead, denied 4", [connect("p"), connect("c", user="u"), subscribe("c", "x/#"),
                              publish(topic="x/no")], 4, {"acl": LIST}),
    ("MayNotRead", [connect("p"), connect("c", user="v"), subscribe("c"), publish()], 4,
     {"acl": LIST}),
    ("MayNotRead, denied 1", [connect("p"), connect("c"), subscribe("c"),
                              {"do": "acl", "text": "topic readwrite x"},
                              {"do": "acl", "text": "pattern deny x/%c\ntopic readwrite x/#"},
                              {"do": "acl", "text": "wrong"}, subscribe("c", "x/#"),
                              publish(topic="x/c")], 8, {}),
    ("QoS0, away 4", [*AWAY, publish()], 5, {}),
    ("QueueFull, away 4", [*AWAY, WAITS, WAITS], 6, {"max_queued": 1}),
    ("QueueFull, away 4", [*AWAY, WAITS, WAITS], 5, {"max_queued": 0}),
    ("Waits, away 4", [*AWAY, WAITS, {"do": "advance", "seconds": 10}], 5, {}),
    ("SessionEnded, away 4, ended 6", [*AWAY, WAITS, connect("c")], 5, {}),
    ("Expired, away 4", [*AWAY, WAITS | {"expiry": 0}, connect("c", **KEPT)], 5, {}),
    ("Waited 7, away 4", [*AWAY, WAITS, WAITS, connect("c", **KEPT)], 5, {}),
    ("Away, away 6", [*GROUP, leave("c"), WAITS], 7, {}),
    ("Turn", [*GROUP, WAITS], 6, {}),
    ("Turn", [*GROUP, subscribe("d", "$share/g/x", qos=2), WAITS], 7, {}),  # keeps its place
    ("Sent 7", [*GROUP, WAITS, WAITS], 7, {}),
    # sent later, as a retained message
    ("NoSession 4", [connect("p"), publish(retain=True), connect("c"), subscribe("c")], 2, {}),
    ("NoSession", [connect("p"), publish(retain=True), publish(retain=True), connect("c"),
                   subscribe("c")], 2, {}),
]


@wants_program
@unittest.skipUnless(ACL_PROGRAM.exists(), f"there is no {ACL_PROGRAM}")
class Why(unittest.TestCase):
    def setUp(self):
        folder = tempfile.TemporaryDirectory()
        self.addCleanup(folder.cleanup)
        self.folder = Path(folder.name)
        (self.folder / "list").write_text(LIST)

    def why(self, script: list[dict], *words: str, **around: str) -> subprocess.CompletedProcess:
        text = "".join(json.dumps(command) + "\n" for command in script)
        (self.folder / "script").write_text(text, encoding="utf-8")
        return subprocess.run([sys.executable, HERE / "why.py", *words], cwd=self.folder,
                              capture_output=True, text=True, env=os.environ | around)

    def test_each_cause(self):
        for wanted, script, line, options in CASES:
            with self.subTest(wanted, script=script):
                limits = {name: limit for name, limit in options.items() if name != "acl"}
                case = check_why.Case(script, options.get("acl"), "own", limits)
                [answer] = case.answers(line, "c")
                [cause] = answer.causes
                said = cause.kind + (f" {cause.came}" if cause.came else "")
                said += f", away {cause.away}" if cause.away else ""
                said += f", ended {cause.ended}" if cause.ended else ""
                deny = cause.verdict.deny if cause.verdict else None
                said += f", denied {deny.line}" if deny else ""
                self.assertEqual(said, wanted, cause)

    def test_own_subscriptions_and_groups(self):
        """A row for each; and the client was sent it if it was by one of them."""
        script = [*GROUP, subscribe("c", "x", no_local=True), publish("c")]
        done = self.why(script, "script", "7", "--json", "--client", "c")
        rows = [json.loads(line) for line in done.stdout.splitlines()]
        self.assertEqual([(row["cause"], row["group"], row["subscribed"]) for row in rows],
                         [("NoLocal", None, [6]), ("Turn", "$share/g/x", [5])])
        self.assertEqual(done.returncode, 1)
        self.assertEqual(self.why([*script, publish("c")], "script", "8", "c").returncode, 0)
        script[1] = connect("c", user="u", **KEPT)
        script[4:6] = [subscribe("c", "$share/g/x/no"), subscribe("c", "x/no")]
        done = self.why([*script, publish(topic="x/no")], "--acl-file=list", "script", "8", "c")
        denied = "c       no    may not read it: list:4  topic deny x/no; list:5 would allow it"
        self.assertEqual(done.stdout.splitlines()[2:], [
            denied, "    subscribed by line 6 x/no: QoS 0",
            denied, "    subscribed by line 5 $share/g/x/no: QoS 0"])

    def test_refused_subscribes(self):
        script = [connect("c"), connect("p"), subscribe("c", "x", no_locl=True),
                  subscribe("c", "x#"), publish("p")]
        done = self.why(script, "script", "5", "c")
        self.assertEqual(done.stdout.splitlines()[3:], [
            "    its subscribe at line 3 was refused (BadField)",
            "    its subscribe at line 4 was refused (TopicFilter)"])

    def test_by_whose_rules(self):
        """By mosquitto's a topic line decides before a pattern line."""
        (self.folder / "list").write_text("topic readwrite x\npattern deny x\n")
        script = [connect("c"), subscribe("c"), publish("c")]
        for words, wanted in (([], "Sent"), (["--rules=own"], "NotAuthorized"),
                              (["--rules=mosquitto"], "Sent")):
            done = self.why(script, "--json", "--acl-file=list", *words, "script", "3", "c")
            self.assertEqual(json.loads(done.stdout)["cause"], wanted)

    def test_refused_by_the_broker(self):
        """By mosquitto's rules no list lets a client publish to the broker's own topics."""
        (self.folder / "list").write_text("topic readwrite $SYS/#\n")
        script = [connect("c"), subscribe("c", "$SYS/x"), publish("c", "$SYS/x")]
        for words, wanted in ((["--rules=own"], False), (["--rules=mosquitto"], True)):
            done = self.why(script, "--acl-file=list", *words, "script", "3", "c")
            self.assertEqual("mosquitto refuses it, whatever the list says" in done.stdout, wanted)

    def test_whose_id_counts(self):
        """Two clients with one user name: the list says otherwise by %c, and by mosquitto's rules
        by an id that holds a wildcard."""
        for rules, row, topic, other in (("own", "pattern read x/%c", "x/b", "d"),
                                         ("mosquitto", "pattern read x/b", "x/b", "d+")):
            script = [connect("p"), connect("b", **KEPT), connect(other), leave("b")]
            script[2:2] = [subscribe("b", "#", qos=1)]
            script += [subscribe(other, "#"), publish(topic=topic, qos=1)]
            (self.folder / "list").write_text(f"topic write #\n{row}\n")
            done = self.why(script, "--json", "--acl-file=list", "--rules", rules, "script", "7")
            rows = [json.loads(line) for line in done.stdout.splitlines()]
            self.assertEqual({row["client"]: row["cause"] for row in rows},
                             {"p": "NoSubscription", "b": "Waits", other: "MayNotRead"})

    def test_of_a_log(self):
        log = TOP / "brokers/recorded/plain.log"
        words = ["--log", str(log), "--topic", "plant/hall-2/energy", "--at"]
        done = self.why([], *words, "1795359160", "--client", "dash, board [3]")
        self.assertEqual(done.stdout.splitlines()[:3], [
            f'{log}:803 (line 247 of its script): o\'neil "b" publishes plant/hall-2/energy '
            '(QoS 2)', "client           copy  why",
            "dash, board [3]  yes   QoS 2: published with 2, subscribed with 2"])
        done = self.why([], *words, "1795359161")
        self.assertEqual((done.returncode, done.stdout), (2, ""))
        self.assertIn(f"the nearest 1 s before ({log}:803) and 2 s after ({log}:962)", done.stderr)

    def test_lines_of_a_log(self):
        """What is named are the lines that show it; what none shows is said to be inferred,
        as in a log whose beginning is missing."""
        name, topic = "plain.log", "plant/hall-2/energy"
        lines = (TOP / "brokers/recorded" / name).read_text("utf-8").split("\n")
        inferred = []
        for first in (0, 300):
            (self.folder / name).write_text("\n".join(lines[first:]), encoding="utf-8")
            done = self.why([], "--json", "--log", name, "--topic", topic, "--at", "1795359160")
            for row in map(json.loads, done.stdout.splitlines()):
                at = row["log"][str(row["line"])].removeprefix(f"{name}:")
                self.assertIn('from o\'neil "b"', lines[first + int(at) - 1])  # its sender
                for number in {*row["subscribed"], row["ended"], row["away"]} - {None}:
                    place = row["log"][str(number)]
                    if place.endswith(" (inferred)"):
                        inferred.append(place)
                        continue
                    file, _, line = place.partition(":")
                    # a filter stands below the line with the client
                    near = lines[first + int(line) - 3:first + int(line) + 1]
                    self.assertEqual(file, name)
                    self.assertIn(row["client"], " ".join(near), (row, place))
                    self.assertIn(place, row["words"] + " ".join(row["details"]))
        self.assertIn("before the log (inferred)", inferred)

    def contradicts(self, script: list[dict], line: int, other: str, said: str) -> None:
        program = self.folder / "mqroute"
        program.write_text(WRITES_OTHERWISE)
        program.chmod(0o755)
        around = {"MQROUTE": str(program), "REAL": str(PROGRAM.resolve()), "OTHER": other}
        done = self.why(script, "script", str(line), **around)
        self.assertEqual((done.returncode, done.stdout), (2, ""), other)
        self.assertRegex(done.stderr, rf"^why: at line {line} .* disagree, .*: {said}\n$")

    def test_nothing_is_said_against_mqroute(self):
        script = [connect("c"), subscribe("c"), connect("d"), publish("c")]
        refusal = '{"code":11,"line":4,"refused":"NotAuthorized"}'
        for other, said in (
                ('"" if "topic" in line else line', "c is sent no copy, and nothing is in its way"),
                ("line + chr(10) + line.replace('\"c\"', '\"d\"') if 'topic' in line else line",
                 "d is sent a copy that no subscription explains"),
                ("line + chr(10) + line if 'topic' in line else line",
                 "a client is sent two copies where one is due"),
                ("line.replace('\"qos\":0', '\"qos\":1')", "the copy for c has QoS 1 .*"),
                ("line.replace('\"reason\":0', '\"reason\":16')", "the reason is 16"),
                (f"'' if 'topic' in line else line.replace('{{\"line\":4,\"reason\":0}}', "
                 f"'{refusal}')", "it is refused, NotAuthorized, and not at all")):
            self.contradicts(script, 4, f"lambda line: {other}", said)
        # the client is away, and isn't sent what waited
        self.contradicts([*AWAY, WAITS], 5, 'lambda line: "" if "why" in line else line',
                         "no copy waits for c, and nothing is in its way")

    def test_usage(self):
        script = [connect("c"), {"do": "stat"}, publish("c") | {"qos": 3}]
        for words, said in ((["script", "1"], "script:1: a line with connect, and no publish"),
                            (["script", "9"], "script has 3 lines, and no line 9"),
                            (["script", "3"], "script:3: no command, BadField: see mqroute-check"),
                            (["script", "3", "fax"], "no command of script is of the client fax"),
                            (["list", "1"], "list: no line is a command: looks like an access "
                             "list"),
                            (["nowhere", "1"], "nowhere: No such file or directory"),
                            (["--acl-file=script", "script", "3"], "mqroute: access list script "
                             "line 1: Keyword"),
                            (["script"], "needs SCRIPT and LINE, or --log"),
                            (["--topic=x", "script", "3"], "--topic needs --log"),
                            (["--session-expiry=0", "script", "3"],
                             "--session-expiry needs --log"),
                            (["--log=x", "script", "3"],
                             "--log can't be used with SCRIPT and LINE"),
                            (["--log=x", "--topic=x"], "--log needs --topic and --at"),
                            (["script", "3", "c", "--client=c"],
                             "--client can't be used with CLIENT")):
            done = self.why(script, *words)
            self.assertEqual((done.returncode, done.stdout), (2, ""))
            self.assertIn(said, done.stderr)

    def test_mended(self):
        """Scripts that chance makes: each cause is mended until the copy comes."""
        met: Counter = Counter()
        for seed in range(1, 31):
            self.assertEqual(check_why.wrong_of(seed, met), [], seed)
        self.assertGreater(len(met), 12)


if __name__ == "__main__":
    unittest.main()
