"""The search, on brokers that answer as mqroute but for a planted bug; and on a
mosquitto, where there is one."""
import getpass
import json
import os
import subprocess
import tempfile
import unittest
from pathlib import Path

import mosquitto
from fake_broker import (
    Fake, drops_wills, expiry_0_is_none, forgets_sessions, keeps_first_options,
    keeps_what_is_cleared)
from mosquitto import PAHO, wants_paho
from worked import HERE, PROGRAM, wants_program
from mqroute import Oracle
from mqroute_tools.common.exit_status import Fault
from mqroute_tools.live.line_difference import LineDifference
from mqroute_tools.live.run_ends import TimeIsUp
from mqroute_tools.search.difference_kinds import Kind
from mqroute_tools.search.finds import Find, Search
from mqroute_tools.search.known import known_differences
from mqroute_tools.search.parts import Use
from mqroute_tools.search.random_scripts import Maker
from mqroute_tools.search.search import learn
from mqroute_tools.search.search_report import save

A = {"do": "connect", "client": "a"}
X = {"do": "subscribe", "client": "a", "filter": "x"}
PUBLISH = {"do": "publish", "client": "a", "topic": "x", "payload": "1"}
CLEAR = {"payload": "", "qos": 1, "retain": True}


def searched(broker: Fake, scripts: int, folders: list[Path] = []) -> tuple[Search, list[Find]]:
    """What so many scripts find, beside what is known."""
    one = Search(broker, Oracle(program=str(PROGRAM)))
    known = [it for folder in folders for it in known_differences(folder, False, False)]
    found = list(learn(one, known))
    return one, found + list(one.finds(Maker(1, Use()), iter(range(1, scripts + 1))))


@wants_program
class Finds(unittest.TestCase):
    SMALLEST = {  # what is found first, and the lines of its script
        keeps_first_options: [
            ("publish: retain", [A, X | {"rap": True}, X, PUBLISH | {"retain": True}]),
            ("publish: retain", [A, X, X | {"rap": True}, PUBLISH | {"retain": True}]),
            ("publish: missing", [A, X | {"no_local": True}, X, PUBLISH]),
            ("publish: more", [A, X, X | {"no_local": True}, PUBLISH])],
        expiry_0_is_none: [
            ("publish: expiry", [A, X, PUBLISH | {"expiry": 0}]),
            ("subscribe: more", [A, PUBLISH | {"retain": True, "expiry": 0}, X])],
        keeps_what_is_cleared: [
            ("subscribe: more", [A, PUBLISH | {"retain": True}, PUBLISH | CLEAR, X]),
            ("publish: retain", [A, X | {"rap": True}, PUBLISH | CLEAR])],
    }

    def first(self, bug, scripts: int) -> Find:
        one = Search(Fake(bug), Oracle(program=str(PROGRAM)))
        for find in one.finds(Maker(1, Use()), iter(range(1, scripts + 1))):
            return find
        raise AssertionError(f"{bug} isn't found")

    def test_each_bug_in_its_smallest_script(self):
        for bug, smallest in self.SMALLEST.items():
            found = self.first(bug, 500)
            self.assertIn((found.kind.what, found.script), smallest, bug)

    def test_sessions(self):
        found = self.first(forgets_sessions, 500)
        self.assertLessEqual(len(found.script), 7, found.script)
        self.assertTrue({"disconnect", "session", "publish"} <= found.kind.uses, found.kind)

    def test_wills(self):
        found = self.first(drops_wills, 500)
        # at once, or of what is retained
        self.assertIn(found.kind.what, ("will: missing", "subscribe: missing"))
        self.assertTrue(
            {"disconnect", "will"} <= found.kind.uses and len(found.script) <= 5, found.script)

    def test_no_bug(self):
        self.assertEqual(searched(Fake(lambda script: script), 60)[1], [])

    def test_a_find_stands_on_its_own(self):
        """Its answers are mqroute's to its script, and what is shown is of its own names."""
        find = self.first(expiry_0_is_none, 200)
        script = "".join(line + "\n" for line in find.lines())
        done = subprocess.run([PROGRAM], input=script, capture_output=True, text=True)
        self.assertEqual(done.stdout.splitlines(), find.output())
        head = f"line {len(find.script)}: {json.dumps(find.script[-1])}"
        self.assertEqual(find.report()[:2], [head, "   a x"])
        self.assertNotIn("Z", "".join(find.report() + find.lines()))

    def saved(self, bug, folder: str) -> list[Find]:
        """The finds of a broker with this bug, in a folder."""
        found = searched(Fake(bug), 80)[1]
        for number, find in enumerate(found, 1):
            save(find, number, Path(folder))
        return found

    def test_what_is_found_is_known_then(self):
        """Saved finds are skipped, and are listed as seen; another bug isn't skipped."""
        with tempfile.TemporaryDirectory() as folder:
            number = len(self.saved(expiry_0_is_none, folder))
            self.assertTrue(0 < number < 12 and Path(folder, "find-1.out").exists())
            one, found = searched(Fake(expiry_0_is_none), 80, [Path(folder)])
            self.assertEqual([find.kind for find in found], [])
            states = [known.state() for known in one.known]
            self.assertEqual(len(states), number)
            self.assertTrue(all(state.startswith("seen, and in ") for state in states), states)

            def both(script):
                return keeps_what_is_cleared(expiry_0_is_none(script))
            found = searched(Fake(both), 150, [Path(folder)])[1]
            self.assertTrue(
                any("clear" in find.kind.uses for find in found), [find.kind for find in found])

    def test_what_is_known_hides_nothing_else(self):
        """A known script that differs in another way than it is stored is a find; what is no
        longer seen is listed as that, and passes over nothing."""
        with tempfile.TemporaryDirectory() as folder:
            [A_find, *_] = self.saved(expiry_0_is_none, folder)
            one, found = searched(Fake(lambda script: script), 20, [Path(folder)])
            self.assertEqual({known.state() for known in one.known}, {"no longer seen as stored"})

            def closes(script, *_):
                return [LineDifference(len(script), "publish", ["   closed"], "closed")]
            broker = Fake(expiry_0_is_none)
            broker.run = closes
            one, found = searched(broker, 0, [Path(folder)])
            self.assertEqual(found[0].kind.what, "publish: closed")
            self.assertIn("no longer seen as stored", one.known[0].state())

    def test_what_only_seems_known(self):
        """A difference may hide behind a known one with more in it; each tenth such script
        is made small all the same."""
        seems = Kind(
            "publish: expiry", frozenset(["subscribe", "plain", "id", "publish", "expiry 0"]))
        small, great = [A, X, PUBLISH | {"expiry": 0}], [A, X | {"id": 3}, PUBLISH | {"expiry": 0}]
        for number, wanted in ((11, []), (10, [small])):
            one = Search(Fake(expiry_0_is_none), Oracle(program=str(PROGRAM)))
            one.found, one.number = [seems], number
            self.assertEqual([find.script for find in one.all_of(great)], wanted)

    def test_a_broker_that_goes_away(self):
        def gone(*_):
            raise ConnectionRefusedError(111, "refused")
        broker = Fake(lambda script: script)
        broker.run = gone
        with self.assertRaisesRegex(Fault, '^the broker is gone.*: {"do":"connect".*}$'):
            searched(broker, 1)

    def test_a_difference_that_is_not_seen_again(self):
        broker = Fake(lambda script: script)
        once = [[LineDifference(1, "connect", ["   closed"], "closed")]]
        broker.run = lambda *_: once.pop() if once else []
        one = Search(broker, Oracle(program=str(PROGRAM)))
        self.assertEqual(list(one.all_of([A])), [])
        self.assertEqual([(it.script, it.difference.what) for it in one.passing],
                         [([A], "connect: closed")])

    def test_time_is_up(self):
        one = Search(Fake(expiry_0_is_none), Oracle(program=str(PROGRAM)), until=0)
        self.assertEqual((list(one.finds(Maker(1, Use()), iter([1]))), one.runs), ([], 0))
        self.assertTrue(one.time_is_up)

    def test_cut_off(self):
        """What is being made small when the time is up is shown as far as it is."""
        broker, runs = Fake(expiry_0_is_none), []
        run = broker.run

        def stopped(script, *more):
            runs.append(script)
            if len(runs) > 3:
                raise TimeIsUp
            return run(script, *more)
        broker.run = stopped
        one = Search(broker, Oracle(program=str(PROGRAM)))
        [find] = one.all_of([A, {"do": "connect", "client": "b"}, X | {"id": 3},
                             PUBLISH | {"expiry": 0}])
        self.assertTrue(find.is_cut_off)
        self.assertEqual(find.differences[0].what, "publish: expiry")


class Known(unittest.TestCase):
    DIFF = ('line 3: {"do": "publish", "client": "a", "topic": "x", "payload": "1"}\n   a x\n'
            '      mqroute: qos 0, retain false, payload "1"\n      broker:  nothing\n')

    def known(self, more: dict[str, str], lists: bool = False, clock: bool = False,
              script: list = [A, X, PUBLISH]) -> list:
        with tempfile.TemporaryDirectory() as name:
            Path(name, "one.jsonl").write_text(as_lines(script))
            for end, text in more.items():
                Path(name, f"one{end}").write_text(text)
            return [(known.script, [(one.line, one.what) for one in known.stored], known.left_out)
                    for known in known_differences(Path(name), lists, clock)]

    def test_what_is_stored(self):
        script = [A, X, PUBLISH]
        self.assertEqual(self.known({".diff": self.DIFF}),
                         [(script, [(3, "publish: missing")], "")])
        for more in ({}, {".diff": ""}):
            self.assertEqual(self.known(more), [])
        closed = ('line 1: {"do": "connect", "client": "a"}\n   the broker closed the connection '
                  'of a; the lines after this one are not run\n')
        self.assertEqual(self.known({".diff": closed})[0][1], [(1, "connect: closed")])

    def test_access_lists(self):
        """The list beside a script is the script's first line."""
        text = "topic read #\n"
        [(script, stored, left_out)] = self.known({".diff": self.DIFF, ".acl": text}, lists=True)
        self.assertEqual((script[0], stored), ({"do": "acl", "text": text},
                                               [(4, "publish: missing")]))
        self.assertEqual(left_out, "")
        [(_, _, left_out)] = self.known({".diff": self.DIFF, ".acl": text})
        self.assertIn("--on-acl", left_out)

    def test_what_is_left_out(self):
        waits = [A, X, PUBLISH, {"do": "advance", "seconds": 1}]
        self.assertIn("--clock", self.known({".diff": self.DIFF}, script=waits)[0][2])
        self.assertEqual(self.known({".diff": self.DIFF}, script=waits, clock=True)[0][2], "")
        self.assertIn("options", self.known({".diff": self.DIFF, ".options": ""})[0][2])

    def test_faults(self):
        for more, said in (({".diff": "no\n"}, "one.diff:1: not of one.jsonl"),
                           ({".diff": self.DIFF.replace("3", "4")}, "not of one.jsonl"),
                           ({".jsonl": "{", ".diff": self.DIFF}, "one.jsonl:1: not JSON")):
            with self.assertRaisesRegex(Fault, said):
                self.known(more)
        with self.assertRaisesRegex(Fault, "there is no folder /nowhere"):
            list(known_differences(Path("/nowhere"), False, False))


@wants_paho
@wants_program
class Live(unittest.TestCase):
    """On a mosquitto of its own."""

    def start(self, more: str = "") -> int:
        folder = tempfile.TemporaryDirectory()
        self.addCleanup(folder.cleanup)
        port = mosquitto.free_port()
        conf = Path(folder.name, "conf")
        conf.write_text(f"listener {port} 127.0.0.1\nallow_anonymous true\npersistence false\n"
                        f"sys_interval 0\nlog_dest none\nmax_qos 1\n{more}")
        self.broker = mosquitto.start(self, conf, port)
        return port

    def run_tool(self, *words: str) -> tuple[int, str, str]:
        done = subprocess.run([PAHO, HERE / "search.py", *words], capture_output=True, text=True,
                              timeout=120, env=os.environ | {"MQROUTE": str(PROGRAM)})
        return done.returncode, done.stdout, done.stderr

    def test_nothing_is_left(self):
        """The same names twice, on a broker that may not have kept anything; what it
        doesn't offer isn't asked for."""
        code = f"""if True:
            from mqroute_tools.live.options import BrokerOptions
            from mqroute_tools.live.live_broker import LiveBroker
            from mqroute import Oracle
            broker = LiveBroker(BrokerOptions("127.0.0.1", {self.start()}))
            subscribe = {{"do": "subscribe", "client": "a", "filter": "#"}}
            publish = {{"do": "publish", "client": "a", "topic": "x", "payload": "1"}}
            script = [{{"do": "connect", "client": "a", "clean": False, "session_expiry": 99}},
                      subscribe, publish | {{"retain": True}},
                      {{"do": "publish", "client": "a", "topic": "+"}}]
            blocks = Oracle().blocks(script)
            for _ in range(2):
                assert broker.run(script, blocks) == []
            assert broker.held == [] and broker.can_run(script)
            assert not broker.can_run([script[2] | {{"qos": 2}}])
            not_own = subscribe | {{"no_local": True}}
            more = [script[0], not_own, script[2], not_own | {{"qos": 1}}]
            blocks = Oracle().blocks(more)
            for _ in range(2):
                found = [(one.line, one.did) for one in broker.run(more, blocks)]
                assert found == [(4, "subscribe")]
        """
        done = subprocess.run([PAHO, "-c", code], cwd=HERE, capture_output=True, text=True,
                              env=os.environ | {"MQROUTE": str(PROGRAM)})
        self.assertEqual((done.returncode, done.stderr), (0, ""))

    def test_the_tool(self):
        port = str(self.start())
        plain = "groups,retained,sessions,expiry,options,dollar,identifiers"
        status, out, shown = self.run_tool("--port", port, "--scripts", "20", "--without", plain)
        self.assertEqual((status, out), (0, ""), shown)
        self.assertRegex(shown, r"search: exercised: \d+ of 20 scripts: .*\n"
                         r"search: 20 scripts of seed 1, 20 runs in \d+ s; 0 new kinds")

    def test_access_lists_by_the_rules_of_mosquitto(self):
        with tempfile.TemporaryDirectory() as folder:
            acl = Path(folder, "acl")
            acl.write_text("")
            port = str(self.start(f"acl_file {acl}\nuser {getpass.getuser()}\n"))
            on_acl = f'cp "$MQROUTE_ACL" {acl} && kill -HUP {self.broker}'
            words = ["--port", port, "--scripts", "3", "--seed", "2", "--on-acl", on_acl,
                     "--without", "groups,retained,sessions,expiry,options,identifiers,wills"]
            status, out, shown = self.run_tool(*words, "--rules", "mosquitto")
            self.assertEqual((status, out), (0, ""), shown)
            self.assertIn("a publish denied", shown)

    def test_repeatable(self):
        """A find has the number of its script, which finds it again; saved, it is known."""
        port, plain = str(self.start()), "groups,retained,sessions,expiry,wills,dollar"
        words = ["--port", port, "--scripts", "10", "--without", plain]
        with tempfile.TemporaryDirectory() as folder:
            status, out, shown = self.run_tool(
                *words, "--json", "--junit", f"{folder}/xml", "--save", folder)
            *finds, sums = map(json.loads, out.splitlines())
            self.assertEqual((status, sums["finds"]), (1, len(finds)), shown)
            self.assertIn("subscribes again", finds[0]["uses"])
            self.assertEqual((sums["scripts"], sums["time_is_up"]), (10, False))
            self.assertEqual(Path(folder, "xml").read_text().count("<failure "), len(finds))
            status, out, shown = self.run_tool(*words, "--only", str(finds[0]["number"]))
            self.assertEqual(status, 1, shown)
            self.assertTrue(out.startswith(f"find 1: {finds[0]['what']}; seed 1, script "), out)
            status, out, shown = self.run_tool(*words, "--known", folder)
            self.assertEqual((status, out), (0, ""), shown)
            self.assertEqual(shown.count("jsonl: seen, and in "), len(finds))

    def test_one_that_it_begins(self):
        with tempfile.TemporaryDirectory() as folder:
            port, conf = mosquitto.free_port(), Path(folder, "conf")
            conf.write_text(f"listener {port} 127.0.0.1\nallow_anonymous true\nlog_dest none\n")
            status, _, shown = self.run_tool(
                "--port", str(port), "--start", f"exec {mosquitto.MOSQUITTO} -c {conf}",
                "--scripts", "2", "--without", "qos,groups,retained,options,expiry,dollar")
            self.assertEqual(status, 0, shown)

    def test_a_broker_that_holds_something(self):
        port = str(self.start())
        code = f"""if True:
            from mqroute_tools.live.broker_run import Replay
            from mqroute_tools.live.options import BrokerOptions
            replay = Replay(BrokerOptions("127.0.0.1", {port}))
            replay.do({{"do": "connect", "client": "a"}})
            replay.do({{"do": "publish", "client": "a", "topic": "held/x", "payload": "1",
                        "qos": 1, "retain": True}})
        """
        subprocess.run([PAHO, "-c", code], cwd=HERE, check=True)
        _, _, shown = self.run_tool("--port", port, "--minutes", "0", "--scripts", "1")
        held, *_, end = shown.splitlines()
        self.assertEqual(held, "search: the broker isn't empty: it retains held/x: what is found "
                         "may be of these")
        self.assertEqual(end, "search: no script was run to its end: the time was up")

    def test_faults(self):
        for words, said in ((("--port", "1"), "no broker at 127.0.0.1 port 1"),
                            (("--without", "groups,testaments"), "'testaments' is none of")):
            status, _, shown = self.run_tool(*words)
            self.assertEqual(status, 2, shown)
            self.assertIn(said, shown)


def as_lines(script: list) -> str:
    return "".join(json.dumps(command) + "\n" for command in script)


if __name__ == "__main__":
    unittest.main()
