"""Logs that begin on a running broker, the rule by which subscriptions are inferred, and states
handed on from log to log."""
import io
import json
import random
import subprocess
import sys
import tempfile
import unittest
from pathlib import Path

from test_log_to_script import arrival, published, subscribing
from worked import HERE, PROGRAM, TOP, wants_program
from mqroute_tools.log.broker_state import State
from mqroute_tools.log.clients import INFERRED, NONE, SEEN
from mqroute_tools.log.conversion import placed_commands
from mqroute_tools.log.inference import beginning
from mqroute_tools.log.script_writer import Writer
from mqroute_tools.script.topics import matches

TOOL = HERE / "log_to_script.py"
FOREVER = 4294967295


def sent(client: str, topic: str, qos: int = 0, retain: int = 0, dup: int = 0) -> str:
    return (
        f"Sending PUBLISH to {client} (d{dup}, q{qos}, r{retain}, m1, '{topic}', ... (2 bytes))\n")


def leaving(client: str, name: str) -> str:
    return (f"Received UNSUBSCRIBE from {client}\n\t{name}\n{client} {name}\n"
            f"Sending UNSUBACK to {client}\n")


def routed(topic: str, *receivers: str, qos: int = 1, copy: int = 0) -> str:
    release = "Received PUBREL from p (Mid: 1)\n" if qos == 2 else ""
    return (published("p", topic, f"d0, q{qos}, r0, m1") + release
            + "".join(sent(r, topic, copy) for r in receivers))


def written(text: str, expiry: int | None = None,
            begin: State | None = None) -> tuple[list[dict], Writer]:
    found = Writer(expiry, None, beginning([io.BytesIO(text.encode())], None, begin or State()))
    found.start_with(follow=True)
    return [command for _, command in placed_commands(found, [io.BytesIO(text.encode())])], found


def before(text: str) -> list[dict]:
    """What the script has of before the log, without the publisher `p`."""
    begins = beginning([io.BytesIO(text.encode())], None, State())
    return [c for c in begins.state.commands() if c["client"] != "p" or c["do"] == "publish"]


class Case(unittest.TestCase):
    def filters(self, text: str, *names: str, client: str = "b") -> None:
        self.assertEqual(
            [c["filter"] for c in before(text) if c["do"] == "subscribe" and c["client"] == client],
            list(names))


class Rule(Case):
    """In each log b was connected before."""

    def test_a_topic(self):
        self.assertEqual(before(routed("x/y", "b", copy=1)), [
            {"do": "connect", "client": "b"},
            {"do": "subscribe", "client": "b", "filter": "x/y", "qos": 1, "handling": 2}])
        self.filters(routed("x", "b") + routed("y", "b"), "x", "y")

    def test_nothing_that_was_withheld(self):
        self.filters(routed("x", "b") + routed("x"))
        self.filters(routed("x") + routed("x", "b"))
        self.filters(routed("x", "b", "b") + routed("x"))

    def test_a_filter_for_several(self):
        several = "".join(routed(f"h/{i}/e", "b") for i in range(3))
        self.filters(several, "h/+/e")
        self.filters(several + routed("h/9/f", "b"), "h/#")
        self.filters(several + routed("h/9/f"), "h/+/e")
        self.filters(several + routed("h/9/e"), "h/0/e", "h/1/e", "h/2/e")
        self.filters(routed("h/1/e", "b") + routed("h/2/e", "b"), "h/1/e", "h/2/e")
        self.filters("".join(routed(f"$h/{i}", "b") for i in range(3)), "$h/+")
        self.filters("".join(routed(f"{i}/h/{i}/e", "b") for i in range(3)) + routed("1/h/1/f")
                     + routed("1/g/1/e"), "+/h/+/e")
        self.filters("".join(routed(f"{i}/h" + i * "/e", "b") for i in range(3))
                     + routed("1/g/1/e"), "+/h/#")

    def test_many_topics(self):
        """Of thousands some are looked at, and a filter explains them all."""
        self.filters(
            "".join(routed(f"h/{i}/{i % 7}", "b") for i in range(5000)) + routed("x"), "h/#")
        self.filters(
            "".join(routed(f"h/{i}/{i % 7}", "b") for i in range(5000)) + routed("h"), "h/+/+")

    def test_its_own_words(self):
        self.filters(routed("x/y", "b") + subscribing("b", ("x/#", 0)), "x/#")
        self.filters(routed("x/y", "b") + routed("x/z") + subscribing("b", ("x/#", 0)), "x/y")
        self.filters(routed("x/y", "b") + "Client b disconnected.\n" + arrival("b")
                     + subscribing("b", ("x/#", 0)) + routed("x/z"), "x/#")
        self.filters(routed("x/y", "b") + subscribing("b", ("$share/g/x/#", 0)), "x/y")

    def test_what_the_log_explains(self):
        self.filters(arrival("p") + subscribing("b", ("x", 0)) + routed("x", "b"))
        self.filters(arrival("b") + subscribing("b", ("x", 0)) + routed("x", "b"))

    def test_until_an_unsubscribe(self):
        text = routed("x/y", "b") + leaving("b", "x/#") + routed("x/y")
        self.filters(text, "x/#")
        text = routed("x/z") + routed("x/y", "b") + leaving("b", "x/#") + routed("x/y")
        self.filters(text, "x/y")
        commands, found = written(text)
        self.assertEqual(
            [c["filter"] for c in commands if c["do"] == "unsubscribe"], ["x/#", "x/y"])
        self.assertEqual(found.explained, [0, 1, 0])
        # it lasts longer
        text = routed("x/z") + routed("x/y", "b") + leaving("b", "x/#") + routed("x/y", "b")
        self.filters(text, "x/y")
        self.assertEqual(
            [c["filter"] for c in written(text)[0] if c["do"] == "unsubscribe"], ["x/#"])

    def test_the_end_of_the_session(self):
        text = (routed("x", "b") + "Client b disconnected.\n" + routed("x") + arrival("b")
                + routed("x"))
        self.filters(text, "x")
        self.filters(routed("x", "b") + arrival("b") + routed("x"), "x")

    def test_qos(self):
        def qos(text: str) -> list[int]:
            return [c.get("qos", 0) for c in before(text) if c["do"] == "subscribe"]
        self.assertEqual(qos(routed("x", "b", copy=0, qos=0) + routed("x", "b", copy=1)), [1])
        three = [routed(f"h/{i}", "b", copy=c, qos=2) for i, c in enumerate((1, 1, 1))]
        self.assertEqual(qos("".join(three)), [1])
        # no one filter has two
        self.assertEqual(qos("".join(three) + routed("h/9", "b", copy=0, qos=2)), [1, 1, 1, 0])

    def test_qos_of_overlapping_subscriptions(self):
        """Each publish is sent twice: the greater QoS is the one that counts."""
        text = "".join(routed(f"h/{i}", "b", qos=2) + sent("b", f"h/{i}", 2) for i in range(3))
        self.assertEqual(
            [(c["filter"], c["qos"]) for c in before(text) if c["do"] == "subscribe"], [("h/+", 2)])
        # one topic is never left out for its QoS
        text = routed("x", "b", copy=1, qos=2) + routed("x", "b", copy=2, qos=2)
        self.assertEqual(
            [(c["filter"], c["qos"]) for c in before(text) if c["do"] == "subscribe"], [("x", 2)])

    def test_retain_as_published(self):
        text = published("p", "x", "d0, q0, r1, m0") + sent("b", "x", retain=1)
        self.assertEqual([c.get("rap") for c in before(text) if c["do"] == "subscribe"], [True])

    def test_never_too_much(self):
        """At random: of the topics that an inferred filter matches none was withheld."""
        dice = random.Random(5)
        topics = [f"{a}/{b}/{c}" for a in "xyz" for b in "12" for c in "ef"] + ["x", "y/1", "$s/1"]
        filters = ["#", "x/#", "+/1/+", "y/+/e", "x/2/f", "$s/#", "+"]
        for _ in range(200):
            held, log, got = dice.sample(filters, dice.randint(0, 3)), "", {}
            for topic in dice.choices(topics, k=dice.randint(1, 40)):
                reaches = any(matches(f, topic) for f in held) and dice.random() < 0.97
                got.setdefault(topic, []).append(reaches)
                log += routed(topic, *["b"] * reaches)
            for command in (c for c in before(log) if c["do"] == "subscribe"):
                under = [t for t in got if matches(command["filter"], t)]
                self.assertTrue(under and all(all(got[t]) for t in under), (held, command, got))


class Sessions(Case):
    def test_a_session_that_was_away(self):
        text = (arrival("b", "p2, c0, k60, u'me'", present=1) + sent("b", "x", 1)
                + routed("x", "b", copy=1))
        self.assertEqual(before(text), [
            {"do": "connect", "client": "b", "user": "me", "session_expiry": FOREVER},
            {"do": "subscribe", "client": "b", "filter": "x", "qos": 1, "handling": 2},
            {"do": "disconnect", "client": "b"}])
        self.assertNotIn(
            "sessions were resumed that the script doesn't have", written(text)[1].notes.counts)

    def test_user_names_that_come_later(self):
        text = routed("x", "b") + "Client b disconnected.\n" + arrival("b", "p5, c1, k60, u'me'")
        self.assertEqual(before(text)[0], {"do": "connect", "client": "b", "user": "me"})
        self.assertEqual(written(text)[1].notes.examples[
            "of them have no user name in the log, and so none in the script"], ["p"])

    def test_expiry_that_the_next_connack_shows(self):
        def expiries(text: str, **options) -> tuple[list, int]:
            commands, found = written(text, **options)
            found_of = [c.get("session_expiry", 0) for c in commands if c["do"] == "connect"]
            return found_of, sum(found.notes.counts.values())

        def come(clean: int, present: int) -> str:
            return arrival("b", f"p5, c{clean}, k60", present=present)
        leave = "Client b disconnected.\n"
        self.assertEqual(
            expiries(come(0, 0) + leave + come(0, 1) + leave + come(0, 0)), ([FOREVER, 0, 0], 1))
        self.assertEqual(
            expiries(come(1, 0) + leave + come(0, 1) + leave + come(1, 0)), ([FOREVER, 0, 0], 1))
        self.assertEqual(expiries(come(1, 0) + leave), ([0], 0))
        self.assertEqual(expiries(come(0, 0) + leave + come(0, 1), expiry=9), ([9, 9], 0))

    def test_expiry_of_a_session_of_before(self):
        text = (routed("x", "b") + "Client b disconnected.\n"
                + arrival("b", "p5, c0, k60", present=1) + routed("x", "b"))
        self.assertEqual(
            [c.get("session_expiry") for c in before(text) if c["do"] == "connect"], [FOREVER])
        self.filters(text, "x")


class Retained(Case):
    def test_one_that_nobody_published(self):
        log = arrival("q", "p5, c1, k60, u'me'") + published("q", "x/1") + arrival("b")
        text = (log + "Received SUBSCRIBE from b\n\tx/# (QoS 1)\nb 1 x/#\n" + sent("b", "x/1", 1, 1)
                + sent("b", "x/2", 0, 1) + "Sending SUBACK to b\n")
        self.assertEqual(before(text), [
            {"do": "connect", "client": "q", "user": "me"},
            {"do": "publish", "client": "q", "topic": "x/1", "payload": "2 bytes", "qos": 1,
             "retain": True},
            {"do": "publish", "client": "q", "topic": "x/2", "payload": "2 bytes", "retain": True},
            {"do": "disconnect", "client": "q"}])
        self.assertEqual(written(text)[1].explained, [2, 0, 0])

    def test_its_publisher(self):
        """One that publishes the topic, or one that is most like it, and rather
        one with a known user name."""
        def by(log: str, topic: str) -> str:
            asked = (arrival("b") + "Received SUBSCRIBE from b\n\t# (QoS 1)\nb 1 #\n"
                     + sent("b", topic, 0, 1) + "Sending SUBACK to b\n")
            return next(c["client"] for c in before(log + asked) if c["do"] == "publish")
        log = (arrival("q") + arrival("r") + published("r", "z") + published("q", "x/1/a")
               + published("r", "x/2/b"))
        self.assertEqual([by(log, topic) for topic in ("z", "x/1/a", "x/1/c", "x/2/c", "x/2/b")],
                         ["r", "q", "q", "r", "r"])
        self.assertEqual(by(published("n", "x") + arrival("q") + published("q", "x"), "x"), "q")
        self.assertEqual(by(published("n", "x"), "x"), "n")

    def test_one_that_the_log_has(self):
        text = (arrival("b") + published("p", "x", "d0, q0, r1, m0") + subscribing("b", ("x", 0))
                + sent("b", "x", retain=1))
        self.assertEqual([c for c in before(text) if c["do"] == "publish"], [])


class Told(unittest.TestCase):
    LOG = (routed("x", "b") + routed("y") + subscribing("b", ("y", 0)) + routed("y", "b")
           + routed("z", "b") + routed("z"))

    def test_what_explains_the_copies(self):
        found = written(self.LOG)[1].explained
        self.assertEqual((found[SEEN], found[INFERRED], found[NONE]), (1, 1, 1))

    def test_a_will_at_a_takeover(self):
        """Its copies stand before the new connection's lines."""
        text = (arrival("b") + subscribing("b", ("last", 0))
                + arrival("a", will="Will message specified (3 bytes) (r0, q0).\n\tlast"))
        taken = ("Client a already connected, closing old connection.\n" + sent("b", "last")
                 + arrival("a"))
        self.assertEqual(written(text + taken)[1].explained, [1, 0, 0])

    def run_tool(self, *words: str, log: str = LOG) -> tuple[int, str, str]:
        done = subprocess.run(
            [sys.executable, TOOL, *words], input=log, capture_output=True, text=True)
        return done.returncode, done.stdout, done.stderr

    def test_the_tool(self):
        status, out, shown = self.run_tool()
        self.assertIn("the broker sent 3 copies: the script explains 1 by subscriptions in the log "
                      "and 1 by inferred ones, and doesn't explain 1\n", shown)
        self.assertEqual((status, '"filter":"x"' in out), (1, True))
        status, out, shown = self.run_tool("--no-inference")
        self.assertEqual((status, '"filter":"x"' in out), (1, False))
        self.assertIn("explains 1 by subscriptions in the log and 0 by inferred ones, and doesn't "
                      "explain 2\n", shown)

    def test_nothing_is_noted_of_a_whole_log(self):
        status, _, shown = self.run_tool(
            log=arrival("p") + arrival("b") + subscribing("b", ("x", 0)) + routed("x", "b"))
        self.assertEqual((status, len(shown.splitlines())), (0, 1))

    @wants_program
    def test_half_of_a_recorded_log(self):
        """Each of the broker's 454 copies is explained, and with the one user name that the half
        doesn't have the script gives them all."""
        lines = (TOP / "brokers/recorded/plain.log").read_text(encoding="utf-8").splitlines(
            True)
        with tempfile.TemporaryDirectory() as folder:
            Path(folder, "log").write_text("".join(lines[len(lines) // 2:]), encoding="utf-8")
            _, script, shown = self.run_tool(f"{folder}/log")
            self.assertIn("the broker sent 454 copies: the script explains 359 by subscriptions in "
                          "the log and 95 by inferred ones, and doesn't explain 0\n", shown)
            named = "1 of them has no user name in the log, and so none in the script\n    ops\n"
            self.assertIn(named, shown)
            script = script.replace(
                '"connect","client":"ops"}', '"connect","client":"ops","user":"ops"}')
            output = subprocess.run(
                [PROGRAM, "--acl-file", TOP / "brokers/recorded/plain.acl"],
                input=script.encode(), capture_output=True).stdout
            Path(folder, "output").write_bytes(output)
            done = subprocess.run(
                [sys.executable, HERE / "compare_log.py", f"{folder}/log", f"{folder}/output"],
                capture_output=True, text=True)
            self.assertEqual({line.split(":")[0] for line in done.stdout.splitlines()},
                             {"Retain As Published", "overlapping subscriptions"})


class States(unittest.TestCase):
    def state_after(self, *commands: dict) -> list[dict]:
        state = State()
        for command in commands:
            state.follow(command)
        return list(state.commands())

    COME = {"do": "connect", "client": "a", "user": "me"}
    LEAVE = {"do": "disconnect", "client": "a"}
    ASK = {"do": "subscribe", "client": "a", "filter": "x", "qos": 1}
    TELL = {"do": "publish", "client": "a", "topic": "x", "payload": "p", "retain": True}
    KEEP = COME | {"session_expiry": 9}

    def test_what_stands_at_the_end(self):
        quiet = self.ASK | {"handling": 2}
        self.assertEqual(self.state_after(self.COME, self.ASK), [self.COME, quiet])
        self.assertEqual(self.state_after(self.COME, self.ASK,
                                          {"do": "unsubscribe", "client": "a", "filter": "x"}),
                         [self.COME])
        self.assertEqual(self.state_after(self.COME, self.ASK, self.LEAVE), [])
        self.assertEqual(self.state_after(self.COME, self.ASK, self.COME), [self.COME])
        self.assertEqual(
            self.state_after(self.COME, self.TELL, self.LEAVE), [self.COME, self.TELL, self.LEAVE])
        self.assertEqual(
            self.state_after(self.COME, self.TELL, self.TELL | {"payload": ""}), [self.COME])
        self.assertEqual(self.state_after(self.COME, self.ASK | {"filter": "$share/g/x"}),
                         [self.COME, self.ASK | {"filter": "$share/g/x"}])

    def test_sessions(self):
        quiet = self.ASK | {"handling": 2}
        wait = {"do": "advance", "seconds": 4}
        self.assertEqual(self.state_after(self.KEEP, self.ASK, self.LEAVE, wait),
                         [self.COME | {"session_expiry": 5}, quiet, self.LEAVE])
        self.assertEqual(self.state_after(self.KEEP, self.ASK, self.LEAVE, wait, wait, wait), [])
        self.assertEqual(
            self.state_after(self.KEEP, self.ASK, self.LEAVE, wait, self.KEEP | {"clean": False}),
            [self.KEEP, quiet])
        self.assertEqual(self.state_after(self.KEEP, self.ASK, self.LEAVE, self.KEEP), [self.KEEP])

    def test_a_state_gives_itself(self):
        commands = self.state_after(self.COME, self.TELL, self.KEEP | {"client": "b"},
                                    self.ASK | {"client": "b"}, self.LEAVE | {"client": "b"})
        self.assertEqual(self.state_after(*commands), commands)

    def test_denied_publishes(self):
        text = (arrival("a") + published("a", "x", "d0, q0, r1, m0", word="Denied")
                + published("a", "y", "d0, q0, r1, m0"))
        state = written(text)[1].state
        self.assertEqual(list(state.retained), ["y"])

    def test_from_log_to_log(self):
        """Two halves, the second with the state of the first, are like the whole, but for wills ("4
        bytes"), which no script has."""
        lines = (TOP / "brokers/recorded/plain.log").read_text(encoding="utf-8").splitlines(
            True)
        half = next(i for i in range(len(lines) // 2, len(lines)) if "Received PUBLISH" in lines[i])
        with tempfile.TemporaryDirectory() as folder:
            for name, part in (("one", lines[:half]), ("two", lines[half:])):
                Path(folder, name).write_text("".join(part), encoding="utf-8")

            def run(*words: str) -> subprocess.CompletedProcess:
                return subprocess.run([sys.executable, TOOL, *words], cwd=folder,
                                      capture_output=True, text=True, encoding="utf-8")
            first = run("--state", "state", "one")
            second = run("--begin", "state", "two")
            self.assertEqual((first.returncode, second.returncode, len(second.stderr.splitlines())),
                             (0, 0, 1), second.stderr)
            state = Path(folder, "state").read_text(encoding="utf-8")
            self.assertTrue(second.stdout.startswith(state))
            whole = (TOP / "brokers/recorded/plain.jsonl").read_text(encoding="utf-8")
            joined = first.stdout + second.stdout[len(state):]
            commands = [[c for c in map(json.loads, text.splitlines()) if c["do"] != "advance"
                         and c.get("payload") != "4 bytes"] for text in (joined, whole)]
            self.assertEqual(commands[0], commands[1])

    def test_a_file_that_is_no_state(self):
        with tempfile.TemporaryDirectory() as folder:
            Path(folder, "state").write_text("{}\n")
            done = subprocess.run([sys.executable, TOOL, "--begin", "state"], cwd=folder, input="",
                                  capture_output=True, text=True)
            self.assertEqual(
                (done.returncode, done.stderr),
                (2, "log_to_script: state:1: no command of a script: looks like JSON\n"))


if __name__ == "__main__":
    unittest.main()
