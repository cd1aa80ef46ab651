"""The guide's page on clients that change one by one, on a mosquitto: its blocks, the bridge with
clients under old and new names, and a day in which some have changed."""
import os
import pwd
import re
import shutil
import subprocess
import sys
import time
import unittest
from collections.abc import Callable
from pathlib import Path

import mosquitto
from mosquitto import PAHO, wants_paho
from test_plan import wants_programs
from test_plan_plant import OF_THE_BRIDGE, Folder
from worked import HERE, PROGRAM, TOP
from mqroute_tools.plan.bridge import both_sides
from mqroute_tools.plan.day_end import day_end, under
from mqroute_tools.plan.kept import kept_of
from mqroute_tools.plan.list_translation import translated
from mqroute_tools.plan.script_translation import read_lines
from mqroute_tools.plan.topic_plan import read_plan, read_text
from mqroute_tools.plan.translator import Translator

PAGE = TOP / "docs/guide/topic-plan-clients.md"
BY_HAND = re.compile(r"`(mosquitto_sub [^`]*mosquitto_pub [^`]*)`")
PATIENCE = 20  # seconds
NEEDED = ("mosquitto_sub", "mosquitto_pub", "jq")
BINARY = b"\xff\xfe\0abc"
Row = tuple[str, bytes]


class Live(Folder):
    """A broker under the list with both names."""

    def setUp(self) -> None:
        for name in NEEDED:
            if shutil.which(name) is None:
                self.skipTest(f"there is no {name}")
        for path in (self.folder, *self.folder.glob("*.sh")):
            path.chmod(0o755)
        plan = read_plan(str(self.folder / "plan"))
        both = translated(Translator(plan), read_text(str(self.folder / "current.acl")),
                          "current.acl", both=True)
        (self.folder / "both.acl").write_text(both.text + OF_THE_BRIDGE, "utf-8")
        self.sides = both_sides(plan)
        self.begin_broker()

    def begin_broker(self) -> None:
        """A new one."""
        self.port, self.log = mosquitto.free_port(), self.folder / "log"
        self.log.unlink(missing_ok=True)
        conf = self.folder / "conf"
        conf.write_text(f"listener {self.port} 127.0.0.1\nallow_anonymous true\npersistence false\n"
                        f"user {pwd.getpwuid(os.geteuid()).pw_name}\nlog_dest file {self.log}\n"
                        f"log_type all\nsys_interval 0\nacl_file {self.folder / 'both.acl'}\n")
        mosquitto.start(self, conf, self.port)
        self.where = ["-h", "127.0.0.1", "-p", str(self.port), "-V", "5"]

    def wait_for(self, happened: Callable[[], bool]) -> None:
        until = time.monotonic() + PATIENCE
        while not happened():
            self.assertLess(time.monotonic(), until, "it takes too long")
            time.sleep(0.05)

    def wait_for_log(self, line: str, times: int = 1) -> None:
        self.wait_for(lambda: self.log.read_text("utf-8", "replace").count(line) >= times)

    def started(self, words: list[object], out: Path | int = subprocess.DEVNULL,
                **more: object) -> subprocess.Popen:
        """A process until the end of the test."""
        stream = open(out, "wb") if isinstance(out, Path) else out
        process = subprocess.Popen(list(map(str, words)), stdout=stream, cwd=self.folder,
                                   stderr=subprocess.DEVNULL, **more)
        if isinstance(out, Path):
            stream.close()
        self.addCleanup(process.wait)
        self.addCleanup(process.kill)
        return process

    def begin_bridge(self) -> subprocess.Popen:
        """By the command of the page."""
        command = self.block("bridge.py").replace(" broker 1883 ", f" 127.0.0.1 {self.port} ")
        words = command.split()
        self.assertEqual(words[:3], ["PYTHONPATH=../../tools", "python3", "bridge.py"])
        bridge = self.started([PAHO, *words[2:]], env=os.environ | {"PYTHONPATH": str(HERE)})
        self.wait_for_log("Sending SUBACK to plan-bridge\n", len(self.sides))
        return bridge

    def subscriber(self, client: str, *filters: str) -> Path:
        """What it is sent, a line each, goes to a file."""
        out = self.folder / f"of-{client}"
        topics = [word for wanted in filters for word in ("-t", wanted)]
        self.started(["mosquitto_sub", *self.where, "-i", client, "-u", "ops", "-q", "2", *topics,
                      "-F", "%t %r %p"], out)
        self.wait_for_log(f"Sending SUBACK to {client}\n")
        return out

    def publish(self, topic: str, payload: bytes, *words: str) -> None:
        what = ["-s"] if payload else ["-n"]
        subprocess.run(["mosquitto_pub", *self.where, "-u", "ops", "-q", "1", "-t", topic, *what,
                        *words], input=payload, check=True, timeout=PATIENCE)

    def lines(self, out: Path, count: int) -> list[str]:
        """Once so many are there; more come late if they come."""
        self.wait_for(lambda: out.read_text("utf-8").count("\n") >= count)
        time.sleep(0.5)
        return sorted(out.read_text("utf-8").splitlines())

    def retained(self) -> set[Row]:
        """Of the topics of the plant, old and new."""
        done = subprocess.run(
            ["mosquitto_sub", *self.where, "-u", "ops", "-t", "#", "--retained-only", "-W", "1",
             "-F", "%t %x"], capture_output=True, encoding="utf-8", timeout=PATIENCE)
        self.assertEqual(done.returncode, 27, done.stderr)
        return {(topic, bytes.fromhex(payload)) for topic, _, payload in
                (line.rpartition(" ") for line in done.stdout.splitlines())}

    # -- the page

    def block(self, has: str, place: int = 0) -> str:
        """One of those that aren't run elsewhere."""
        blocks = PAGE.read_text("utf-8").split("```\n")[1::2]
        return [one for one in blocks if has in one and not one.startswith("$ ")][place]

    def on_this_broker(self, block: str) -> subprocess.CompletedProcess:
        tools = self.folder / "tools"
        tools.mkdir(exist_ok=True)
        program = tools / "mqr"
        program.write_text(f"#!/bin/sh\nexec {sys.executable} {HERE / 'mqr.py'} \"$@\"\n")
        program.chmod(0o755)
        block = block.replace("-h broker", f"-h 127.0.0.1 -p {self.port}").replace(
            "what-is-retained.sh 5 ", "what-is-retained.sh 1 ")
        return subprocess.run(
            ["sh", "-c", block], cwd=self.folder, capture_output=True, encoding="utf-8",
            timeout=3 * PATIENCE, env=os.environ | {"PATH": f"{tools}:{os.environ['PATH']}"})


@wants_paho
@wants_programs
class Page(Live):
    def test_what_is_retained(self):
        """Copied, and cleared when the last client has changed."""
        old = {"plant/hall 1/energy": b'5 "kWh"\n', "plant/h/heat": b"7",
               "plant/h/line1/gate/raw/a": BINARY}
        new = {"acme/a/halls/hall 1/meters/energy": b'5 "kWh"\n',
               "acme/a/halls/h/meters/heat": b"newer",
               "acme/a/halls/h/lines/line1/gate/raw/a": BINARY}
        for topic, payload in (old | {"acme/a/halls/h/meters/heat": b"newer"}).items():
            self.publish(topic, payload, "-r")
        done = self.on_this_broker(self.block("retained --both plan"))
        self.assertIn("plant/h/line1/gate/raw/a: its payload isn't known: it can be cleared, and "
                      "not moved\n", done.stderr)
        self.assertIn("plant/h/heat: another payload or QoS is retained under the new name already",
                      done.stderr)
        binary = {"acme/a/halls/h/lines/line1/gate/raw/a"}
        self.assertEqual(self.retained(), {
            *old.items(), *((topic, payload) for topic, payload in new.items()
                            if topic not in binary)})
        [by_hand] = BY_HAND.findall(PAGE.read_text("utf-8"))
        for name, topic in (("OLD", "plant/h/line1/gate/raw/a"), ("NEW", *binary)):
            by_hand = by_hand.replace(f"-t {name}", f"-t {topic}")
        self.on_this_broker(by_hand)
        self.assertEqual(self.retained(), {*old.items(), *new.items()})
        self.on_this_broker(self.block("clear.jsonl"))
        self.assertEqual(self.retained(), {*new.items()})
        done = self.on_this_broker(self.block("retained plan kept.jsonl\n"))
        self.assertEqual((done.stdout, done.returncode), ("", 0), done.stderr)

    def test_no_broker(self):
        """Nothing is said to be retained."""
        block = self.block("retained --both plan").splitlines()[0]
        done = self.on_this_broker(block.replace("-h broker", "-h 127.0.0.1 -p 1"))
        self.assertEqual((done.returncode, (self.folder / "kept.jsonl").read_text()), (2, ""))

    def test_properties(self):
        """The expiry stays, as the page says."""
        self.publish("plant/h/water", b"1", "-r", "-D", "publish", "message-expiry-interval", "500")
        self.on_this_broker(self.block("clear.jsonl"))
        done = subprocess.run(
            ["mosquitto_sub", *self.where, "-u", "ops", "-t", "acme/#", "-C", "1", "-W", "5", "-F",
             "%t %E"], capture_output=True, encoding="utf-8", timeout=PATIENCE)
        topic, expiry = done.stdout.split()
        self.assertEqual(topic, "acme/a/halls/h/meters/water")
        self.assertTrue(400 < int(expiry) <= 500, expiry)


@wants_paho
@wants_programs
class Bridge(Live):
    def test_both_names(self):
        """Each client gets each message once, under the names that it uses."""
        self.begin_bridge()
        old = self.subscriber("old", "plant/+/energy", "plant/+/door/+")
        new = self.subscriber("new", "acme/a/halls/+/meters/energy", "acme/a/halls/+/doors/+/state")
        every = self.subscriber("all", "#")
        self.publish("plant/h1/energy", b"1", "-r")
        self.publish("acme/a/halls/h2/meters/energy", b"2")
        self.publish("plant/h1/door/order", b"3")  # two of the bridge's filters match it
        self.publish("office/x", b"4")
        self.assertEqual(self.lines(old, 3), [
            "plant/h1/door/order 0 3", "plant/h1/energy 0 1", "plant/h2/energy 0 2"])
        self.assertEqual(self.lines(new, 3), [
            "acme/a/halls/h1/doors/order/state 0 3", "acme/a/halls/h1/meters/energy 0 1",
            "acme/a/halls/h2/meters/energy 0 2"])
        self.assertEqual(len(self.lines(every, 7)), 7)
        self.assertEqual(self.retained(), {
            ("plant/h1/energy", b"1"), ("acme/a/halls/h1/meters/energy", b"1")})

    def test_what_waits_for_it(self):
        """And what is retained isn't carried when it begins."""
        self.publish("plant/h1/heat", b"old", "-r")
        bridge = self.begin_bridge()
        bridge.kill()
        bridge.wait()
        new = self.subscriber("later", "acme/a/halls/+/meters/+")
        self.publish("plant/h1/energy", b"1")
        self.begin_bridge()
        self.assertEqual(self.lines(new, 1), ["acme/a/halls/h1/meters/energy 0 1"])

    def test_who_is_away(self):
        """While the bridge runs, messages wait under old names, as the broker's log shows it."""
        self.begin_bridge()
        words = ["mosquitto_sub", *self.where[:-1], "311", "-c", "-i", "away", "-u", "ops", "-q",
                 "1", "-t", "plant/+/energy"]
        subprocess.run([*words, "-E"], check=True, timeout=PATIENCE)
        self.wait_for_log("Client away disconnected")
        every = self.subscriber("every", "plant/#")
        self.publish("acme/a/halls/h1/meters/energy", b"1")
        self.lines(every, 1)
        script = self.done(self.log, tool="log_to_script.py").stdout
        (self.folder / "day").write_text(script, "utf-8")
        end = day_end(read_lines(str(self.folder / "day")), under(None, None))
        [away] = kept_of(Translator(read_plan(str(self.folder / "plan"))), end, False).sessions
        self.assertEqual((away.away.client, away.waiting, away.becomes), (
            "away", 1, {"plant/+/energy": ["acme/a/halls/+/meters/energy"]}))
        done = subprocess.run([*words, "-C", "1", "-W", "5", "-F", "%t %p"], capture_output=True,
                              encoding="utf-8", timeout=PATIENCE)
        self.assertEqual(done.stdout, "plant/h1/energy 1\n")

    def test_a_clear_while_it_runs(self):
        """It clears the new name too: that is why the page ends it before."""
        self.begin_bridge()
        new = self.subscriber("cleared", "acme/a/halls/+/meters/energy")
        self.publish("plant/h1/energy", b"1", "-r")
        self.lines(new, 1)
        self.publish("plant/h1/energy", b"", "-r")
        self.lines(new, 2)
        self.assertEqual(self.retained(), set())


@wants_paho
@wants_programs
class Days(Live):
    def test_each_group(self):
        """With the clients of the page's groups moved, and the bridge's lines in the script, the
        broker does what mqroute says, message by message."""
        day = [line for line in (self.folder / "day.jsonl").read_text("utf-8").splitlines()
               if '"advance"' not in line]
        (self.folder / "day").write_text("\n".join(day) + "\n", "utf-8")
        [groups] = re.findall(r"for group in (.*); do", PAGE.read_text("utf-8"))
        moved = [group.strip("'") for group in groups.split()]
        self.assertEqual(moved, ["meter-*", "plc-*", "dash-*"])
        for count in range(1, len(moved) + 1):
            (self.folder / "so-far").write_text("\n".join(moved[:count]))
            self.written("new.jsonl", "script", "--moved", "so-far", "--bridge",
                         "plan-bridge:bridge", "--acl-file", "both.acl", "plan", "day")
            with self.subTest(moved=moved[:count]):
                self.begin_broker()
                self.replay()

    def replay(self) -> None:
        script = (self.folder / "new.jsonl").read_text("utf-8")
        self.assertGreater(script.count('"client":"plan-bridge"'), 200)
        done = subprocess.run([PROGRAM, "--rules", "mosquitto", "--acl-file", "both.acl",
                               "new.jsonl"], cwd=self.folder, capture_output=True)
        (self.folder / "output").write_bytes(done.stdout)
        done = subprocess.run(
            [PAHO, HERE / "replay.py", "--port", str(self.port), "new.jsonl", "output"],
            cwd=self.folder, capture_output=True, encoding="utf-8", timeout=200)
        self.assertEqual((done.returncode, done.stdout), (0, ""), done.stderr)


if __name__ == "__main__":
    unittest.main()
