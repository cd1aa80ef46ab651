"""A script on a live broker, where mosquitto and paho are there."""
import io
import json
import os
import shutil
import subprocess
import sys
import tempfile
import unittest
import unittest.mock
from pathlib import Path

import mosquitto
from mosquitto import PAHO, wants_paho
from worked import HERE, PROGRAM, wants_program
from mqroute_tools.common.progress import Progress


class OnATerminal(unittest.TestCase):
    def test_progress(self):
        """Shown on a terminal alone, and gone before anything else is written."""
        for is_terminal, wanted in ((True, "line 3 of 9\r           \r"), (False, "")):
            shown = io.StringIO()
            shown.isatty = lambda: is_terminal
            with unittest.mock.patch("sys.stderr", shown):
                progress = Progress()
                progress.at(2, 9)
                progress.next = 0
                progress.at(3, 9)
                progress.clear()
                progress.clear()
            self.assertEqual(shown.getvalue(), wanted)


class WithoutPaho(unittest.TestCase):
    def test_status(self):
        with tempfile.TemporaryDirectory() as folder:
            Path(folder, "paho.py").write_text("raise ImportError")
            done = subprocess.run(
                [sys.executable, HERE / "replay.py", "x", "y"], capture_output=True, text=True,
                env=os.environ | {"PYTHONPATH": folder})
            self.assertEqual((done.returncode, done.stderr),
                             (2, "replay: needs the package python3-paho-mqtt\n"))


class OnABroker(unittest.TestCase):
    CONF = ("listener {port} 127.0.0.1\nallow_anonymous true\nuser {user}\npersistence false\n"
            "sys_interval 0\nlog_dest none\nacl_file {folder}/acl\n")

    def setUp(self):
        self.folder = tempfile.TemporaryDirectory()
        self.addCleanup(self.folder.cleanup)
        os.chmod(self.folder.name, 0o755)
        self.port = mosquitto.free_port()

    def start(self, more: str = "", access: str = "pattern readwrite #\n") -> int:
        folder = self.folder.name
        Path(folder, "acl").write_text(access)
        Path(folder, "conf").write_text(
            self.CONF.format(port=self.port, folder=folder, user=subprocess.getoutput("id -un"))
            + more)
        return mosquitto.start(self, Path(folder, "conf"), self.port)

    def write_files(self, script: list, output: list) -> None:
        for name, lines in (("script", script), ("output", output)):
            texts = (line if isinstance(line, str) else json.dumps(line, separators=(",", ":"))
                     for line in lines)
            Path(self.folder.name, name).write_text("".join(text + "\n" for text in texts))

    def run_script(self, script: list, output: list, *words: str) -> tuple[int, str, str]:
        self.write_files(script, output)
        done = subprocess.run(
            [PAHO, HERE / "replay.py", "--port", str(self.port), *words, "script", "output"],
            cwd=self.folder.name, capture_output=True, text=True, timeout=60)
        return done.returncode, done.stdout, done.stderr

    CONNECT = {"do": "connect", "client": "a"}
    PUBLISH = {"do": "publish", "client": "a", "topic": "x", "payload": "p", "qos": 1}
    SUBSCRIBE = {"do": "subscribe", "client": "a", "filter": "#", "qos": 1}
    GOT = {"client": "a", "line": 3, "payload": "p", "qos": 1, "retain": False, "topic": "x"}

    def done(self, *reasons: int) -> list[dict]:
        return [{"line": n, "reason": r} for n, r in enumerate(reasons, 1)]


@wants_paho
class Runs(OnABroker):
    def test_outputs_that_are_not_of_the_script(self):
        script = [self.CONNECT, "", self.PUBLISH]
        for output in (
                [], self.done(0), [{"line": 1, "reason": 0}, {"line": 3, "reason": 17}],
                self.done(0, 0, 0),
                [{"line": 1, "reason": 0}, self.GOT | {"topic": "y"}, {"line": 3, "reason": 0}],
                ["no"]):
            # there is no broker: it isn't asked
            status, out, listed = self.run_script(script, output)
            self.assertEqual((status, out, len(listed.splitlines())), (2, "", 1), output)
            self.assertNotIn("refused", listed)

    def test_what_is_sent(self):
        self.start()
        faulty = {"do": "publish", "client": "a", "topic": "+"}
        refused = {"code": 8, "line": 3, "refused": "TopicName"}
        script = [self.CONNECT, self.SUBSCRIBE, faulty, {"do": "stat"}]
        stat = {"line": 4, "nodes": 1, "retained": 0, "subscriptions": 1}
        self.assertEqual(self.run_script(script, [*self.done(0, 1), refused, stat]), (0, "", ""))

    def test_the_same_and_not(self):
        self.start()
        script = [self.CONNECT, self.SUBSCRIBE, self.PUBLISH]
        self.assertEqual(
            self.run_script(script, [*self.done(0, 1), self.GOT, {"line": 3, "reason": 0}]),
            (0, "", ""))
        status, out, _ = self.run_script(script, [*self.done(0, 1), {"line": 3, "reason": 16}])
        self.assertEqual((status, out.splitlines()[1:]),
                         (1, ["   a x", "      mqroute: nothing",
                              '      broker:  qos 1, retain false, payload "p"']))
        status, out, _ = self.run_script([self.CONNECT, self.PUBLISH], self.done(0, 0))
        self.assertEqual((status, out.splitlines()[1:]), (1, ["   reason: mqroute 0, broker 16"]))

    def test_a_wait_of_more_than_a_day(self):
        script = [{"do": "advance", "seconds": 86_401}]
        status, out, listed = self.run_script(script, self.done(0))
        said = "advance waits in real time, and 86401 seconds are over a day"
        self.assertEqual((status, out, listed), (2, "", f"replay: script:1: {said}\n"))

    def test_no_broker(self):
        status, out, listed = self.run_script([self.CONNECT], self.done(0))
        said = f"the broker at 127.0.0.1 port {self.port}: Connection refused"
        self.assertEqual((status, out, listed), (2, "", f"replay: script:1: {said}\n"))

    def test_a_script_without_a_command(self):
        found = self.run_script(["no json"], ['{"code":2,"line":1,"refused":"BadJson"}'])
        said = "replay: script: no line is a command: its first line: no json\n"
        self.assertEqual(found, (2, "", said))

    def test_access_lists(self):
        pid = self.start()
        script = [self.CONNECT, self.SUBSCRIBE, {"do": "acl", "text": "topic read #"}, self.PUBLISH,
                  {"do": "acl"}, self.PUBLISH]
        output = [*self.done(0, 1, 0), {"code": 11, "line": 4, "refused": "NotAuthorized"},
                  {"line": 5, "reason": 0}, self.GOT | {"line": 6}, {"line": 6, "reason": 0}]
        command = f'cp "$MQROUTE_ACL" "{self.folder.name}/acl" && kill -HUP {pid}'
        self.assertEqual(self.run_script(script, output, "--on-acl", command), (0, "", ""))
        wanted = "sets an access list: give --on-acl, a command that lets the broker read one"
        for words, said in (((), wanted),
                            (("--on-acl", "false"), "the command of --on-acl ended with status 1")):
            found = self.run_script(script, output, *words)
            self.assertEqual(found, (2, "", f"replay: script:3: {said}\n"))

    def test_user_and_password(self):
        names = f"{self.folder.name}/passwords"
        Path(names).write_text("me:secret\nops:secret\n")
        if (not shutil.which("mosquitto_passwd")
                or subprocess.run(["mosquitto_passwd", "-U", names]).returncode):
            self.skipTest("there is no mosquitto_passwd")
        os.chmod(names, 0o644)
        self.start(f"password_file {names}\nallow_anonymous false\n")
        script = [self.CONNECT, self.CONNECT | {"client": "b", "user": "ops"}]
        output = self.done(0, 0)
        self.assertEqual(self.run_script(script, output)[0], 2)
        self.assertEqual(
            self.run_script(script, output, "--username", "me", "--password", "secret"),
            (0, "", ""))

    def test_wills(self):
        """What a client publishes and is gone at once is sent by the broker, when it sees
        that the connection is gone."""
        self.start()
        will = {"do": "publish", "client": "b", "topic": "x", "payload": "will", "qos": 1,
                "retain": True}
        clear = {"do": "publish", "client": "a", "topic": "x", "retain": True}
        script = [self.CONNECT, self.SUBSCRIBE, {"do": "connect", "client": "b"}, will,
                  {"do": "disconnect", "client": "b"}, self.SUBSCRIBE, clear]
        got = self.GOT | {"payload": "will"}
        output = [*self.done(0, 1, 0), got | {"line": 4}, {"line": 4, "reason": 0},
                  {"line": 5, "reason": 0},
                  got | {"line": 6, "retain": True}, {"line": 6, "reason": 1},
                  self.GOT | {"line": 7, "payload": "", "qos": 0}, {"line": 7, "reason": 0}]
        for words in ((), ("--wills",)):
            self.assertEqual(self.run_script(script, output, *words), (0, "", ""))
        status, out, _ = self.run_script(script, [*output[:3], *output[4:]], "--wills")
        self.assertEqual(
            (status, out.splitlines()[0]), (1, 'line 5: {"do": "disconnect", "client": "b"}'))
        self.assertIn('      broker:  qos 1, retain false, payload "will"', out)

    def test_which_are_wills(self):
        code = """if True:
            import json
            from mqroute_tools.script.output import Block
            from mqroute_tools.live.wills import Wills
            def lines(*commands, mine=False):
                copy = {"client": "a", "line": 2, "payload": "will", "qos": 0, "retain": False,
                        "topic": "x"}
                copies = [json.dumps(copy)] if mine else []
                return [(n, c, Block(n, copies if c["do"] == "publish" else [], 0, None))
                        for n, c in enumerate(commands, 1)]
            a, gone = {"do": "connect", "client": "a"}, {"do": "disconnect", "client": "a"}
            other = {"do": "disconnect", "client": "b"}
            will = {"do": "publish", "client": "a", "topic": "x", "payload": "will"}
            found = Wills(lines(a, will, gone))
            places = set(found.given), found.published, set(found.due)
            assert places == ({1}, {2}, {3}), vars(found)
            for not_one in (lines(a, will, gone, mine=True),
                            lines(a, will | {"payload": "x"}, gone),
                            lines(a, will, {"do": "stat"}, gone), lines(will, gone),
                            lines(a, will, other)):
                assert not vars(Wills(not_one))["due"], not_one
        """
        done = subprocess.run(
            [sys.executable, "-c", code], cwd=HERE, capture_output=True, text=True)
        self.assertEqual((done.returncode, done.stderr), (0, ""))

    def test_denied_publishes(self):
        self.start(access="topic read #\n")
        script = [self.CONNECT] + [self.PUBLISH | {"qos": q} for q in (0, 1, 2)]
        output = ([{"line": 1, "reason": 0}]
                  + [{"code": 11, "line": n, "refused": "NotAuthorized"} for n in (2, 3, 4)])
        self.assertEqual(self.run_script(script, output), (0, "", ""))
        status, out, _ = self.run_script(script, self.done(0, 16, 16, 16))
        self.assertEqual((status, out.count("   reason: mqroute 16, broker 135\n")), (1, 2))

    def test_what_a_connack_does_not_offer(self):
        """mosquitto can't do without these."""
        code = """if True:
            from types import SimpleNamespace
            from mqroute_tools.live.paho_client import Offer
            poor = Offer(SimpleNamespace(
                SharedSubscriptionAvailable=0, WildcardSubscriptionAvailable=0,
                SubscriptionIdentifierAvailable=0))
            from mqroute_tools.live.script_fitting import fitted_script
            lines = [b'{"do":"subscribe","client":"a","filter":"$share/g/x"}\\n', b"\\n",
                     b'{"do":"subscribe","client":"a","filter":"x","id":1}\\n',
                     b'{"do":"unsubscribe","client":"a","filter":"x/+"}\\n', b'{"do":"stat"}\\n']
            fitted, listed = fitted_script(lines, {1, 3, 4}, poor)
            without = b'{"do": "subscribe", "client": "a", "filter": "x"}\\n'
            assert fitted == [b"\\n", b"\\n", without, b"\\n", lines[4]], fitted
            assert sorted(listed.values()) == [1, 1, 1], listed
            assert fitted_script(lines, {1, 3, 4}, Offer()) == (lines, {})
            for command, wanted in (({"filter": "$share/g/x"}, "shared subscriptions"),
                                    ({"filter": "x/+"}, "wildcards in filters"),
                                    ({"filter": "x", "id": 1}, "subscription identifiers"),
                                    ({"filter": "x"}, "")):
                command["do"] = "subscribe"
                assert poor.lacks(command) == wanted and Offer().lacks(command) == "", command
        """
        done = subprocess.run([PAHO, "-c", code], cwd=HERE, capture_output=True, text=True)
        self.assertEqual((done.returncode, done.stderr), (0, ""))

    def test_what_a_connection_that_is_gone_had_to_write(self):
        """As after Ctrl-C in the middle of a packet: it isn't waited for."""
        code = """if True:
            from types import SimpleNamespace
            from mqroute_tools.live.paho_client import Connection
            gone = Connection.__new__(Connection)
            gone.client = SimpleNamespace(want_write=lambda: True, socket=lambda: None,
                                          loop_write=lambda: None)
            gone.write()
        """
        done = subprocess.run([PAHO, "-c", code], cwd=HERE, capture_output=True, text=True,
                              timeout=20)
        self.assertEqual((done.returncode, done.stderr), (0, ""))

    @wants_program
    def test_what_is_not_offered(self):
        self.start("max_qos 1\nretain_available false\n")
        script = [self.CONNECT, self.SUBSCRIBE, self.PUBLISH | {"qos": 2},
                  self.PUBLISH | {"retain": True}, self.PUBLISH]
        output = [*self.done(0, 1), self.GOT, {"line": 3, "reason": 0}, self.GOT | {"line": 4},
                  {"line": 4, "reason": 0}, self.GOT | {"line": 5}, {"line": 5, "reason": 0}]
        listed = (
            "replay: the broker doesn't offer QoS over 1: 1 line sent with QoS 1\n"
            "replay: the broker doesn't offer retained messages: 1 line sent without RETAIN\n")
        self.assertEqual(self.run_script(script, output), (0, "", listed))

    @wants_program
    def test_what_follows_from_it(self):
        """mqroute answers what was sent: nothing is retained, and the last
        message comes with QoS 1."""
        access = "pattern readwrite #\npattern deny secret\n"
        self.start("max_qos 1\nretain_available false\n", access=access)
        kept = {"do": "publish", "client": "a", "topic": "x", "payload": "p", "retain": True}
        denied = {"do": "publish", "client": "a", "topic": "secret"}
        script = [
            "", self.CONNECT, kept, kept | {"topic": "+"}, denied, self.SUBSCRIBE | {"qos": 2},
            self.PUBLISH | {"qos": 2}]
        text = "".join((json.dumps(line) if line else "") + "\n" for line in script)
        acl = Path(self.folder.name, "acl")
        done = subprocess.run(
            [PROGRAM, "--acl-file", acl], input=text, capture_output=True, text=True)
        output = done.stdout.splitlines()
        self.assertEqual(sum('"retain":true' in line for line in output), 1)
        status, out, listed = self.run_script(script, output, "--acl-file", "acl")
        self.assertEqual((status, out), (0, ""), listed)
        status, out, listed = self.run_script(script, output)
        self.assertEqual((status, out, "--acl-file" in listed), (2, "", True))

    def test_topics_of_the_broker(self):
        self.start("sys_interval 1\n", access="topic read $SYS/#\n")
        script = [self.CONNECT, self.SUBSCRIBE | {"filter": "$SYS/broker/version"}]
        listed = ("replay: 1 copy of topics under $SYS/, which the broker publishes itself, "
                  "are left out\n")
        self.assertEqual(self.run_script(script, self.done(0, 1)), (0, "", listed))


if __name__ == "__main__":
    unittest.main()
