"""--conf of mqroute-replay: the port, the list, the rules and the limits of a broker's own
mosquitto.conf."""
import argparse
import subprocess
import unittest
from pathlib import Path

from mosquitto import PAHO, wants_paho
from test_replay import OnABroker
from worked import HERE, PROGRAM, wants_program
from mqroute_tools.common.exit_status import Fault
from mqroute_tools.live.by_conf import take_conf


class Taken(OnABroker):
    def taken(self, text: str, **given: object) -> argparse.Namespace:
        conf = Path(self.folder.name, "mosquitto.conf")
        conf.write_text(text)
        options = {"conf": str(conf), "port": None, "websockets": None, "tls": False, "all": None,
                   "acl_file": None, "rules": None, "max_queued": None} | given
        found = argparse.Namespace(**options)
        take_conf(found)
        return found

    def test_what_it_says(self):
        found = self.taken("listener 8883\ncertfile x\nacl_file /etc/mosquitto/acl\n"
                           "max_queued_messages 7\n")
        self.assertEqual((found.port, found.tls, found.acl_file, found.rules, found.max_queued),
                         (8883, True, "/etc/mosquitto/acl", "mosquitto", 7))
        found = self.taken("listener 9001\nprotocol websockets\n")
        self.assertEqual((found.port, found.websockets, found.acl_file, found.max_queued),
                         (9001, "/mqtt", None, 1000))

    def test_what_is_given(self):
        found = self.taken("listener 1884\nacl_file a\nmax_queued_messages 7\n", port=1884,
                           acl_file="b", rules="own", max_queued=3)
        self.assertEqual((found.acl_file, found.rules, found.max_queued), ("b", "own", 3))

    def test_without_it(self):
        self.assertEqual(self.taken("", conf=None).port, 1883)
        self.assertEqual(self.taken("", conf=None, port=5).port, 5)

    def test_of_many_cases(self):
        """Each has a list and limits of its own."""
        found = self.taken("listener 1884\nacl_file a\n", all=Path("conformance"))
        self.assertEqual((found.port, found.acl_file, found.rules, found.max_queued),
                         (1884, None, None, None))

    def test_several_listeners(self):
        lists = ("per_listener_settings true\nlistener 1884\nacl_file a\nlistener 1885\n"
                 "acl_file b\n")
        self.assertEqual(self.taken(lists, port=1885).acl_file, "b")
        for text, port, said in (
                (lists, None, "say by --port which listener to talk to: port 1884, port 1885"),
                (lists, 1883, "no listener on port 1883: port 1884, port 1885"),
                ("listener 0 /run/mosquitto\n", None, "listener to talk to: none has a port"),
                ("listener 1884\nplugin /lib/x.so\n", None, "the plugin x.so decides"),
                ("per_listener_settings true\nacl_file a\nlistener 1884\n", None,
                 "in force for no listener")):
            with self.subTest(text=text, port=port), self.assertRaisesRegex(Fault, said):
                self.taken(text, port=port)


@wants_paho
@wants_program
class OnOne(OnABroker):
    def replayed(self, *words: str) -> tuple[int, str, str]:
        done = subprocess.run([PAHO, HERE / "replay.py", *words, "script", "output"],
                              cwd=self.folder.name, capture_output=True, text=True, timeout=60)
        return done.returncode, done.stdout, done.stderr

    def test_runs_again_as_the_broker_decides(self):
        """Where the broker lacks something mqroute runs again: with the broker's list."""
        self.start("retain_available false\nqueue_qos0_messages true\n",
                   "topic read #\ntopic write x\n")
        script = [self.CONNECT, self.SUBSCRIBE, self.PUBLISH | {"retain": True},
                  self.PUBLISH | {"topic": "y"}]
        self.write_files(script, [])
        with open(Path(self.folder.name, "output"), "wb") as out:
            subprocess.run([PROGRAM, "--acl-file=acl", "--rules=mosquitto", "--max-queued=1000",
                            "script"], cwd=self.folder.name, stdout=out)
        status, shown, said = self.replayed("--port", str(self.port))
        self.assertEqual((status, shown), (2, ""))
        self.assertIn("mqroute has to run again, and wrote output with other options", said)
        status, shown, said = self.replayed("--conf", "conf")
        self.assertEqual((status, shown), (0, ""), said)
        self.assertIn("queue_qos0_messages true: messages of QoS 0 wait", said)


if __name__ == "__main__":
    unittest.main()
