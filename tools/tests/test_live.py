"""Live of mqroute.py, on a mosquitto."""
import os
import re
import subprocess
import sys
import tempfile
import unittest

from mosquitto import PAHO, wants_paho
from test_replay import OnABroker
from worked import GUIDE, HERE, PROGRAM, wants_program


@wants_paho
@wants_program
class Live(OnABroker):
    def run_code(self, code: str) -> None:
        code = code.replace("1883", str(self.port))
        done = subprocess.run([PAHO, "-c", code], cwd=HERE, capture_output=True, text=True,
                              timeout=60, env=os.environ | {"MQROUTE": str(PROGRAM)})
        self.assertEqual((done.returncode, done.stderr), (0, ""))

    def test_the_example(self):
        self.start(access="pattern readwrite #\n")
        text = GUIDE.read_text("utf-8")
        [example] = [code for code in re.findall(r"^```python\n(.*?)^```$", text, re.S | re.M)
                     if "import Live" in code]
        self.run_code(example + "test_retained_at_a_subscribe()\ntest_no_local()\n")

    def test_what_is_not_offered_and_left(self):
        """Nothing of the first run is met in the second; a QoS that isn't offered is lowered."""
        self.start("max_qos 1\n")
        self.run_code("""if True:
            from mqroute import Live
            script = [{"do": "connect", "client": "a", "session_expiry": 100},
                      {"do": "subscribe", "client": "a", "filter": "#", "qos": 2},
                      {"do": "publish", "client": "a", "topic": "x", "qos": 2, "retain": True,
                       "payload": "1"}]
            with Live(1883) as live:
                for _ in range(2):
                    assert live.run(script) == []
                    assert live.lacking == {"QoS over 1"}, live.lacking
            with Live(1883, protocol="3.1.1") as live:
                old = [line | {"qos": 1} if "qos" in line else line for line in script]
                assert live.run(old) == []
                assert live.lacking == {"sessions that are kept for some time"}, live.lacking
        """)

    def test_any_member(self):
        """Whichever member mosquitto chooses."""
        self.start()
        group = {"do": "subscribe", "filter": "$share/g/x"}
        script = [{"do": "connect", "client": name} for name in "ab"]
        script += [group | {"client": name} for name in "ba"]
        script += [{"do": "publish", "client": "a", "topic": "x", "payload": str(n)}
                   for n in range(3)]
        self.run_code(f"""if True:
            from mqroute import Live
            with Live(1883, any_member=True) as live:
                assert live.run({script!r}) == []
        """)

    def test_no_broker(self):
        self.run_code("""if True:
            from mqroute import Fault, Live
            try:
                Live(1883)
            except Fault as fault:
                assert str(fault).startswith("no broker at 127.0.0.1 port 1883: "), fault
            else:
                raise AssertionError
        """)


class WithoutPaho(unittest.TestCase):
    def test_the_oracle_does_without(self):
        with tempfile.TemporaryDirectory() as folder:
            code = ("import importlib.util, mqroute\n"
                    "importlib.util.find_spec = lambda name: None\n"
                    "mqroute.Oracle\n"
                    "try:\n    mqroute.Live(1883)\n"
                    "except ModuleNotFoundError as fault:\n    print(fault)\n")
            done = subprocess.run([sys.executable, "-c", code], cwd=folder, capture_output=True,
                                  text=True, env=os.environ | {"PYTHONPATH": str(HERE)})
            self.assertEqual((done.stdout, done.stderr),
                             ("Live needs the package python3-paho-mqtt\n", ""))


if __name__ == "__main__":
    unittest.main()
