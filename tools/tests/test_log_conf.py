"""--conf of the tools that read a log: which log, its times, and for mqroute-why the list."""
import json
import subprocess
import sys
import tempfile
import unittest
from datetime import datetime, timezone
from pathlib import Path

from worked import HERE, PROGRAM, TOP, wants_program

RECORDED = TOP / "brokers/recorded"


class ByConf(unittest.TestCase):
    def setUp(self) -> None:
        folder = tempfile.TemporaryDirectory()
        self.addCleanup(folder.cleanup)
        self.folder = Path(folder.name)
        self.conf = self.folder / "mosquitto.conf"
        for name in ("plain.acl", "plain.log"):
            (self.folder / name).write_bytes((RECORDED / name).read_bytes())
        self.write("log_type all\n")

    def write(self, more: str) -> None:
        self.conf.write_text("listener 18871\nacl_file /etc/mosquitto/plain.acl\n"
                             f"log_dest file /var/log/mosquitto/plain.log\n{more}")

    def shown(self, name: str, *words: object) -> subprocess.CompletedProcess:
        return subprocess.run([sys.executable, HERE / name, "--conf", str(self.conf),
                               *map(str, words)], capture_output=True, encoding="utf-8")

    def test_script(self):
        done = self.shown("log_to_script.py")
        self.assertEqual(done.stdout, (RECORDED / "plain.jsonl").read_text("utf-8"))
        self.assertIn("/var/log/mosquitto/plain.log isn't here: ", done.stderr)

    def test_times(self):
        """In the form that the configuration has."""
        form = "%d.%m.%Y %H:%M:%S"
        lines = (line.partition(": ") for line in (RECORDED / "plain.log").read_text("utf-8")
                 .splitlines(keepends=True))
        (self.folder / "plain.log").write_text("".join(
            f"{datetime.fromtimestamp(int(time), timezone.utc):{form}}: {text}"
            for time, _, text in lines), "utf-8")
        self.assertEqual(self.shown("log_to_script.py").returncode, 2)
        self.write(f"log_type all\nlog_timestamp_format {form}\n")
        self.assertEqual(self.shown("log_to_script.py").stdout,
                         (RECORDED / "plain.jsonl").read_text("utf-8"))

    def test_a_log_that_is_given(self):
        self.write("log_type error\n")
        done = self.shown("log_to_script.py", self.folder / "plain.log")
        self.assertEqual((done.returncode, done.stdout),
                         (0, (RECORDED / "plain.jsonl").read_text("utf-8")))
        done = self.shown("log_to_script.py")
        self.assertEqual(done.returncode, 2)
        self.assertIn("log_type all is missing", done.stderr)

    @wants_program
    def test_comparison(self):
        output = self.folder / "output"
        with open(output, "wb") as out:
            subprocess.run([PROGRAM, "--acl-file", RECORDED / "plain.acl", "--rules=mosquitto",
                            RECORDED / "plain.jsonl"], stdout=out)
        done = self.shown("compare_log.py", output)
        listed = (RECORDED / "plain.differences").read_text("utf-8").splitlines()
        self.assertEqual(done.stdout.splitlines(), [x for x in listed if not x.startswith("#")])
        done = subprocess.run([sys.executable, HERE / "compare_log.py", output],
                              capture_output=True, encoding="utf-8")
        self.assertEqual(done.returncode, 2)
        self.assertIn("needs a log, or --conf", done.stderr)

    @wants_program
    def test_why(self):
        words = ["--topic", "plant/hall-2/energy", "--at", "1795359160", "--json"]
        done = self.shown("why.py", *words)
        wanted = subprocess.run(
            [sys.executable, HERE / "why.py", "--acl-file", self.folder / "plain.acl", "--rules",
             "mosquitto", "--max-queued", "1000", "--log", self.folder / "plain.log", *words],
            capture_output=True, encoding="utf-8")
        self.assertEqual((done.returncode, done.stdout), (0, wanted.stdout))
        self.assertTrue(json.loads(done.stdout.splitlines()[0]))

    def test_why_of_several_lists(self):
        self.conf.write_text("per_listener_settings true\nlistener 1\nacl_file plain.acl\n"
                             "listener 2\nlog_dest file plain.log\nlog_type all\n")
        done = self.shown("why.py", "--topic", "x", "--at", "1")
        self.assertEqual(done.returncode, 2)
        self.assertIn("its listeners have different access lists: give --acl-file", done.stderr)


if __name__ == "__main__":
    unittest.main()
