"""The recorded logs under the built mqroute, and the broker's own lines against its copies.

The program is $MQROUTE, or the one that `make` builds; without one the tests that want it are
skipped.
"""
import io
import re
import subprocess
import sys
import tempfile
import unittest
from pathlib import Path

from worked import HERE, PROGRAM, TOP, wants_program
from mqroute_tools.log.conversion import Converter, placed_commands
from mqroute_tools.log.log_to_script import text_of

RECORDED = TOP / "brokers/recorded"
SESSIONS = ["--session-expiry", "3600"]  # as record_clients.py asks for


def mqroute(script: bytes, *words: str) -> bytes:
    done = subprocess.run([PROGRAM, *words], input=script, capture_output=True)
    if done.returncode > 1:
        raise AssertionError(done.stderr.decode())
    return done.stdout


def tool(name: str, *words: str | Path) -> tuple[int, str]:
    done = subprocess.run(
        [sys.executable, HERE / name, *words], capture_output=True, text=True, encoding="utf-8")
    return done.returncode, done.stdout


class Recorded(unittest.TestCase):
    def convert(self, kind: str, *words: str, wanted: int = 0) -> None:
        status, script = tool("log_to_script.py", RECORDED / f"{kind}.log", *words)
        self.assertEqual(
            (status, script), (wanted, (RECORDED / f"{kind}.jsonl").read_text(encoding="utf-8")))

    def differ(self, kind: str, *words: str, acl: str | None = None) -> None:
        script = (RECORDED / f"{kind}.jsonl").read_bytes()
        with tempfile.TemporaryDirectory() as folder:
            output = Path(folder, "output")
            output.write_bytes(mqroute(script, "--acl-file", RECORDED / f"{acl or kind}.acl"))
            _, found = tool("compare_log.py", RECORDED / f"{kind}.log", output, *words)
        listed = (RECORDED / f"{kind}.differences").read_text(encoding="utf-8").splitlines()
        self.assertEqual(found.splitlines(), [line for line in listed if not line.startswith("#")])
        self.assertNotIn("\ndifferent:", found)

    def test_scripts(self):
        self.convert("plain")
        self.convert("sessions", *SESSIONS)
        for kind in ("mixed", "trixie"):
            self.convert(kind, wanted=1)  # it shows of MQTT 5 sessions that may have been kept

    @wants_program
    def test_plain(self):
        self.differ("plain")

    @wants_program
    def test_sessions(self):
        self.differ("sessions", *SESSIONS)

    @wants_program
    def test_mixed(self):
        self.differ("mixed")
        self.differ("trixie", acl="mixed")  # the same clients

    def test_time_stamps_of_other_forms(self):
        """The same log without stamps gives the same script without `advance`."""
        plain = re.sub(rb"(?m)^\d+: ", b"", (RECORDED / "plain.log").read_bytes())
        found = [text_of(c) for _, c in placed_commands(Converter(), [io.BytesIO(plain)])]
        wanted = (RECORDED / "plain.jsonl").read_text(encoding="utf-8").splitlines()
        self.assertEqual(found, [line for line in wanted if '"do":"advance"' not in line])


class Scripts(unittest.TestCase):
    @wants_program
    def test_outputs(self):
        """Each script of differences/ gives the output that the broker was compared with."""
        for script in sorted((TOP / "brokers/differences").rglob("*.jsonl")):
            words = (["--acl-file", script.with_suffix(".acl")]
                     if script.with_suffix(".acl").exists() else [])
            if script.with_suffix(".options").exists():
                words += script.with_suffix(".options").read_text().split()
            done = subprocess.run([PROGRAM, *words, script], capture_output=True)
            with self.subTest(script.stem):
                self.assertEqual(done.stdout, script.with_suffix(".out").read_bytes())

    def test_each_is_named(self):
        """docs/explanation/brokers.md names each script in its broker's section, and those that
        differ in its table; of what searches found it names the folders."""
        sections = (TOP / "docs/explanation/brokers.md").read_text(encoding="utf-8").split("\n## ")
        by_broker = {section.split(" ")[0].lower(): section for section in sections}
        agreement = next(
            section for section in sections if section.startswith("Where mosquitto agrees"))
        folders = sorted(path for path in (TOP / "brokers/differences").iterdir()
                         if path.is_dir() and path.name != "found")
        for path in (TOP / "brokers/differences/found").iterdir():
            self.assertIn(f"`found/{path.name}`", " ".join(sections).replace("differences/", ""))
        self.are_named("brokers/differences", by_broker["mosquitto"], agreement)
        for folder in folders:
            section = by_broker[folder.name]
            self.are_named(
                f"brokers/differences/{folder.name}",
                "\n".join(line for line in section.splitlines() if line.startswith("|")), section)
        self.assertGreater(len(folders), 1)

    def are_named(self, folder: str, table: str, agreement: str) -> None:
        for script in (TOP / folder).glob("*.jsonl"):
            differs = script.with_suffix(".diff").stat().st_size > 0
            self.assertIn(f"`{script.stem}`", table if differs else table + agreement)
        for name in (TOP / folder).glob("*-*.acl"):
            if name.stem.startswith(("refused-", "taken-")):
                self.assertIn(f"`{name.stem}`", table)

    @wants_program
    def test_lists_that_the_broker_refuses(self):
        """mqroute reads each."""
        lists = sorted((TOP / "brokers/differences").glob("refused-*.acl"))
        self.assertGreater(len(lists), 3)
        for name in lists:
            self.assertEqual(mqroute(b'{"do":"connect","client":"a"}\n', "--acl-file", name),
                             b'{"line":1,"reason":0}\n')

    @wants_program
    def test_lists_that_the_broker_takes(self):
        """mqroute refuses each."""
        lists = sorted((TOP / "brokers/differences").glob("taken-*.acl"))
        self.assertGreater(len(lists), 2)
        for name in lists:
            done = subprocess.run([PROGRAM, "--acl-file", name], input=b"", capture_output=True)
            self.assertEqual((done.returncode, done.stdout), (2, b""), name)


if __name__ == "__main__":
    unittest.main()
