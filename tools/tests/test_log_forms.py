"""What containers, journals and collectors write around the lines of a log: each form gives the
same script as the log itself, and where mosquitto writes no times, the times around its lines."""
import gzip
import io
import json
import subprocess
import sys
import tempfile
import unittest
from datetime import datetime, timezone
from pathlib import Path

from worked import HERE, TOP
from mqroute_tools.log.log_forms import FORMS, open_log

LOG = (TOP / "brokers/recorded/plain.log").read_text("utf-8").splitlines()
LINES = LOG[:200]
TEXTS = [line.partition(": ")[2] for line in LINES]
TIMES = [int(line.partition(": ")[0]) for line in LINES]


def iso(seconds: int, zone: str = "Z") -> str:
    return f"{datetime.fromtimestamp(seconds, timezone.utc):%Y-%m-%dT%H:%M:%S}.123456789{zone}"


def docker(time: int, line: str) -> str:
    return json.dumps({"log": line + "\n", "stream": "stderr", "time": iso(time)})


def journal(time: int, line: str) -> str:
    return json.dumps({"MESSAGE": line, "__REALTIME_TIMESTAMP": f"{time}000123",
                       "SYSLOG_IDENTIFIER": "mosquitto", "_PID": "7"})


def quoted(line: str) -> str:
    return '"' + line.replace('"', '""') + '"'


# by what they are called: a line of them, of a time and a line of mosquitto's
AROUND = {
    "colours": lambda time, line: f"\x1b[32m{line}\x1b[0m",
    "docker compose logs": lambda time, line: f"mosquitto-1  | {line}",
    "kubectl logs --prefix": lambda time, line: f"[pod/mosquitto-0/mosquitto] {line}",
}
TIMED = {
    "docker's JSON files": docker, "journalctl -o json": journal,
    "files of container runtimes": lambda time, line: f"{iso(time)} stderr F {line}",
    "docker logs -t": lambda time, line: f"{iso(time)} {line}",
    "syslog of RFC 5424": lambda time, line: f"<30>1 {iso(time)} plant mosquitto 7 - - {line}",
    "CSV with a time": lambda time, line: f"{quoted(iso(time))},{quoted(line)}",
}
NESTED = {
    "compose -t": lambda time, line: f"mosquitto-1  | {iso(time)} {line}",
    "colours of compose": lambda time, line: f"\x1b[36mmosquitto_1  |\x1b[0m {line}",
}


class Forms(unittest.TestCase):
    def setUp(self) -> None:
        folder = tempfile.TemporaryDirectory()
        self.addCleanup(folder.cleanup)
        self.folder = Path(folder.name)

    def written(self, lines: list[str], end: str = "\n") -> str:
        path = self.folder / "log"
        path.write_text("".join(line + end for line in lines), encoding="utf-8", newline="")
        return str(path)

    def bare(self, lines: list[str], end: str = "\n") -> list[str]:
        with open_log(self.written(lines, end)) as stream:
            return stream.read().decode("utf-8").split("\n")[:-1]

    def test_all_are_tried(self):
        self.assertEqual({name for name, _ in FORMS}, AROUND.keys() | TIMED.keys())

    def test_each(self):
        for name, around in (AROUND | TIMED | NESTED).items():
            for end in "\n", "\r\n":
                with self.subTest(form=name, end=end):
                    found = self.bare([around(*each) for each in zip(TIMES, LINES)], end)
                    if name in ("journalctl -o json", "syslog of RFC 5424"):
                        found = [line.partition(": ")[2] for line in found]
                    self.assertEqual(found, LINES)

    def test_without_times_of_its_own(self):
        """log_timestamp false: what stands around a line says when it was written."""
        for name, around in TIMED.items():
            with self.subTest(form=name):
                lines = [around(*each) for each in zip(TIMES, TEXTS)]
                self.assertEqual(self.script(lines), self.script(LINES))

    def test_zones(self):
        for zone, hours in ("+02:00", 2), ("-0130", -1.5):
            lines = [f"{iso(time + int(hours * 3600), zone)} stderr F {text}"
                     for time, text in zip(TIMES, TEXTS)]
            self.assertEqual(self.bare(lines), LINES)

    def test_a_log_as_it_is(self):
        """Nothing is taken off, whatever a client's id looks like."""
        odd = [f"{1_700_000_000 + n}: Client mosquitto-1 | [pod/x] {n} disconnected."
               for n in range(40)]
        for lines in LINES, TEXTS, odd:
            self.assertEqual(self.bare(lines), lines)

    def test_other_lines_stay(self):
        around = AROUND["docker compose logs"]
        lines = [around(0, line) for line in LINES[:30]]
        self.assertEqual(self.bare([*lines, "Gracefully stopping..."]),
                         [*LINES[:30], "Gracefully stopping..."])

    def test_lines_of_other_programs(self):
        """Those that syslog and the journal name are skipped, and counted."""
        other = journal(TIMES[0], "up").replace("mosquitto", "cron")
        found = self.shown(self.written([journal(*each) for each in zip(TIMES, LINES)] + [other]))
        self.assertIn("(1 of other programs)", found.stderr)

    def test_a_text_in_bytes(self):
        """As the journal has what isn't UTF-8."""
        line = {"MESSAGE": list(b"a\xffb"), "__REALTIME_TIMESTAMP": "1700000000000000"}
        with open_log(self.written([json.dumps(line)] * 3)) as stream:
            self.assertEqual(stream.readline(), b"1700000000.0 host ?: a\xffb\n")

    def test_several_files_and_gzip(self):
        """The newest first, as a shell lists rotated files, and one of them packed."""
        half = len(LOG) // 2
        for name, part in ("log.1.gz", LOG[:half]), ("log", LOG[half:]):
            lines = [docker(0, line) for line in part]
            data = "".join(line + "\n" for line in lines).encode()
            (self.folder / name).write_bytes(gzip.compress(data) if "gz" in name else data)
        found = self.shown(str(self.folder / "log"), str(self.folder / "log.1.gz"))
        self.assertIn("the logs are read in the order of their times", found.stderr)
        wanted = (TOP / "brokers/recorded/plain.jsonl").read_text("utf-8")
        self.assertTrue(found.stdout == wanted)

    def test_a_long_log_by_pieces(self):
        """Pieces that end within lines."""
        lines = [docker(*each) for each in zip(TIMES, LINES)] * 30
        with open_log(self.written(lines)) as stream:
            parts = list(iter(lambda: stream.read(1013), b""))
        self.assertEqual(b"".join(parts), ("\n".join(LINES * 30) + "\n").encode())
        self.assertIsInstance(stream, io.BufferedReader)

    def script(self, lines: list[str]) -> str:
        return self.shown(self.written(lines)).stdout

    def shown(self, *names: str) -> subprocess.CompletedProcess:
        done = subprocess.run([sys.executable, HERE / "log_to_script.py", *names],
                              capture_output=True, encoding="utf-8")
        self.assertIn(done.returncode, (0, 1), done.stderr)
        return done


if __name__ == "__main__":
    unittest.main()
