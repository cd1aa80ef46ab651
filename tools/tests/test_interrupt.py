"""Ctrl-C, SIGTERM and SIGHUP: one line and the status that a shell has for it, whenever they come,
and nothing left behind; search and replay sum up first."""
import argparse
import contextlib
import io
import os
import shutil
import signal
import socket
import subprocess
import sys
import tempfile
import time
import unittest
import unittest.mock
from collections.abc import Callable
from itertools import product
from pathlib import Path

from fake_broker import Fake, expiry_0_is_none
from mosquitto import MOSQUITTO, PAHO, free_port, wants_paho
from test_preview import RECORDED, wants_programs
from test_replay import OnABroker
from worked import HERE, PROGRAM, wants_program
from mqroute import Oracle
from mqroute_tools.search.finds import Search
from mqroute_tools.search.parts import Use
from mqroute_tools.search.search import searched

# What a tool reads while it waits for more of its standard input.
READING = {"log_to_script": ["-"], "check": ["-"], "compare_log": ["-", "out"],
           "who_loses": ["-", "out", "out"], "why": ["-", "1"],
           "preview": ["out", "out", "-"]}
PATIENCE = 20  # seconds
STATUSES = {signal.SIGINT: 130, signal.SIGTERM: 143, signal.SIGHUP: 129}
# A signal comes while Python ends an object, and then more often.
FINALIZER = """
import os, sys, threading, time
sys.path.insert(0, {!r})
from mqroute_tools.common import exit_status
def send():
    for _ in range(5):
        os.kill(os.getpid(), {:d})
        time.sleep(0.0005)
class Ended:
    def __del__(self):
        threading.Thread(target=send).start()
        time.sleep(0.05)
def work():
    Ended()
    time.sleep(60)
    return 0
sys.exit(exit_status.run(work))
"""


def as_at_first() -> None:
    """As from a terminal: in the background Ctrl-C is ignored, and so by what is started there."""
    for number in STATUSES:
        signal.signal(number, signal.SIG_DFL)


def started(tool: str, words: list[str], python: str = sys.executable, **more) -> subprocess.Popen:
    return subprocess.Popen([python, HERE / f"{tool}.py", *words], encoding="utf-8",
                            stdin=subprocess.PIPE, stdout=subprocess.PIPE, stderr=subprocess.PIPE,
                            preexec_fn=as_at_first, **more)


def waits(running: subprocess.Popen) -> bool:
    """Whether it sleeps in a read of its standard input, as Linux shows it."""
    return Path(f"/proc/{running.pid}/syscall").read_text().startswith("0 0x0 ")


def close_pipes(running: subprocess.Popen) -> None:
    for pipe in (running.stdin, running.stdout, running.stderr):
        with contextlib.suppress(BrokenPipeError):
            pipe.close()


@unittest.skipUnless(Path("/proc/self/syscall").exists(), "there is no /proc")
class Reading(unittest.TestCase):
    def test_while_it_reads(self):
        with tempfile.TemporaryDirectory() as folder:
            Path(folder, "out").write_text('{"line":1,"reason":0}\n')
            for (tool, words), (number, status) in product(READING.items(), STATUSES.items()):
                running = started(tool, words, cwd=folder)
                self.interrupt(running, number)
                with self.subTest(tool, number=number):
                    said = running.wait(PATIENCE), running.stdout.read(), running.stderr.read()
                    self.assertEqual(said, (status, "", f"{tool}: stopped\n"))
                close_pipes(running)

    def interrupt(self, running: subprocess.Popen, number: signal.Signals) -> None:
        """The signal, once it has read a line and waits for the next."""
        running.stdin.write('{"do":"connect","client":"a"}\n')
        running.stdin.flush()
        end = time.monotonic() + PATIENCE
        while not waits(running) and time.monotonic() < end:
            time.sleep(0.01)
        running.send_signal(number)

    def test_while_it_is_loaded(self):
        """In place of one that every tool imports stands a module that the signal meets."""
        with tempfile.TemporaryDirectory() as folder:
            for number, status in STATUSES.items():
                Path(folder, "argparse.py").write_text(
                    f"import os, time\nos.kill(os.getpid(), {number:d})\ntime.sleep(60)\n")
                for tool in (*READING, "replay", "search"):
                    running = started(tool, [], env=os.environ | {"PYTHONPATH": folder})
                    with self.subTest(tool, number=number):
                        said = running.communicate(timeout=PATIENCE)
                        self.assertEqual((*said, running.returncode),
                                         ("", f"{tool}: stopped\n", status))

    def test_in_a_finalizer(self):
        """What is raised there ends there."""
        for number, status in STATUSES.items():
            done = subprocess.run(
                [sys.executable, "-c", FINALIZER.format(str(HERE), number)], encoding="utf-8",
                capture_output=True, timeout=PATIENCE, preexec_fn=as_at_first)
            with self.subTest(number=number):
                self.assertEqual((done.returncode, done.stdout), (status, ""), done.stderr)
                self.assertTrue(done.stderr.endswith(": stopped\n"), done.stderr)

    def test_a_signal_that_is_ignored(self):
        """As under nohup: a terminal that is closed ends nothing."""
        with tempfile.TemporaryDirectory() as folder:
            running = subprocess.Popen(
                [sys.executable, HERE / "check.py"], encoding="utf-8", cwd=folder,
                stdin=subprocess.PIPE, stdout=subprocess.PIPE, stderr=subprocess.PIPE,
                preexec_fn=lambda: signal.signal(signal.SIGHUP, signal.SIG_IGN))
            self.interrupt(running, signal.SIGHUP)
            self.assertEqual((*running.communicate(timeout=PATIENCE), running.returncode),
                             ("", "", 0))


def until(is_so: Callable[[], bool], running: subprocess.Popen) -> None:
    end = time.monotonic() + PATIENCE
    while not is_so() and running.poll() is None and time.monotonic() < end:
        time.sleep(0.005)


@wants_programs
class LeftBehind(unittest.TestCase):
    """What stands in $TMPDIR and in the folder after each signal in the middle of a long run."""

    def setUp(self) -> None:
        top = tempfile.TemporaryDirectory()
        self.addCleanup(top.cleanup)
        self.folder, self.temporary = Path(top.name, "work"), Path(top.name, "temporary")
        self.folder.mkdir()
        self.temporary.mkdir()
        for name in ("plain.acl", "proposed.acl"):
            shutil.copy(RECORDED / name, self.folder)
        (self.folder / "log").write_bytes((RECORDED / "plain.log").read_bytes() * 60)

    def files(self) -> list[str]:
        return sorted(str(path) for top in (self.folder, self.temporary)
                      for path in top.rglob("*"))

    def ends(self, tool: str, words: list[str], is_so: Callable[[], bool],
             given: str | None = None) -> None:
        before = self.files()
        for number, status in STATUSES.items():
            for times in (1, 2):  # as a terminal and a shell may both send it
                running = started(tool, words, cwd=self.folder,
                                  env=os.environ | {"TMPDIR": str(self.temporary)})
                if given is not None:
                    running.stdin.write(given)
                running.stdin.close()
                until(is_so, running)
                for _ in range(times if number != signal.SIGINT else 1):
                    running.send_signal(number)
                with self.subTest(tool, words=words, number=number, times=times):
                    self.assertEqual(running.wait(PATIENCE), status)
                    self.assertEqual(running.stderr.read().split("\n")[-2], f"{tool}: stopped")
                    self.assertEqual(self.files(), before)
                for pipe in (running.stdout, running.stderr):
                    pipe.close()

    def has_files(self) -> bool:
        return any(self.temporary.iterdir())

    def test_preview(self):
        lists = ["--rules", "mosquitto", "plain.acl", "proposed.acl", "log"]
        self.ends("preview", lists, self.has_files)
        self.ends("preview", ["--html", "page", *lists], self.has_files)

    def test_a_list_on_standard_input(self):
        given = (RECORDED / "plain.acl").read_text("utf-8")
        self.ends("preview", ["--rules", "mosquitto", "-", "proposed.acl", "log"],
                  lambda: sum(1 for _ in self.temporary.iterdir()) > 1, given)

    def test_keep(self):
        kept = self.folder / "kept"
        kept.mkdir()
        words = ["--rules", "mosquitto", "--keep", "kept", "plain.acl", "proposed.acl", "log"]
        self.ends("preview", words, lambda: any(kept.iterdir()))

    def test_log_to_script(self):
        self.ends("log_to_script", ["--state", "state", "-"], self.has_files,
                  (self.folder / "log").read_text("utf-8"))


@wants_paho
class Broker(unittest.TestCase):
    def test_the_broker_of_start(self):
        if not Path(MOSQUITTO).exists():
            self.skipTest("there is no mosquitto")
        port = free_port()

        def listens() -> bool:
            with socket.socket() as probe:
                return probe.connect_ex(("127.0.0.1", port)) == 0
        for number, status in STATUSES.items():
            running = started("search", ["--start", f"exec {MOSQUITTO} -p {port}", "--port",
                                         str(port), "--minutes", "5"], PAHO)
            until(listens, running)
            time.sleep(0.3)  # so that it searches
            running.send_signal(number)
            _, shown = running.communicate(timeout=PATIENCE)
            with self.subTest(number):
                self.assertEqual((running.returncode, listens()), (status, False), shown)
                self.assertTrue(shown.endswith("search: stopped\n"), shown)


@wants_program
class Searching(unittest.TestCase):
    def test_what_was_found(self):
        """After the 30th script it is stopped."""
        one = Search(Fake(expiry_0_is_none), Oracle(program=str(PROGRAM)))
        all_of = one.all_of

        def stopped(script):
            if one.number == 30:
                raise KeyboardInterrupt
            return all_of(script)
        one.all_of = stopped
        options = argparse.Namespace(save=None, seed=1, number=None, count=None, json=False)
        with (contextlib.redirect_stdout(io.StringIO()) as out,
              contextlib.redirect_stderr(io.StringIO()) as shown,
              self.assertRaises(KeyboardInterrupt)):
            searched(one, Use(), [], options)
        heads = [line for line in out.getvalue().splitlines() if line.startswith("find ")]
        self.assertGreater(len(heads), 0)
        lines = [line.partition(": ")[2] for line in shown.getvalue().splitlines()]
        self.assertEqual(lines[:-1], heads)
        self.assertRegex(lines[-1], rf"^29 scripts of seed 1, \d+ runs in \d+ s; {len(heads)} new "
                         r"kinds? of differences; \d+ not seen again$")


@unittest.skipUnless(PAHO, "there is no python3-paho-mqtt")
class Replaying(OnABroker):
    def test_what_differs_so_far(self):
        self.start()
        wait = {"do": "advance", "seconds": 600}
        self.write_files([self.CONNECT, self.SUBSCRIBE, self.PUBLISH, wait, {"do": "stat"}],
                         [*self.done(0, 1, 16, 0),
                          {"line": 5, "nodes": 1, "retained": 0, "subscriptions": 1}])
        words = ["--port", str(self.port), "script", "output"]
        running = started("replay", words, PAHO, cwd=self.folder.name)
        first = running.stdout.readline()
        time.sleep(0.3)  # so that it has come to the line that waits
        running.send_signal(signal.SIGINT)
        _, shown = running.communicate(timeout=PATIENCE)
        said = "replay: at line 4 of 5: 1 line differs so far\nreplay: stopped\n"
        self.assertEqual((running.returncode, shown), (130, said))
        self.assertTrue(first.startswith("line 3: "), first)


if __name__ == "__main__":
    unittest.main()
