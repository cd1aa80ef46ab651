"""Whatever goes wrong: one line on standard error and status 2, or 3 where the machine is at fault,
never a traceback. A reader that goes away is nothing wrong."""
import errno
import gzip
import json
import os
import resource
import shutil
import subprocess
import sys
import tempfile
import unittest
import unittest.mock
from pathlib import Path

from mosquitto import PAHO
from test_files import AFTER, BEFORE, LOG, SCRIPT
from worked import HERE, PROGRAM, TOP
from mqroute_tools.common import exit_status, files, programs

DIGITS = "1" * 5000  # more than Python makes a number of
TOOLS = {"check": ["script"], "log_to_script": ["log"], "compare_log": ["log", "before"],
         "who_loses": ["script", "before", "after"], "why": ["script", "2"],
         "preview": ["list", "list", "script"], "plan": ["name", "plan", "a"]}
WITHOUT_OUTPUT = ("check", "compare_log")  # by these words
COPY = {"client": "a\"", "filter": "x", "line": 2, "payload": "", "qos": 0, "retain": False,
        "topic": "x"}


class Case(unittest.TestCase):
    def setUp(self) -> None:
        folder = tempfile.TemporaryDirectory()
        self.addCleanup(folder.cleanup)
        self.folder = Path(folder.name)
        for name, text in (("script", SCRIPT), ("before", BEFORE), ("after", AFTER),
                           ("log", LOG.format(1795358535, 1795358536)), ("plan", "a -> b\n"),
                           ("list", "topic readwrite #\n")):
            self.write(name, text)

    def write(self, name: str, text: str) -> None:
        (self.folder / name).write_text(text, encoding="utf-8")

    def run_tool(self, tool: str, *words: str, python: str = sys.executable,
                 **more) -> subprocess.CompletedProcess:
        pipes = {"stdout": subprocess.PIPE, "stderr": subprocess.PIPE, "timeout": 60}
        return subprocess.run([python, HERE / f"{tool}.py", *words], cwd=self.folder,
                              encoding="utf-8", **pipes | more)

    def says(self, said: str, tool: str, *words: str, **more) -> None:
        done = self.run_tool(tool, *words, **more)
        with self.subTest(tool, words=words):
            self.assertEqual((done.returncode, done.stderr), (2, f"{tool}: {said}\n"))


class Streams(Case):
    def closed(self, tool: str, words: list[str], redirection: str) -> tuple[int, str]:
        command = f'exec "$0" "$@" {redirection}'
        done = subprocess.run(["sh", "-c", command, sys.executable, HERE / f"{tool}.py", *words],
                              cwd=self.folder, capture_output=True, text=True)
        return done.returncode, done.stderr

    def test_closed(self):
        for tool, words in TOOLS.items():
            with self.subTest(tool):
                self.assertEqual(self.closed(tool, words, ">&-"),
                                 (2, f"{tool}: standard output is closed\n"))
                self.assertEqual(self.closed(tool, ["--help"], ">&-"),
                                 (2, f"{tool}: standard output is closed\n"))
        for tool in ("check", "log_to_script"):
            self.assertEqual(self.closed(tool, ["-"], "<&-"),
                             (2, f"{tool}: standard input is closed\n"))

    def test_without_standard_error(self):
        """What is said is lost, and goes nowhere else; the status stays."""
        for redirection in ("2>&-", "2>/dev/full"):
            for words, status in ((["script"], 0), (["absent"], 2), (["--absent"], 2)):
                with self.subTest(redirection, words=words):
                    done = subprocess.run(
                        ["sh", "-c", f'exec "$0" "$@" {redirection}', sys.executable,
                         HERE / "check.py", *words], cwd=self.folder, capture_output=True)
                    self.assertEqual((done.returncode, done.stdout, done.stderr),
                                     (status, b"", b""))
        self.write("log", LOG.format(1795358535, 1795358536) + "what is this\n")
        for tool, words in (("log_to_script", ["log"]), ("tools", ["x"]),
                            ("compare_log", ["log", "before"])):
            status = self.closed(tool, words, "")[0]
            self.assertEqual(self.closed(tool, words, "2>/dev/full"), (status, ""))

    def test_a_full_disk(self):
        full = "No space left on device"
        for tool, words in TOOLS.items():
            if tool in WITHOUT_OUTPUT or not PROGRAM.exists():
                words = ["--help"]
            status, said = self.closed(tool, words, "> /dev/full")
            with self.subTest(tool):
                self.assertEqual((status, said.split("\n")[-2]), (3, f"{tool}: {full}"))

    def test_a_reader_that_goes_away(self):
        """Nothing is said, and the status is that of a program that SIGPIPE ends."""
        for tool, words in [*TOOLS.items(), *((tool, ["--help"]) for tool in TOOLS)]:
            if tool in WITHOUT_OUTPUT or not PROGRAM.exists():
                words = ["--help"]
            reading, writing = os.pipe()
            os.close(reading)
            with self.subTest(tool, words=words), open(writing, "wb") as pipe:
                done = self.run_tool(tool, *words, stdout=pipe)
                self.assertEqual((done.returncode, done.stderr), (141, ""))

    @unittest.skipUnless(shutil.which("bash"), "there is no bash")
    def test_head(self):
        """Behind a pipe that holds less than the tool has to write."""
        self.write("faulty", '{"do":"connect"}\n' * 20_000)
        command = '"$0" "$1" faulty | head -n 1; echo "${PIPESTATUS[@]}"'
        done = subprocess.run(["bash", "-c", command, sys.executable, HERE / "check.py"],
                              cwd=self.folder, capture_output=True, text=True)
        self.assertEqual(done.stdout, 'faulty:1: connect needs the field "client"\n141 0\n')
        self.assertEqual(done.stderr, "")

    def test_a_pipe_to_somewhere_else(self):
        """That it broke is said: somebody still reads standard output."""
        done = subprocess.run(
            [sys.executable, "-c", "from mqroute_tools.common import exit_status\n"
             "def work(): raise BrokenPipeError(32, 'Broken pipe')\n"
             "raise SystemExit(exit_status.run(work))"],
            env=os.environ | {"PYTHONPATH": str(HERE)}, capture_output=True, text=True)
        self.assertEqual((done.returncode, done.stdout), (2, ""))
        self.assertTrue(done.stderr.endswith("Broken pipe\n"), done.stderr)


class Endless(Case):
    def test_a_line_without_end(self):
        said = "1: it has more than 16,777,216 bytes, and no end"
        for tool, words in (
                ("log_to_script", ["/dev/zero"]),
                ("log_to_script", ["--no-inference", "/dev/zero"]),
                ("compare_log", ["/dev/zero", "before"]), ("compare_log", ["log", "/dev/zero"]),
                ("check", ["/dev/zero"]), ("who_loses", ["script", "/dev/zero", "after"]),
                ("why", ["/dev/zero", "1"]), ("preview", ["list", "list", "/dev/zero"]),
                ("preview", ["/dev/zero", "list", "script"]), ("plan", ["check", "/dev/zero"])):
            self.says(f"/dev/zero:{said}", tool, *words)
        with open("/dev/zero") as zero:
            self.says(f"standard input:{said}", "log_to_script", "-", stdin=zero)

    def test_where_it_begins(self):
        size = files.LONGEST_LINE
        (self.folder / "packed").write_bytes(gzip.compress(SCRIPT.encode() + bytes(size + 1), 1))
        self.says("packed:3: it has more than 16,777,216 bytes, and no end", "check", "packed")
        (self.folder / "long").write_bytes(SCRIPT.encode() + b"x" * size + b"\n" + SCRIPT.encode())
        done = self.run_tool("check", "long")
        self.assertEqual((done.returncode, done.stderr), (1, ""))
        self.assertEqual(done.stdout, "long:3: 16,777,216 bytes, where 1,048,576 may be\n")

    def test_memory(self):
        """A want of it is said in one line."""
        def limit() -> None:
            resource.setrlimit(resource.RLIMIT_AS, (300 << 20, 300 << 20))
        with open(self.folder / "big", "wb") as big:
            for _ in range(6):
                big.write(b"#" * (10 << 20) + b"\n")
            big.truncate(400 << 20)
        for tool, words in (("check", ["big"]), ("who_loses", ["big", "before", "after"]),
                            ("plan", ["check", "big"]), ("why", ["big", "1"])):
            done = self.run_tool(tool, *words, preexec_fn=limit)
            with self.subTest(tool):
                self.assertEqual((done.returncode, done.stderr.count("\n")), (2, 1), done.stderr)

    def test_exceptions(self):
        """One that nobody foresaw is said too, with its place. What the machine is at fault of has
        a status of its own, also below what is said of it."""
        full = exit_status.Fault("out: nothing is written")
        full.__cause__ = OSError(errno.ENOSPC, "No space left on device")
        wanted = {MemoryError(): (3, "out of memory"),
                  KeyError("payload"): (2, "a fault of this tool at test_ends.py:"),
                  RecursionError("deep"): (2, "a fault of this tool at test_ends.py:"),
                  OSError(errno.EIO, "Input/output error", "x"): (3, "x: Input/output error"),
                  OSError(errno.ENOENT, "No such file", "x"): (2, "x: No such file"), full: (
                      3, "out: nothing is written"),
                  programs.no_answer("mqroute", 3, "memory"): (3, "memory"),
                  programs.no_answer("mqroute", 2, ""): (2, "mqroute ended with status 2"),
                  exit_status.Fault("as it is"): (2, "as it is")}
        for fault, (status, said) in wanted.items():
            def work() -> int:
                raise fault
            with (self.subTest(said), unittest.mock.patch.object(exit_status, "say") as say,
                  unittest.mock.patch.object(exit_status, "discard")):
                self.assertEqual(exit_status.run(work), status)
                self.assertTrue(say.call_args[0][0].startswith(said), say.call_args)


class Inputs(Case):
    def test_numbers_in_a_log(self):
        """A line with one that is too long isn't known; the others are read."""
        lines = [f"Received PUBLISH from a (d0, q0, r0, m{DIGITS}, 'x', ... (2 bytes))",
                 f"Received PUBLISH from a (d0, q0, r0, m0, 'x', ... ({DIGITS} bytes))",
                 f"Sending PUBLISH to a (d0, q0, r0, m0, 'x', ... ({DIGITS} bytes))",
                 f"New client connected from 1.2.3.4:5 as b (p{DIGITS}, c1, k60).",
                 f"Sending CONNACK to b (0, {DIGITS})", f"Will message specified ({DIGITS} bytes) "
                 "(r0, q0).", f"Received PUBREL from a (Mid: {DIGITS})",
                 f"Reused message ID {DIGITS} from a detected. Clearing from storage.",
                 f"Received PUBACK from a (Mid: {DIGITS}, RC:0)", f"a {DIGITS} x"]
        self.write("log", LOG.format(1795358535, 1795358536)
                   + "".join(f"1795358537: {line}\n" for line in lines))
        done = self.run_tool("log_to_script", "log")
        self.assertEqual((done.returncode, done.stdout.count("\n")), (1, 3), done.stderr)
        self.assertIn("lines cut short by the broker", done.stderr)
        self.assertNotIn("fault of this tool", done.stderr)
        self.assertIn(self.run_tool("compare_log", "log", "before").returncode, (0, 1, 2))

    def test_time_formats(self):
        for form, said in (("%Y %Y", '"%Y %Y" has a directive twice'),
                           ("%H %T", "'T' is a bad directive in format '%H %T'"),
                           ("100%", "stray % in format '100%'")):
            for tool, words in (("log_to_script", ["log"]), ("compare_log", ["log", "before"]),
                                ("preview", ["list", "list", "log"])):
                done = self.run_tool(tool, "--time-format", form, *words)
                self.assertEqual((done.returncode, done.stderr.split("\n")[-2]), (
                    2, f"{tool}.py: error: argument --time-format: {said}"))

    def test_copies_that_are_none(self):
        """With an escape in a text, so that they are read as JSON."""
        for change in ({"payloud": ""}, {"payload": 5}, {"qos": "0"}, {"retain": None},
                       {"topic": ["x"]}, {"client": 1}):
            copy = COPY | change if "payloud" not in change else {
                name: value for name, value in COPY.items() if name != "payload"}
            line = json.dumps(copy, separators=(",", ":"))
            self.write("output", BEFORE.split("\n")[0] + f"\n{line}\n" + '{"line":2,"reason":0}\n')
            said = f"output: no output of mqroute: begins like a copy and is none: {line[:60]}"
            self.says(said, "compare_log", "log", "output")
            done = self.run_tool("who_loses", "script", "before", "output")
            self.assertEqual((done.returncode, done.stderr.count("\n")), (2, 1), done.stderr)
            self.assertNotIn("a fault of this tool", done.stderr)

    def test_closing_lines_that_are_none(self):
        for line in ('{"code":11,"line":2,"refused":"Not\x7fAuthorized"}',
                     '{"code":11,"line":2,"refused":["x"]}', '{"line":2,"reason":"\\u001b"}'):
            self.write("output", BEFORE.split("\n")[0] + f"\n{line}\n")
            self.says("output:2: no answer of mqroute", "who_loses", "script", "before", "output")


@unittest.skipUnless(PAHO, "there is no python3-paho-mqtt")
class Corpus(Case):
    def setUp(self) -> None:
        super().setUp()
        (self.folder / "c").mkdir()
        self.write("c/x.jsonl", '{"do":"connect","client":"a"}\n')
        self.write("c/x.out", '{"line":1,"reason":0}\n')

    def refused(self, said: str, tool: str = "replay", option: str = "--all") -> None:
        self.says(said, tool, "--port", "1", option, "c", python=PAHO)

    def test_texts(self):
        place = os.path.realpath(self.folder / "c")
        for name in ("x.acl", "cases.json"):
            (self.folder / "c" / name).write_bytes(b"a\n\xff")
            self.refused(f"{place}/{name}:2: not UTF-8")
            os.unlink(self.folder / "c" / name)
        (self.folder / "c/x.diff").write_bytes(b"\xff\n")
        self.refused("c/x.diff:1: not UTF-8", "search", "--known")

    def test_index(self):
        place = os.path.realpath(self.folder / "c/cases.json")
        self.write("c/cases.json", "[" * 100_000)
        self.refused(f"{place}: not JSON: nested too deep")
        for about, said in ((5, "must be an object"),
                            ({"sections": 5}, '"sections" must be a list'),
                            ({"says": []}, '"says" must be a text'),
                            ({"any_member": 5}, '"any_member" must be a text'),
                            ({"free": [1]}, '"free" must be an object'),
                            ({"free": {"a": ""}}, '"free" must have lines')):
            self.write("c/cases.json", json.dumps({"cases": {"x": about}}))
            self.refused(f"{place}: x: {said}")
        for index in ([], {"cases": []}):
            self.write("c/cases.json", json.dumps(index))
            self.refused(f'{place}: must be an object with "title" and "cases"')

    def test_names(self):
        """One that isn't UTF-8, where a program reads it, and where none does."""
        name = os.fsdecode(b"l\xff")
        os.rename(self.folder / "list", self.folder / name)
        done = self.run_tool("preview", name, name, "script")
        self.assertEqual((done.returncode, done.stderr.count("\n")), (2, 1), done.stderr)
        os.rename(self.folder / "script", self.folder / name)
        self.assertEqual(self.run_tool("check", name).returncode, 0)


class Documents(unittest.TestCase):
    def test_limits(self):
        text = (TOP / "docs/reference/tools.md").read_text("utf-8")
        self.assertIn(f"{files.LONGEST_LINE:,} bytes", text)


if __name__ == "__main__":
    unittest.main()
