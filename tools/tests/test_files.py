"""Files of the tools: none read and written, whole ones, `-`, packed ones, the order of logs."""
import gzip
import os
import subprocess
import sys
import tempfile
import unittest
from pathlib import Path

from worked import HERE, TOP
from mqroute_tools.common.files import whole

RECORDED = TOP / "brokers/recorded"
SCRIPT = '{"do":"connect","client":"a"}\n{"do":"publish","client":"a","topic":"x"}\n'
BEFORE = '{"line":1,"reason":0}\n{"line":2,"reason":16}\n'
AFTER = '{"line":1,"reason":0}\n{"code":11,"line":2,"refused":"NotAuthorized"}\n'
LOG = ("{0}: New client connected from 1.2.3.4:5 as a (p5, c1, k60).\n"
       "{0}: No will message specified.\n{0}: Sending CONNACK to a (0, 0)\n"
       "{1}: Received PUBLISH from a (d0, q0, r0, m0, 'x', ... (2 bytes))\n")


class Case(unittest.TestCase):
    def setUp(self) -> None:
        folder = tempfile.TemporaryDirectory()
        self.addCleanup(folder.cleanup)
        self.folder = Path(folder.name)
        for name, text in (("script", SCRIPT), ("before", BEFORE), ("after", AFTER)):
            self.write(name, text)

    def write(self, name: str, text: str) -> None:
        (self.folder / name).write_text(text, encoding="utf-8")

    def run_tool(self, tool: str, *words: str, **more) -> subprocess.CompletedProcess:
        pipes = {"stdout": subprocess.PIPE, "stderr": subprocess.PIPE, "input": ""}
        return subprocess.run([sys.executable, HERE / f"{tool}.py", *words], cwd=self.folder,
                              encoding="utf-8", **pipes | more)

    def refused(self, done: subprocess.CompletedProcess, said: str) -> None:
        self.assertEqual((done.returncode, done.stdout or ""), (2, ""))
        self.assertEqual(done.stderr.count("\n"), 1, done.stderr)
        self.assertIn(said, done.stderr)


class Apart(Case):
    def spellings(self, name: str) -> list[str]:
        os.symlink(name, self.folder / f"{name}.symbolic")
        os.link(self.folder / name, self.folder / f"{name}.hard")
        return [name, f"./{name}", f"{self.folder}/{name}", f"{name}.symbolic", f"{name}.hard"]

    def test_the_page(self):
        self.write("list", "topic readwrite #\n")
        lists = ["--acl-before", "list", "--acl-after", "list"]
        for name in ("script", "before", "after", "list"):
            text = (self.folder / name).read_text()
            for spelt in self.spellings(name) if name in ("script", "list") else [name]:
                with self.subTest(spelt):
                    words = [*lists, "--html", spelt, "script", "before", "after"]
                    said = f"--html {spelt}: it would overwrite {name}, which is read too\n"
                    self.refused(self.run_tool("who_loses", *words), said)
                    self.assertEqual((self.folder / name).read_text(), text)

    def test_the_state(self):
        self.write("log", LOG.format(1795358535, 1795358536))
        self.write("begin", "")
        for name in ("log", "begin"):
            text = (self.folder / name).read_text()
            for spelt in self.spellings(name)[::2]:
                done = self.run_tool("log_to_script", "--begin", "begin", "--state", spelt, "log")
                self.refused(done, f"overwrite {name},")
            self.assertEqual((self.folder / name).read_text(), text)
        with open(self.folder / "log") as stream:
            done = self.run_tool("log_to_script", "--state", "log", input=None, stdin=stream)
        self.refused(done, "overwrite standard input,")

    def test_standard_output(self):
        self.write("log", LOG.format(1795358535, 1795358536))
        for tool, words in (("log_to_script", ["log"]), ("compare_log", ["log", "before"]),
                            ("check", ["script"]), ("who_loses", ["script", "before", "after"])):
            text = (self.folder / words[0]).read_text()
            with open(self.folder / words[0], "a") as out:
                done = self.run_tool(tool, *words, stdout=out)
            self.refused(done, f"standard output: it would overwrite {words[0]}, which is read too")
            self.assertEqual((self.folder / words[0]).read_text(), text)
        with open(self.folder / "both", "a") as out:
            done = self.run_tool("log_to_script", "--state", "both", "log", stdout=out)
        self.refused(done, "--state both: standard output goes to this file too")


class Whole(Case):
    def test_a_file_that_fails_midway(self):
        for name in ("old", "new"):
            if name == "old":
                self.write(name, "old")
            with self.assertRaises(ValueError), whole(str(self.folder / name)) as out:
                out.write(b"half")
                out.flush()
                raise ValueError
        left = sorted(file.name for file in self.folder.iterdir())
        self.assertEqual(left, ["after", "before", "old", "script"])
        self.assertEqual((self.folder / "old").read_text(), "old")

    def test_what_stands_there_is_replaced(self):
        """Through a link, with the mode that it had; what is no plain file is written as it is."""
        self.write("old", "old, and longer")
        os.chmod(self.folder / "old", 0o604)
        os.symlink("old", self.folder / "link")
        with whole(str(self.folder / "link")) as out:
            out.write(b"new")
        self.assertEqual((self.folder / "old").read_text(), "new")
        self.assertEqual((self.folder / "old").stat().st_mode & 0o777, 0o604)
        self.assertTrue((self.folder / "link").is_symlink())
        done = self.run_tool("who_loses", "--html", "/dev/null", "script", "before", "after")
        self.assertEqual((done.returncode, done.stderr), (1, ""))

    def test_a_place_that_is_not_there(self):
        done = self.run_tool("who_loses", "--html", "nowhere/page", "script", "before", "after")
        self.refused(done, "who_loses: nowhere/page: No such file or directory\n")


class Inputs(Case):
    def test_standard_input(self):
        names = ["script", "before", "after"]
        for at, name in enumerate(names):
            words = [*names[:at], "-", *names[at + 1:]]
            done = self.run_tool("who_loses", *words, input=(self.folder / name).read_text())
            self.assertEqual((done.returncode, done.stderr), (1, ""), words)
        for words, said in ((["-", "-", "after"], "standard input can be read once"),
                            (["--html", "page", "-", *names[1:]], "--html reads the script twice")):
            done = self.run_tool("who_loses", *words)
            self.assertEqual((done.returncode, said in done.stderr), (2, True), done.stderr)
        log = LOG.format(1795358535, 1795358536)
        for words in ([], ["-"], ["--no-inference", "-"]):
            done = self.run_tool("log_to_script", *words, input=log)
            self.assertEqual(done.stdout.count("\n"), 3)

    def test_a_pipe_for_a_log(self):
        """It can be opened once alone, and the log is read twice."""
        self.write("log", LOG.format(1795358535, 1795358536))
        wanted = self.run_tool("log_to_script", "log").stdout
        command = f"{sys.executable} {HERE}/log_to_script.py <(cat log)"
        done = subprocess.run(["bash", "-c", command], cwd=self.folder, capture_output=True,
                              encoding="utf-8")
        self.assertEqual((done.returncode, done.stdout), (0, wanted))

    def test_packed(self):
        for name in ("script", "before", "after"):
            packed = gzip.compress((self.folder / name).read_bytes())
            (self.folder / f"{name}.gz").write_bytes(packed)
        plain = self.run_tool("who_loses", "script", "before", "after").stdout
        done = self.run_tool("who_loses", "script.gz", "before.gz", "after.gz")
        self.assertEqual(done.stdout, plain)
        self.assertEqual(self.run_tool("check", "script.gz").returncode, 0)
        damaged = (self.folder / "script.gz").read_bytes()[:-6]
        (self.folder / "script.gz").write_bytes(damaged)
        done = self.run_tool("check", "script.gz")
        self.refused(done, "check: script.gz: packed by gzip, and damaged: ")

    def test_why_a_file_cannot_be_opened(self):
        for tool, words in (("check", ["x"]), ("log_to_script", ["x"]),
                            ("compare_log", ["x", "before"]),
                            ("log_to_script", ["--begin", "x", "script"]),
                            ("who_loses", ["x", "before", "after"]),
                            ("who_loses", ["script", "before", "x"])):
            done, said = self.run_tool(tool, *words), f"{tool}: x: No such file or directory\n"
            self.assertEqual((done.returncode, done.stderr), (2, said))


class Order(Case):
    def test_the_newest_first(self):
        """As a glob has rotated logs: what the right order gives, and one line more."""
        lines = (RECORDED / "plain.log").read_text(encoding="utf-8").splitlines(True)
        stamps = [line.partition(": ")[0] for line in lines]
        later = [i for i in range(1, len(lines)) if stamps[i] > stamps[i - 1]]
        first, second = (next(i for i in later if i >= n) for n in (1200, 2400))
        for name, part in (("log", lines[second:]), ("log.1", lines[first:second])):
            self.write(name, "".join(part))
        (self.folder / "log.2.gz").write_bytes(gzip.compress("".join(lines[:first]).encode()))
        self.write("log.3", "")
        wanted = self.run_tool("log_to_script", "log.2.gz", "log.1", "log")
        whole_day = (RECORDED / "plain.jsonl").read_text(encoding="utf-8")
        self.assertEqual((wanted.returncode, wanted.stdout), (0, whole_day))
        done = self.run_tool("log_to_script", "log", "log.1", "log.2.gz", "log.3")
        self.assertEqual(done.stdout, wanted.stdout)
        said = "the logs are read in the order of their times: log.2.gz, log.1, log"
        self.assertEqual(done.stderr, f"log_to_script: {said}\n{wanted.stderr}")

    def ordered(self, one: str, other: str, *stamps: tuple[str, str]) -> tuple[int, str]:
        for name, times in zip((one, other), stamps):
            self.write(name, LOG.format(*times))
        done = self.run_tool("log_to_script", one, other)
        return done.returncode, done.stderr.splitlines()[0]

    def test_logs_that_overlap(self):
        day = "2026-11-{}T{}:00:00".format
        for late in (day(10, 13), day(11, "02")):
            found = self.ordered("a", "b", (day(10, 12), day(11, "06")), (late, day(11, "08")))
            said = "log_to_script: a and b overlap in time: give logs that follow one another"
            self.assertEqual(found, (2, said))
        self.assertEqual(self.ordered("a", "a", (1, 2), (1795358535, 1795358536))[0], 2)
        _, said = self.ordered("a", "b", (1795358535, 1795358536), (1795358536, 1795358537))
        self.assertEqual(said[-16:], "commands written")

    def test_a_clock_that_is_set_back(self):
        """On Sunday 2026-10-25 in Europe 3 o'clock became 2; on other days such logs overlap."""
        for day, status in ((25, 1), (26, 2)):
            found = self.ordered("a", "b", ("2026-10-24T12:00:00", f"2026-10-{day}T02:58:00"),
                                 (f"2026-10-{day}T02:01:00", "2026-10-27T12:00:00"))
            self.assertEqual(found[0], status, found)

    def test_stamps_without_a_year(self):
        prefix = "{} host mosquitto[1]".format
        new_year = ((prefix("Dec 31 12:00:00"), prefix("Dec 31 23:00:00")),
                    (prefix("Jan  1 00:00:01"), prefix("Jan  1 12:00:00")))
        self.assertNotIn("order", self.ordered("a", "b", *new_year)[1])
        self.assertIn("order of their times: b, a", self.ordered("a", "b", *new_year[::-1])[1])


class Places(Case):
    def test_lines_of_several_logs(self):
        """What isn't known is shown with its file and line there."""
        self.write("one", LOG.format(1795358535, 1795358536))
        self.write("two", LOG.format(1795358537, 1795358538) + "1795358539: Something odd\n")
        done = self.run_tool("log_to_script", "one", "two")
        self.assertEqual(done.returncode, 1)
        self.assertIn("log_to_script: 1 line not known: nothing of it is in the script\n"
                      "    two:5: 1795358539: Something odd\n", done.stderr)

    def test_one_and_several(self):
        self.write("log", LOG.format(1795358535, 1795358536).splitlines(True)[-1])
        done = self.run_tool("log_to_script", "--no-inference", "log")
        self.assertIn("1 line read, 2 commands written\n", done.stderr)
        self.assertIn("1 client was connected before the log began: user name", done.stderr)
        for names, said in ((["before", "after"], "0 lines refused before, 1 after."),
                            (["after", "before"], "1 line refused before, 0 after.")):
            self.assertIn(said, self.run_tool("who_loses", "script", *names).stdout)


class Numbers(unittest.TestCase):
    def test_negative_ones(self):
        low = "must be 0 or more"
        for tool, option, value, said in (
            ("log_to_script", "--session-expiry", "-5", low), ("replay", "--patience", "-5", low),
            ("compare_log", "--session-expiry", "-5", low), ("replay", "--settle", "-0.1", low),
            ("search", "--minutes", "-5", low), ("search", "--seed", "-5", low),
            ("replay", "--port", "0", "must be 1 or more"),
            ("who_loses", "--depth", "-1", "must be 1 or more"),
            ("log_to_script", "--session-expiry", "4294967296", "must be at most 4294967295"),
            ("replay", "--patience", "nan", "'nan' is not a number"),
        ):
            words = [HERE / f"{tool}.py", option, value, "x", "y", "z"]
            done = subprocess.run([sys.executable, *words], capture_output=True, text=True)
            self.assertEqual((done.returncode, done.stderr.splitlines()[-1]),
                             (2, f"{tool}.py: error: argument {option}: {said}"))


if __name__ == "__main__":
    unittest.main()
