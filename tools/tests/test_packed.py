"""gzip: each tool reads a packed script, log, output or list as it reads the plain one."""
import gzip
import os
import subprocess
import sys
import tempfile
import unittest
import unittest.mock
from pathlib import Path

from test_access_list import ANSWERS
from test_preview import CURRENT, PROPOSED, SCRIPT, text_of, wants_programs
from test_files import LOG
from worked import HERE, wants_program
from mqroute_tools.live.cases import read_commands
from mqroute_tools.live.script_fitting import read_list
from mqroute_tools.plain.reader import Reader
from mqroute_tools.preview.list_rows import rows_of, users_of
from mqroute_tools.script.access_list import AccessList, Question

PACKED = ".gz"


def output(script: str, acl: str) -> bytes:
    return b"".join(Reader(acl, None, None, "own").answers(iter(script.encode().splitlines(True))))


class Case(unittest.TestCase):
    def setUp(self) -> None:
        folder = tempfile.TemporaryDirectory()
        self.addCleanup(folder.cleanup)
        self.folder = Path(folder.name)
        script = text_of(SCRIPT)
        log = LOG.format(1795358535, 1795358536)
        for name, data in (("day", script.encode()), ("log", log.encode()),
                           ("old.acl", CURRENT.encode()), ("new.acl", PROPOSED.encode()),
                           ("old.out", output(script, CURRENT)),
                           ("new.out", output(script, PROPOSED)), ("plan", b"plant/# -> p/#\n"),
                           ("begin", b'{"do":"connect","client":"z"}\n')):
            (self.folder / name).write_bytes(data)
            (self.folder / (name + PACKED)).write_bytes(gzip.compress(data))

    def run_tool(self, tool: str, words: list[str]) -> subprocess.CompletedProcess:
        return subprocess.run([sys.executable, HERE / f"{tool}.py", *words], cwd=self.folder,
                              capture_output=True, text=True)

    def same(self, tool: str, *words: str) -> None:
        """With all files packed, and with each alone, but for the names and so the columns."""
        wanted = self.run_tool(tool, list(words))
        self.assertIn(wanted.returncode, (0, 1), wanted.stderr)
        places = [place for place, word in enumerate(words) if (self.folder / word).is_file()]
        for packed in (places, *([place] for place in places)):
            given = [word + PACKED if place in packed else word
                     for place, word in enumerate(words)]
            with self.subTest(tool, given=given):
                done = self.run_tool(tool, given)
                self.assertEqual((done.returncode, done.stdout.replace(PACKED, "").split()),
                                 (wanted.returncode, wanted.stdout.split()), done.stderr)
                self.assertEqual(done.stderr.replace(PACKED, ""), wanted.stderr)


class Tools(Case):
    def test_without_programs(self):
        self.same("check", "day")
        self.same("log_to_script", "log", "--begin", "begin")
        self.same("who_loses", "--by", "user", "day", "old.out", "new.out")
        self.same("preview", "--outputs", "old.out", "new.out", "day")
        self.same("plan", "name", "plan", "plant/x")

    def test_logs(self):
        made = self.run_tool("log_to_script", ["log"]).stdout
        (self.folder / "log.out").write_bytes(output(made, None))
        (self.folder / f"log.out{PACKED}").write_bytes(gzip.compress(output(made, None)))
        self.same("compare_log", "log", "log.out")
        self.same("replay", "--log", "log", "log.out")

    @wants_program
    def test_with_mqroute(self):
        self.same("plan", "script", "plan", "day")
        self.same("plan", "retained", "--acl-file", "old.acl", "plan", "day")

    @wants_programs
    def test_with_both(self):
        self.same("who_loses", "--rules", "own", "--old-acl-file", "old.acl", "--new-acl-file",
                  "new.acl", "day", "old.out", "new.out")
        self.same("why", "--acl-file", "old.acl", "day", "7")
        self.same("preview", "old.acl", "new.acl", "day")
        self.same("preview", "--rules", "own", "--plan", "plan", "old.acl", "new.acl", "day")
        self.same("plan", "acl", "plan", "old.acl")
        self.same("plan", "compare", "plan", "day", "begin")
        self.same("plan", "check", "--script", "day", "--acl-file", "old.acl", "plan")


class Lists(Case):
    def test_what_mqroute_acl_reads(self):
        """A copy that isn't packed, whose lines are shown under the name of the file."""
        program = self.folder / "mqroute-acl"
        program.write_text(ANSWERS)
        program.chmod(0o755)
        name = str(self.folder / "old.acl.gz")
        with unittest.mock.patch.dict(os.environ, MQROUTE_ACL_PROGRAM=str(program)):
            one = AccessList(name)
        self.assertEqual(Path(one.path).read_text(), CURRENT)
        self.assertTrue(one.is_file)
        verdict = one.verdict(Question("c", None, "x", "read"))
        self.assertEqual(verdict.grant.file if verdict.grant else "", name)

    def test_rows(self):
        plain, packed = (str(self.folder / name) for name in ("old.acl", "old.acl.gz"))
        self.assertEqual(rows_of(packed, "x"), rows_of(plain, "x"))
        self.assertEqual(users_of(packed), ["meter", "dash", "hq", "plc"])

    def test_of_live_brokers(self):
        self.assertEqual(read_list(str(self.folder / "old.acl.gz")), CURRENT)
        self.assertEqual(read_commands(self.folder / "day.gz"), SCRIPT)


if __name__ == "__main__":
    unittest.main()
