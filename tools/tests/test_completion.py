"""What bash makes of a line when Tab is typed, on a terminal of its own."""
import os
import pty
import select
import shutil
import subprocess
import tempfile
import unittest
from pathlib import Path

from worked import TOP

BASH = shutil.which("bash")
PATIENCE = 10  # seconds
FILES = ("new list.acl", "other.acl", "notes/of (today).log", "a'b.jsonl")


HAS_READLINE = BASH is not None and b"readline" in Path(BASH).read_bytes()


@unittest.skipUnless(HAS_READLINE, "there is no bash with readline")
class Tab(unittest.TestCase):
    """Each command writes its words to a file, a line each; a line break ends what is typed."""

    def setUp(self) -> None:
        folder = tempfile.TemporaryDirectory()
        self.addCleanup(folder.cleanup)
        self.folder = Path(folder.name)
        for name in FILES:
            (self.folder / name).parent.mkdir(exist_ok=True)
            (self.folder / name).write_text("")

    def words(self, completion: str, typed: str) -> list[str]:
        """The words that the command gets when this is typed."""
        name, out = typed.split()[0], self.folder / "words"
        lines = [f". '{TOP}/docs/{completion}.bash-completion'",
                 f"{name}() {{ printf '%s\\n' \"$@\" > words; }}", typed, "exit"]
        around = {"PATH": os.environ["PATH"], "TERM": "dumb", "INPUTRC": os.devnull,
                  "HOME": str(self.folder), "HISTFILE": ""}
        ours, theirs = pty.openpty()
        bash = subprocess.Popen([BASH, "--norc", "--noprofile", "-i"], cwd=self.folder, env=around,
                                stdin=theirs, stdout=theirs, stderr=theirs, start_new_session=True)
        os.close(theirs)
        try:
            os.write(ours, "".join(line + "\n" for line in lines).encode())
            self.drain(ours, bash)
        finally:
            bash.kill()
            bash.wait()
            os.close(ours)
        return out.read_text().split("\n")[:-1]

    def drain(self, terminal: int, bash: subprocess.Popen) -> None:
        """Until bash has ended: it would wait for a terminal that is full."""
        while select.select([terminal], [], [], PATIENCE)[0]:
            try:
                os.read(terminal, 4096)
            except OSError:
                bash.wait(PATIENCE)
                return
        self.fail("bash doesn't end")

    def test_names_with_blanks(self):
        for completion, command in (("mqroute", "mqroute"), ("mqroute", "mqroute --acl-file"),
                                    ("mqroute-acl", "mqroute-acl compare"),
                                    ("mqroute-tools", "mqroute-check"),
                                    ("mqroute-tools", "mqroute-who-loses --old-acl-file"),
                                    ("mqr", "mqr check"), ("mqr", "mqr preview --outputs"),
                                    ("mqr", "mqr run --acl-file"), ("mqr", "mqr may")):
            more = command.split()[1:]
            for typed, name in (("ne\t", FILES[0]), ("new\\ li\t", FILES[0]),
                                ('"new l\t', FILES[0]), ("no\tof\t", FILES[2]), ("a\t", FILES[3])):
                with self.subTest(command, typed=typed):
                    self.assertEqual(self.words(completion, f"{command} {typed}"), [*more, name])

    def test_values(self):
        tools = "mqroute-tools"
        self.assertEqual(self.words(tools, "mqroute-who-loses --by us\t"), ["--by", "user"])
        self.assertEqual(self.words(tools, "mqroute-who-loses --by=cl\t"), ["--by=client"])
        self.assertEqual(self.words(tools, "mqroute-who-loses --depth ne\t"), ["--depth", "ne"])
        self.assertEqual(self.words(tools, "mqroute-search --port=ne\t"), ["--port=ne"])
        self.assertEqual(self.words(tools, "mqroute-log-to-script --sta\tne\t"),
                         ["--state", FILES[0]])
        self.assertEqual(self.words(tools, "mqroute-tools who\t"), ["who-loses"])
        self.assertEqual(self.words(tools, "mqroute-tools he\tsea\t"), ["help", "search"])
        self.assertEqual(self.words(tools, "mqroute-why --ver\t"), ["--version"])
        self.assertEqual(self.words(tools, "mqroute-plan che\t--acl\tne\t"),
                         ["check", "--acl-file", FILES[0]])
        self.assertEqual(self.words(tools, "mqroute-tools who-loses --by us\tne\t"),
                         ["who-loses", "--by", "user", FILES[0]])
        self.assertEqual(self.words("mqroute", "mqroute --max-queued ne\t"), ["--max-queued", "ne"])
        self.assertEqual(self.words("mqroute", "mqroute --rules mo\t"), ["--rules", "mosquitto"])
        self.assertEqual(self.words(tools, "mqroute-search --rules=o\t"), ["--rules=own"])
        self.assertEqual(self.words("mqroute-acl", "mqroute-acl rea\t"), ["reach"])
        self.assertEqual(self.words("mqroute-acl", "mqroute-acl why --user ne\t"),
                         ["why", "--user", "ne"])

    def test_one_command(self):
        """A subcommand, and what it has of the program or tool that it is passed on to."""
        for typed, words in (("log\t", ["log-to-script"]), ("help ma\t", ["help", "may"]),
                             ("compare --only ga\t", ["compare", "--only", "gained"]),
                             ("may --ques\tne\t", ["may", "--questions", FILES[0]]),
                             ("run --rules=mo\t", ["run", "--rules=mosquitto"]),
                             ("plan scr\t--write\tne\t",
                              ["plan", "script", "--write-old", FILES[0]]),
                             ("search --cou\tne\t", ["search", "--count", "ne"]),
                             ("preview --by us\t", ["preview", "--by", "user"]),
                             ("--v\t", ["--version"])):
            with self.subTest(typed):
                self.assertEqual(self.words("mqr", f"mqr {typed}"), words)


if __name__ == "__main__":
    unittest.main()
