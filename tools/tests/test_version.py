"""What --version prints: the name, and the commit of the package or of the clone."""
import os
import shutil
import subprocess
import sys
import tempfile
import unittest
from pathlib import Path

from test_pages import TOOLS
from worked import HERE, TOP

GIT = shutil.which("git")
WHEN = "2026-11-29T14:00:01+14:00"  # in UTC the same day, a second past midnight
TIME = "20261129000001"


class Version(unittest.TestCase):
    """Of a copy of the tools, in a folder of its own."""

    def setUp(self) -> None:
        folder = tempfile.TemporaryDirectory()
        self.addCleanup(folder.cleanup)
        self.top = Path(folder.name)
        ignored = shutil.ignore_patterns("__pycache__", "tests", "VERSION")
        shutil.copytree(HERE, self.top / "tools", ignore=ignored)
        self.around = {name: value for name, value in os.environ.items()
                       if not name.startswith("GIT_")} | {"PYTHONDONTWRITEBYTECODE": "1"}

    def shown(self, tool: str, *words: str, **around: str) -> str:
        done = subprocess.run(
            [sys.executable, self.top / f"tools/{tool}.py", *words, "--version"],
            capture_output=True, text=True, cwd=self.top, env=self.around | around)
        self.assertEqual((done.returncode, done.stderr), (0, ""))
        line, *programs = done.stdout.splitlines()
        self.assertEqual(len(programs), 2 if (tool, *words) == ("mqr",) else 0)
        return line

    def git(self, *words: str) -> str:
        around = self.around | {"GIT_COMMITTER_DATE": WHEN}
        return subprocess.run([GIT, "-C", self.top, "-c", "user.name=a", "-c", "user.email=a@b",
                               *words], env=around, check=True, capture_output=True,
                              text=True).stdout.strip()

    def committed(self) -> str:
        self.git("init", "-q")
        self.git("add", ".")
        self.git("commit", "-q", "-m", "one")
        return self.git("rev-parse", "--short=7", "HEAD")

    def test_neither(self):
        for tool in TOOLS:
            name = "mqroute-tools" if tool == "tools" else tool
            self.assertEqual(self.shown(tool), f"{name} unknown")

    def test_subcommands(self):
        """And a plan's commands stand behind it."""
        self.assertEqual(self.shown("tools", "check"), "mqroute-tools check unknown")
        (self.top / "mqroute-plan").symlink_to(self.top / "tools/plan.py")
        done = subprocess.run([self.top / "mqroute-plan", "--version", "check"],
                              capture_output=True, text=True, env=self.around)
        self.assertEqual((done.stdout, done.stderr), ("mqroute-plan unknown\n", ""))

    def test_of_a_package(self):
        """Its file is asked, and not the folder's git."""
        (self.top / "tools/mqroute_tools/VERSION").write_text("20261129.fffffff\n")
        if GIT:
            self.committed()
        self.assertEqual(self.shown("why"), "why 20261129.fffffff")

    @unittest.skipUnless(GIT, "there is no git")
    def test_of_a_clone(self):
        commit = self.committed()
        self.assertEqual(self.shown("check"), f"check {TIME}.{commit}")
        (self.top / "tools/mine.py").write_text("")
        self.assertEqual(self.shown("check"), f"check {TIME}.{commit}+")

    @unittest.skipUnless(GIT, "there is no git")
    def test_another_clone(self):
        """A git that stands around a copy, or that a hook names, has other commits."""
        commit = self.committed()
        with tempfile.TemporaryDirectory() as other:
            subprocess.run([GIT, "init", "-q", other], check=True, env=self.around)
            self.assertEqual(self.shown("check", GIT_DIR=f"{other}/.git"), f"check {TIME}.{commit}")
        shutil.copytree(self.top / "tools", self.top / "copy/tools")
        done = subprocess.run([sys.executable, self.top / "copy/tools/check.py", "--version"],
                              capture_output=True, text=True, env=self.around)
        self.assertEqual(done.stdout, "check unknown\n")

    @unittest.skipUnless(GIT and shutil.which("bash"), "there is no git or no bash")
    def test_as_the_package_is_named(self):
        """In a copy of what names it."""
        self.committed()
        (self.top / "dev").mkdir()
        shutil.copy(TOP / "dev/package.sh", self.top / "dev")
        named = subprocess.run([self.top / "dev/package.sh", "--version"], capture_output=True,
                               text=True, env=self.around)
        self.assertEqual((named.returncode, named.stderr), (0, ""))
        self.assertTrue(named.stdout.startswith(f"{TIME}."), named.stdout)
        self.assertEqual(self.shown("search"), f"search {named.stdout.strip()}")

    @unittest.skipIf(not GIT, "there is no git")
    def test_no_git(self):
        self.committed()
        self.assertEqual(self.shown("check", PATH=""), "check unknown")


if __name__ == "__main__":
    unittest.main()
