"""The commit of a list, from a folder whose git configuration somebody else wrote."""
import os
import shutil
import subprocess
import tempfile
import unittest
import unittest.mock
from pathlib import Path

from worked import HERE  # noqa: F401 (it lets the tools be imported)
from mqroute_tools.preview.list_commit import commit_of

# What a configuration can name to be run; each would make a file of its name.
COMMANDS = (
    "core.fsmonitor", "core.pager", "pager.log", "core.editor", "core.askPass", "core.sshCommand",
    "core.gitProxy", "gpg.program", "gpg.ssh.program", "filter.evil.clean", "filter.evil.smudge",
    "filter.evil.process", "diff.external", "diff.evil.textconv", "diff.evil.command",
    "merge.evil.driver", "remote.origin.uploadpack", "credential.helper",
    "core.alternateRefsCommand", "uploadpack.packObjectsHook")
SETTINGS = {"log.showSignature": "true", "format.pretty": "%G?", "log.follow": "true",
            "core.autocrlf": "true", "remote.origin.promisor": "true",
            "extensions.partialClone": "origin", "core.repositoryformatversion": "1",
            "core.fsmonitorHookVersion": "2", "core.untrackedCache": "true"}
HOOKS = ("post-index-change", "reference-transaction", "fsmonitor-watchman", "pre-auto-gc")


@unittest.skipUnless(shutil.which("git"), "there is no git")
class GivenFolder(unittest.TestCase):
    def setUp(self) -> None:
        top = tempfile.TemporaryDirectory()
        self.addCleanup(top.cleanup)
        self.ran, self.folder = Path(top.name, "ran"), Path(top.name, "given")
        self.ran.mkdir()
        self.folder.mkdir()
        around = {"GIT_CONFIG_GLOBAL": os.devnull, "GIT_CONFIG_NOSYSTEM": "1", "HOME": top.name}
        self.enterContext(unittest.mock.patch.dict(os.environ, around))
        self.git("init", "-q")
        for name, value in (("user.name", "x"), ("user.email", "x")):
            self.git("config", name, value)
        self.list = self.folder / "a list.acl"
        self.list.write_text("topic read a\n")
        self.git("add", ".")
        self.git("commit", "-qm", "x")
        self.sign()
        self.commit = self.git("rev-parse", "--short", "HEAD")

    def git(self, *words: str, given: str = "") -> str:
        done = subprocess.run(["git", *words], cwd=self.folder, check=True, capture_output=True,
                              input=given.encode())
        return done.stdout.decode().strip()

    def sign(self) -> None:
        """Gives the commit a signature, which git would have a program look at."""
        head, text = self.git("cat-file", "commit", "HEAD").split("\n\n", 1)
        signature = "-----BEGIN PGP SIGNATURE-----\n \n x\n -----END PGP SIGNATURE-----"
        made = self.git("hash-object", "-t", "commit", "-w", "--stdin",
                        given=f"{head}\ngpgsig {signature}\n\n{text}\n")
        self.git("update-ref", "HEAD", made)

    def plant(self) -> None:
        tree = self.git("rev-parse", "HEAD^{tree}")
        hooks = self.folder / "hooks"
        hooks.mkdir()
        for name in (*HOOKS, *COMMANDS):
            (hooks / name).write_text(f"#!/bin/sh\ntouch {self.ran}/{name}\nexit 1\n")
            (hooks / name).chmod(0o755)
        (self.folder / ".gitattributes").write_text("* filter=evil diff=evil merge=evil\n")
        url = str(self.folder / "nowhere")
        for name, value in (SETTINGS | {"core.hooksPath": str(hooks), "remote.origin.url": url}
                            ).items():
            self.git("config", name, value)
        for name in COMMANDS:
            self.git("config", name, str(hooks / name))
        self.tree = self.folder / ".git/objects" / tree[:2] / tree[2:]

    def all_files(self) -> dict[Path, tuple[bytes, int]]:
        return {path: (path.read_bytes(), path.stat().st_mtime_ns)
                for path in self.folder.rglob("*") if path.is_file()}

    def test_words(self):
        self.assertEqual(commit_of(str(self.list)), self.commit)
        self.list.write_text("topic read b\n")
        self.assertEqual(commit_of(str(self.list)), f"{self.commit}, changed since")
        self.list.write_text("topic read a\n")
        os.utime(self.list, (1, 1))
        self.assertEqual(commit_of(str(self.list)), self.commit)
        (self.folder / "new").write_text("topic read a\n")
        for name in (self.folder / "new", self.folder / "absent", "/dev/null", "-"):
            self.assertEqual(commit_of(str(name)), "")

    def test_nothing_is_run_or_written(self):
        self.plant()
        self.list.write_text("topic read b\n")  # so that git would look for what changed
        before = self.all_files()
        self.assertEqual(commit_of(str(self.list)), f"{self.commit}, changed since")
        self.assertEqual(self.all_files(), before)
        self.assertEqual(list(self.ran.iterdir()), [])

    def test_an_object_that_is_absent(self):
        """Of a promisor's git would fetch it by a command of the configuration."""
        self.plant()
        self.tree.chmod(0o644)
        self.tree.unlink()
        self.assertEqual(commit_of(str(self.list)), "")
        self.assertEqual(list(self.ran.iterdir()), [])

    def test_the_plants_work(self):
        """Without care git does run some of them."""
        self.plant()
        for words in (["status"], ["log", "-1", "-p"], ["-p", "log", "-1"]):
            subprocess.run(["git", *words, "--", self.list.name], cwd=self.folder,
                           stdin=subprocess.DEVNULL, capture_output=True)
        self.assertLessEqual(
            {"core.fsmonitor", "gpg.program", "filter.evil.process"},
            {path.name for path in self.ran.iterdir()})


if __name__ == "__main__":
    unittest.main()
