"""dev/first_answers.py, which `make run` calls, answers without the toolchain too."""
import os
import pathlib
import shutil
import subprocess
import sys
import tempfile
import unittest

TOP = pathlib.Path(__file__).resolve().parent.parent
COPIED = ("dev", "tools", "examples")
PATH = "/usr/bin:/bin"
IS_BARE = shutil.which("python3", path=PATH) and not shutil.which("rt", path=PATH)


@unittest.skipUnless(IS_BARE, f"python3 isn't in {PATH}, or rt is")
class WithoutToolchain(unittest.TestCase):
    def setUp(self):
        folder = tempfile.TemporaryDirectory()
        self.addCleanup(folder.cleanup)
        self.top = pathlib.Path(folder.name)
        for name in COPIED:
            shutil.copytree(TOP / name, self.top / name, ignore=shutil.ignore_patterns("out"))

    def run_it(self, *words):
        return subprocess.run(
            [sys.executable, "dev/first_answers.py", *words], cwd=self.top, text=True,
            capture_output=True, env=os.environ | {"PATH": PATH})

    def test_example(self):
        done = self.run_it()
        self.assertEqual(done.returncode, 0, done.stderr)
        self.assertTrue(done.stderr.startswith("These answers are unproved: "), done.stderr)
        refused = '{"code":11,"line":12,"refused":"NotAuthorized"}\n'
        self.assertIn("under current.acl:\n", done.stdout)
        self.assertEqual(done.stdout.count(refused), 1)
        self.assertIn("Who loses what", done.stdout)

    def test_own_script(self):
        script = self.top / "mine.jsonl"
        script.write_text('{"do":"connect","client":"a"}\n{"do":"stat"}\n')
        rights = self.top / "mine.acl"
        rights.write_text("topic read #\n")
        done = self.run_it("--acl", str(rights), str(script))
        self.assertEqual(done.returncode, 0, done.stderr)
        self.assertEqual(len(done.stdout.splitlines()), 2)

    def test_own_day(self):
        """By mosquitto's rules, as far as there are programs."""
        log = self.top / "mosquitto.log"
        log.write_text("".join(f"{second}: {said}\n" for second, said in enumerate((
            "mosquitto version 2.0.11 starting",
            "New client connected from 127.0.0.1:1 as a (p2, c1, k60, u'ops').",
            "Sending CONNACK to a (0, 0)",
            "Received SUBSCRIBE from a", "\tcmd/# (QoS 0)", "a 0 cmd/#", "Sending SUBACK to a",
            "New client connected from 127.0.0.1:2 as b (p2, c1, k60).",
            "Sending CONNACK to b (0, 0)",
            "Received PUBLISH from b (d0, q0, r0, m0, 'cmd/x', ... (1 bytes))",
            "Sending PUBLISH to a (d0, q0, r0, m0, 'cmd/x', ... (1 bytes))"), 1_700_000_000)))
        current, proposed = self.top / "current.acl", self.top / "proposed.acl"
        current.write_text("topic readwrite cmd/#\nuser ops\ntopic read cmd/#\n")
        proposed.write_text("topic readwrite cmd/#\nuser ops\ntopic read log/#\n")
        done = self.run_it("--log", str(log), "--current", str(current),
                           "--proposed", str(proposed))
        self.assertEqual(done.returncode, 0, done.stderr)
        self.assertIn("who loses which messages", done.stderr)
        self.assertRegex(done.stdout, r"\na +cmd/x +1 +0 ")

    def test_half_a_day(self):
        done = self.run_it("--log", "mosquitto.log", "--current", "current.acl")
        self.assertEqual((done.returncode, done.stdout), (2, ""))
        self.assertIn("LOG=, CURRENT= and PROPOSED= go together", done.stderr)

    def test_no_such_file(self):
        done = self.run_it("nowhere.jsonl")
        self.assertEqual(done.returncode, 2)
        self.assertEqual(done.stderr, "make run: nowhere.jsonl: no such file\n")


if __name__ == "__main__":
    unittest.main()
