"""The wheel that pip makes of the tools."""
import subprocess
import sys
import tempfile
import unittest
from pathlib import Path

from worked import HERE, TOP
from mqroute_tools.common.version import version

CONNECT = {"do": "connect", "client": "a"}


class Wheel(unittest.TestCase):
    """`pip install ./tools` without an index, in an environment that has pip alone."""

    def test_installed(self):
        with tempfile.TemporaryDirectory() as folder:
            made = subprocess.run([sys.executable, "-m", "venv", f"{folder}/venv"],
                                  capture_output=True)
            if made.returncode:
                self.skipTest("there is no venv with pip")
            found = Path(folder, "venv/bin")
            if subprocess.run([found / "pip", "uninstall", "-y", "-q", "setuptools", "wheel"],
                              capture_output=True).returncode:
                self.skipTest("there is no pip")
            done = subprocess.run([found / "pip", "install", "-q", "--no-index", HERE],
                                  capture_output=True, text=True)
            self.assertEqual(done.returncode, 0, done.stderr)
            env = {"PATH": f"{found}", "HOME": folder}
            asked = f"from mqroute import Oracle; print(Oracle().run([{CONNECT}]))"
            answered = subprocess.run(
                [found / "python", "-W", "ignore", "-c", asked],
                capture_output=True, text=True, cwd=folder, env=env)
            self.assertEqual(answered.stdout, "[[{'line': 1, 'reason': 0}]]\n", answered.stderr)
            shown = subprocess.run([found / "mqroute-check", TOP / "tests/rows/first-look.jsonl"],
                                   capture_output=True, text=True, env=env)
            self.assertEqual(shown.returncode, 0, shown.stderr)
            said = subprocess.run([found / "mqroute-check", "--version"], capture_output=True,
                                  text=True, env=env)
            self.assertEqual(said.stdout, f"mqroute-check {version()}\n")
            shared = Path(folder, "venv/share/mqroute")
            self.assertTrue((shared / "conformance/09-groups/cases.json").exists())
            self.assertTrue((shared / "differences/rabbitmq").is_dir())


if __name__ == "__main__":
    unittest.main()
