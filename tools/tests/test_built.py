"""Of which build the programs are: by the checksums of their files."""
import os
import subprocess
import sys
import tempfile
import unittest
import unittest.mock
from pathlib import Path

from worked import HERE

sys.path.insert(0, str(HERE))
from mqroute_tools.common import built  # noqa: E402


class Built(unittest.TestCase):
    """In a folder of its own, with a program that is known, and one that isn't."""

    def setUp(self) -> None:
        folder = tempfile.TemporaryDirectory()
        self.addCleanup(folder.cleanup)
        self.bin = Path(folder.name)
        self.known, self.other = self.bin / "mqroute", self.bin / "mqroute-acl"
        self.known.write_bytes(b"one")
        self.other.write_bytes(b"two")
        lines = [built.line_of(self.known, "mqroute", "20261201.1234567, proved by a kit"),
                 built.line_of(self.known, "mqroute-acl", "of another name")]
        (self.bin / built.NAME).write_text("\n".join(lines) + "\n")
        around = {"MQROUTE": str(self.known), "MQROUTE_ACL_PROGRAM": str(self.other)}
        for patch in (unittest.mock.patch.dict(os.environ, around),
                      unittest.mock.patch.object(built, "BUILT", self.bin),
                      unittest.mock.patch.object(built, "MODULES", self.bin / "none")):
            patch.start()
            self.addCleanup(patch.stop)

    def test_known_and_unknown(self) -> None:
        known, other = built.versions()
        self.assertEqual(known, "mqroute 20261201.1234567, proved by a kit")
        digest = built.checksum(self.other)[:16]
        self.assertEqual(other, f"mqroute-acl: of {self.other} it isn't known of which commit it is"
                                f" (SHA-256 {digest})")

    def test_a_changed_byte(self) -> None:
        self.known.write_bytes(b"One")
        self.assertIn("isn't known", next(built.versions()))

    def test_a_copy_of_it(self) -> None:
        """It has the checksum, whatever its folder."""
        copy = self.bin / "copy"
        copy.write_bytes(b"one")
        with unittest.mock.patch.dict(os.environ, {"MQROUTE": str(copy)}):
            self.assertEqual(next(built.versions()), "mqroute 20261201.1234567, proved by a kit")

    def test_no_file(self) -> None:
        self.known.unlink()
        self.assertEqual(next(built.versions()),
                         f"mqroute: {self.known}: No such file or directory")

    def test_lines_of_an_installation(self) -> None:
        """With the checksum that the file has there, such as one without symbols."""
        installed = self.bin / "usr"
        installed.mkdir()
        for name, content in (("mqroute", b"stripped"), ("mqroute-acl", b"two")):
            (installed / name).write_bytes(content)
        with unittest.mock.patch("builtins.print") as written:
            built.main([str(installed / "mqroute"), str(installed / "mqroute-acl")])
        self.assertEqual([call.args for call in written.call_args_list], [
            (built.line_of(installed / "mqroute", "mqroute",
                           "20261201.1234567, proved by a kit"),)])

    def test_as_a_module(self) -> None:
        """Of a file whose name none of the clone's programs has nothing is written."""
        other = self.known.rename(self.bin / "other")
        done = subprocess.run([sys.executable, "-m", "mqroute_tools.common.built", other],
                              cwd=HERE, capture_output=True, text=True)
        self.assertEqual((done.returncode, done.stdout, done.stderr), (0, "", ""))


if __name__ == "__main__":
    unittest.main()
