"""A preview of a list with a line that mosquitto doesn't take: it is said what a reload does, by
either rules."""
import json
import tempfile
import unittest
from pathlib import Path

import mosquitto
from test_preview import CURRENT, Case, SCRIPT, text_of, wants_programs
from worked import TOP
from mqroute_tools.preview.not_taken import DONT_RELOAD

WARNING = ("DON'T RELOAD wrong.acl: mosquitto 2.0.11 drops a list with a faulty line, and then "
           "allows everything to everybody. It doesn't start with it either.\n")
# Each is refused by mosquitto 2.0.11; the first two our own rules take.
WRONG = {"topic\tread x": 'unknown keyword "topic\\tread": expected topic, pattern or user',
         "  # a comment": 'unknown keyword "#": expected topic, pattern or user',
         "topic rw x": 'unknown access "rw": expected read, write, readwrite or deny',
         "topik read x": 'unknown keyword "topik": expected topic, pattern or user'}


@wants_programs
class NotTaken(Case):
    def setUp(self) -> None:
        super().setUp()
        self.write("script", text_of(SCRIPT))

    def test_words(self):
        for line, why in WRONG.items():
            self.write("wrong.acl", f"{CURRENT}{line}\n")
            for rules in ([], ["--rules", "own"], ["--rules", "mosquitto"]):
                for lists in (["old.acl", "wrong.acl"], ["wrong.acl", "old.acl"]):
                    with self.subTest(line=line, rules=rules, lists=lists):
                        said = self.not_taken(f"wrong.acl:9: {why}\n", *rules, *lists, "script")
                        self.assertEqual(said, f"wrong.acl:9: {why}\n{WARNING}")

    def test_both_lists(self):
        self.write("wrong.acl", "topic rw x\n" * 30)
        said = self.not_taken("wrong.acl:1: ", "wrong.acl", "-", "script", input="topic rw x\n")
        lines = said.split("\n")
        self.assertEqual(len(lines), 20 + 1 + 1 + 2 + 1)
        self.assertEqual((lines[20], lines[21] + "\n"), ("and 10 more", WARNING))
        self.assertEqual(lines[22:], [
            'standard input:1: unknown access "rw": expected read, write, readwrite or deny',
            DONT_RELOAD.format("standard input"), ""])

    def test_with_a_plan(self):
        self.write("wrong.acl", "topic\tread x\n")
        self.write("plan", "plant/# -> works/#\n")
        self.not_taken("wrong.acl:1: ", "--plan", "plan", "old.acl", "wrong.acl", "script")

    def test_page_and_json(self):
        self.write("wrong.acl", f"{CURRENT}topic rw <b>\n")
        words = ["--html", "page", "old.acl", "wrong.acl", "script"]
        self.not_taken("wrong.acl:9: ", *words)
        page = (self.folder / "page").read_text()
        self.assertIn(WARNING.strip().replace("'", "&#x27;"), page)
        self.assertIn("wrong.acl:9: unknown access &quot;rw&quot;", page)
        done = self.shown("--json", *words)
        found = json.loads(done.stdout)
        self.assertEqual((done.returncode, found["summary"] + "\n"), (2, WARNING))
        self.assertEqual(found["not_taken"], [
            {"file": "wrong.acl", "line": 9, "text": "topic rw <b>",
             "words": 'unknown access "rw": expected read, write, readwrite or deny'}])

    def test_what_is_taken(self):
        """Remarks of lint that are of no such line: the preview goes on."""
        more = "# a comment\n\ntopic read x\ntopic read x\npattern read y\n"
        self.write("wrong.acl", CURRENT + more)
        self.assertEqual(self.found("old.acl", "wrong.acl", "script")["proposed"], "wrong.acl")

    def test_documents(self):
        """The sentence stands once in the code, and in the documents as it is printed."""
        for name in ("docs/reference/preview.md", "docs/guide/access-list.md"):
            self.assertIn(DONT_RELOAD.format("edited.acl"), (TOP / name).read_text("utf-8"))


class AtMosquitto(unittest.TestCase):
    def test_it_does_not_start(self):
        for line in WRONG:
            with tempfile.TemporaryDirectory() as name, self.subTest(line):
                folder, port = Path(name), mosquitto.free_port()
                folder.chmod(0o755)
                (folder / "acl").write_text(f"topic read a\n{line}\n")
                (folder / "conf").write_text(f"listener {port} 127.0.0.1\nallow_anonymous true\n"
                                             f"acl_file {folder}/acl\nlog_dest none\n")
                self.assertTrue(mosquitto.refuses(self, folder / "conf"))


if __name__ == "__main__":
    unittest.main()
