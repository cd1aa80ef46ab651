"""The page of a preview, as a browser has it: its numbers are those of --json, nothing is too wide,
all can be read by day and by night, and rows open by the keyboard."""
import json
import os
import re
import shutil
import subprocess
import sys
import unittest
from pathlib import Path

from test_preview import CURRENT, PROPOSED, RECORDED, SCRIPT, Case, text_of, wants_programs
from two_runs import connect, publish, subscribe
from worked import TOP

READER = Path(__file__).parent / "read_page.py"
PICTURE = TOP / "docs/preview.png"
LEAST_CONTRAST = 4.5
ODD = ["<script>document.title='x'</script>", "a&amp;b\"'", "\u202eright\u0007", "(none)", " ",
       "</details></table>", "x" * 300]


def has_selenium(python: str) -> bool:
    return Path(python).exists() and subprocess.run(
        [python, "-c", "import selenium"], capture_output=True).returncode == 0


PYTHON = next((p for p in (sys.executable, "/usr/bin/python3") if has_selenium(p)), None)
BROWSER = shutil.which("chromium") and shutil.which("chromedriver")
wants_browser = unittest.skipUnless(
    PYTHON and BROWSER, "there is no chromium with chromedriver, or no python3-selenium")


def number(text: str) -> int:
    return int(re.match(r"[\d,]+", text)[0].replace(",", ""))


@wants_programs
class Page(Case):
    def read(self, *words: object, picture: tuple[object, ...] = (), **more) -> tuple[dict, dict]:
        """What the browser has of the page, and what --json has."""
        found = self.found("--html", self.folder / "page.html", *words, **more)
        done = subprocess.run([PYTHON, READER, self.folder / "page.html", *picture],
                              capture_output=True, text=True, timeout=120)
        self.assertEqual(done.returncode, 0, done.stderr)
        return json.loads(done.stdout), found

    def looks_right(self, page: dict) -> None:
        self.assertEqual(set(page["wide"].values()), {0}, page["wide"])
        for where, texts in page["contrasts"].items():
            self.assertGreater(len(texts), 20)
            faint = [(text, ratio) for text, ratio in texts if ratio < LEAST_CONTRAST]
            self.assertEqual(faint, [], where)
        self.assertTrue(all(page["keys"]), page["keys"])
        self.assertEqual(page["unnamed"], [])

    def agree(self, page: dict, found: dict) -> None:
        users, refused = found["users"], found["refused"]
        self.assertEqual(len(page["keys"]), len(users) + len(refused))
        rows = page["tables"].get("users", [])[::2]
        self.assertEqual([[number(text) for text in row[1:6]] for row in rows],
                         [[user[name] for name in ("clients", "before", "after", "lost", "gained")]
                          for user in users])
        self.assertEqual([[number(text) for text in row[1:4]]
                          for row in page["tables"].get("refused", [])[::2]],
                         [[row[name] for name in ("clients", "refused", "accepted")]
                          for row in refused])
        self.assertEqual([number(text) for text in page["counts"]],
                         [cause["count"] for row in (*users, *refused) for cause in row["causes"]])
        for name, table in (("granted", "granted"), ("taken", "taken"), ("remarks", "remarks"),
                            ("subscriptions", "receive-nothing")):
            self.assertEqual(len(page["tables"].get(table, [])), len(found[name]), name)
        self.assertEqual(page["summary"], found["summary"])

    @wants_browser
    def test_the_recorded_day(self):
        """Written to docs/preview.png too, where MQROUTE_PICTURE asks for it."""
        words = ["plain.acl", "proposed.acl", "plain.log", "--rules", "mosquitto", "--keep",
                 self.folder / "kept"]
        picture = (PICTURE,) if os.environ.get("MQROUTE_PICTURE") else ()
        page, found = self.read(*words, picture=picture, cwd=RECORDED)
        self.looks_right(page)
        self.agree(page, found)
        self.assertEqual(len(found["users"]), 3)

    @wants_browser
    def test_odd_names(self):
        """What names hold is text, however long it is."""
        script = [*SCRIPT[:6], *SCRIPT[6:]]
        for odd in ODD:
            script += [connect(odd, odd), subscribe(odd, "plant/#")]
        script += [connect("meter-1", "meter"), publish("meter-1", "plant/h1/energy")]
        lines = "".join(f"user {odd}\ntopic read plant/#\n" for odd in ODD if odd.strip() == odd)
        self.write("old.acl", CURRENT + lines)
        self.write("script", text_of(script))
        page, found = self.read("old.acl", "new.acl", "script", "--title", ODD[0])
        self.looks_right(page)
        self.agree(page, found)
        self.assertIn(ODD[0], [row[0] for row in page["tables"]["users"][::2]])
        text = (self.folder / "page.html").read_text(encoding="utf-8")
        self.assertNotIn("\u202e", text)
        self.assertNotIn("<script", text)

    def test_nothing_is_loaded(self):
        for new, said in ((CURRENT, "Nothing would change for anybody."),
                          (PROPOSED, "1 new right would be granted, 2 taken away.")):
            self.write("new.acl", new)
            done = self.shown("--html", "page.html", "old.acl", "new.acl", "script")
            text = (self.folder / "page.html").read_text(encoding="utf-8")
            self.assertIn(said, text)
            self.assertIn("default-src 'none'", text)
            self.assertIsNone(re.search(r"\b(?:src|href|url|import)\b\s*[=(]|https?:", text))
            self.assertEqual(done.returncode, 0 if new == CURRENT else 1)
        self.assertIn("aria-label='hq loses all 2; dash loses 2 of 4 (50 %)'", text)
        # a name has the room that the numbers leave: "−100 % of 2", and some between
        self.assertIn("width='108' height='20' transform='translate(-108)'/>", text)

    def test_where_it_stands(self):
        """The commits of the lists, where they are in git; without git the page is made too."""
        git = ["git", "-C", self.folder, "-c", "user.name=x", "-c", "user.email=x@x"]
        if shutil.which("git") is None:
            self.skipTest("there is no git")
        for words in (["init", "-q"], ["add", "old.acl"], ["commit", "-qm", "x"]):
            subprocess.run([*git, *words], check=True)
        commit = subprocess.run([*git, "log", "-1", "--format=%h"], capture_output=True,
                                text=True).stdout.strip()
        for text, words in ((CURRENT, f"(commit {commit})"),
                            (CURRENT + "\n", f"(commit {commit}, changed since)")):
            self.write("old.acl", text)
            self.shown("--html", "page.html", "old.acl", "new.acl", "script")
            page = (self.folder / "page.html").read_text(encoding="utf-8")
            self.assertEqual(page.count("(commit"), 1)
            self.assertIn(f"<bdi class='file'>old.acl</bdi> {words}, tried on", page)

    def test_a_page_that_cannot_be_written(self):
        self.refused("preview: /nowhere/page: No such file or directory\n", "old.acl", "new.acl",
                     "script", "--html", "/nowhere/page", "--keep", "kept")
        self.assertEqual(os.listdir(self.folder / "kept"), [])
        self.write("page", "as it was")
        self.refused("preview: nowhere.acl: No such file or directory\n", "old.acl", "nowhere.acl",
                     "script", "--html", "page")
        self.assertEqual((self.folder / "page").read_text(), "as it was")


if __name__ == "__main__":
    unittest.main()
