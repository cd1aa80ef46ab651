"""The page, as a browser reads it: its numbers are those of --json, and what names hold is text."""
import json
import re
import shutil
import subprocess
import sys
import tempfile
import unittest
from html.parser import HTMLParser
from pathlib import Path

from worked import HERE, PROGRAM, TOP, wants_program

RECORDED = TOP / "brokers/recorded"
BROWSER = (
    shutil.which("chromium") or shutil.which("chromium-browser") or shutil.which("google-chrome"))
wants_browser = unittest.skipUnless(BROWSER, "there is no chromium")

ODD = ["<script>document.title='x'</script>", "a&amp;b\"'", "\u202eright\u0007",
       "\u05d0\u05d1 \u05d2", "(none)", " ", "</details></section>", "a · b"]


class Reading(HTMLParser):
    """The texts of a page's cells, rows by section, and everything that stands in a tag."""

    def __init__(self) -> None:
        super().__init__()
        self.rows: list[dict[str, str]] = []
        self.cell = self.section = ""
        self.ids: dict[str, str] = {}
        self.tags: set[str] = set()
        self.lines: list[str] = []
        self.id = ""
        self.inside = False  # a row

    def handle_starttag(self, tag, attributes):
        has = dict(attributes)
        self.tags.add(tag)
        self.inside = tag in ("summary", "tr") or self.inside
        self.id = has.get("id", "")
        if tag == "section":
            self.section = has.get("id", "")
        elif tag == "summary":
            self.rows.append({"section": self.section})
        elif tag == "tr":
            self.rows.append({"section": "causes"})
        elif tag in ("span", "td") and self.inside:
            self.cell = has.get("class", "")
        elif tag == "li":
            self.lines.append("")
            self.cell = ""

    def handle_endtag(self, tag):
        if tag in ("span", "td"):
            self.cell = ""
        self.inside = self.inside and tag not in ("summary", "tr")

    def handle_data(self, data):
        if self.id:
            self.ids[self.id] = data
            self.id = ""
        if self.cell and self.rows:
            self.rows[-1][self.cell] = self.rows[-1].get(self.cell, "") + data
        elif self.lines:
            self.lines[-1] += data

    def of(self, section: str) -> list[dict[str, str]]:
        return [row for row in self.rows if row["section"] == section and len(row) > 1]


class Pages(unittest.TestCase):
    def made(self, folder: str, script: str, before: str, after: str, *words: str) -> dict:
        """Writes the page and gives what --json shows."""
        for name, acl in (("before", before), ("after", after)):
            Path(folder, f"{name}.acl").write_text(acl, encoding="utf-8")
            done = subprocess.run([PROGRAM, "--acl-file", f"{name}.acl"], input=script.encode(),
                                  capture_output=True, cwd=folder)
            Path(folder, name).write_bytes(done.stdout)
        Path(folder, "script").write_text(script, encoding="utf-8")
        done = subprocess.run([sys.executable, HERE / "who_loses.py", "--json", "--html",
                               "page.html", *words, "script", "before", "after"],
                              cwd=folder, capture_output=True, text=True, encoding="utf-8")
        self.assertIn(done.returncode, (0, 1), done.stderr)
        return json.loads(done.stdout)

    def read(self, folder: str) -> Reading:
        done = subprocess.run(
            [BROWSER, "--headless", "--no-sandbox", "--disable-gpu",
             f"--user-data-dir={folder}/profile", "--dump-dom", f"file://{folder}/page.html"],
            capture_output=True, text=True, encoding="utf-8", timeout=120)
        page = Reading()
        page.feed(done.stdout)
        return page

    def agree(self, page: Reading, found: dict) -> None:
        self.assertEqual({key: int(page.ids[key]) for key in found["totals"]}, found["totals"])
        causes = [(row, cause) for row in found["copies"] for cause in row["causes"]]
        self.assertEqual(
            [(c["what"], int(c["copies"]), c["because"], int(c["first-line"]))
             for c in page.of("copies")],
            [(c["what"], c["copies"], c["because"], c["lines"][0]["line"]) for _, c in causes])
        if found["by"] == "user":
            self.assertEqual(
                [int(c["clients"]) for c in page.of("copies")], [c["clients"] for _, c in causes])
        self.assertEqual([(int(r["before"]), int(r["after"])) for r in page.of("refused")],
                         [(r["before"], r["after"]) for r in found["refused"]])
        self.assertEqual(
            [(c["because"], *(int(c.get(what) or 0) for what in ("lost", "gained", "changed")))
             for c in page.of("causes")],
            [(c["because"], c["lost"], c["gained"], c["changed"]) for c in found["causes"]])
        lines = [at for row in (*(c for _, c in causes), *found["refused"]) for at in row["lines"]]
        self.assertEqual([int(re.search(r"line (\d+)", text)[1]) for text in page.lines],
                         [at["line"] for at in lines])
        self.assertFalse(page.tags & {"script", "link", "img", "iframe", "object", "base"})

    @wants_browser
    @wants_program
    def test_the_recorded_day(self):
        script, before, after = ((RECORDED / name).read_text(encoding="utf-8")
                                 for name in ("plain.jsonl", "plain.acl", "proposed.acl"))
        for words in ([], ["--depth", "1"], ["--by", "client"]):
            with tempfile.TemporaryDirectory() as folder, self.subTest(words):
                found = self.made(folder, script, before, after, *words)
                self.assertGreater(len(found["copies"]), 5)
                self.agree(self.read(folder), found)

    @wants_browser
    @wants_program
    def test_odd_names(self):
        commands = [{"do": "connect", "client": "p", "user": "pub<lisher>"}]
        for odd in ODD:
            commands += [{"do": "connect", "client": odd, "user": odd},
                         {"do": "subscribe", "client": odd, "filter": "#"}]
        commands += [{"do": "publish", "client": "p", "topic": odd, "payload": odd}
                     for odd in ODD if "/" not in odd]
        script = "".join(json.dumps(c, ensure_ascii=False) + "\n" for c in commands)
        for words in ([], ["--by", "client"]):
            with tempfile.TemporaryDirectory() as folder, self.subTest(words):
                found = self.made(
                    folder, script, "pattern readwrite #\n", "pattern read #\n", *words)
                page = self.read(folder)
                self.agree(page, found)
                self.assertEqual({c["because"] for c in page.of("copies")},
                                 {"publish by pub<lisher> refused (NotAuthorized)"})
                names = {row["who"] for row in page.of("copies")}
                self.assertEqual(len(names), len(ODD))
                self.assertTrue({ODD[0], ODD[1], ODD[3], '" "', ODD[6]} <= names, names)
                self.assertIn("\\u{202e}", " ".join(names))
                self.assertNotIn("\u202e", Path(folder, "page.html").read_text(encoding="utf-8"))

    @wants_program
    def test_nothing_is_loaded(self):
        with tempfile.TemporaryDirectory() as folder:
            self.made(folder, '{"do":"connect","client":"a"}\n', "", "")
            text = Path(folder, "page.html").read_text(encoding="utf-8")
        self.assertIn("Nothing changes.", text)
        self.assertIsNone(re.search(r"\b(?:src|href|url|import)\b\s*[=(]|https?:", text))

    @wants_program
    def test_a_page_that_cannot_be_written(self):
        with tempfile.TemporaryDirectory() as folder:
            for name in ("script", "before", "after"):
                Path(folder, name).write_text("")
            done = subprocess.run(
                [sys.executable, HERE / "who_loses.py", "--html", "/nowhere/page", "script",
                 "before", "after"], cwd=folder, capture_output=True, text=True)
            self.assertEqual((done.returncode, done.stdout), (2, ""))


if __name__ == "__main__":
    unittest.main()
