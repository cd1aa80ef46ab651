"""What dev/edits says of itself: each edit names what stands for it in the gate, which is there."""
import contextlib
import io
import os
import pathlib
import re
import sys
import tempfile
import unittest
import unittest.mock

TOP = pathlib.Path(__file__).resolve().parent.parent
sys.path.append(str(TOP / "dev"))

import edits  # noqa: E402
import toolchain  # noqa: E402


def clauses_of(crate: str, function: str) -> list[str]:
    """The names of the clauses of the functions with this name; "" is one without a name."""
    found = []
    for path in sorted((TOP / "crates" / crate / "src").rglob("*.rt")):
        contract = re.compile(rf"\bfn {function}\b.*?^ *{{$", re.MULTILINE | re.DOTALL)
        for text in contract.findall(path.read_text(encoding="utf-8")):
            found += re.findall(r"^ *ensures ?(\w*) ?{", text, re.MULTILINE)
    return found


def fault_of(edit: edits.Edit) -> str:
    """Why what stands for the edit isn't there; nothing where it is."""
    if edit.stands == "none":
        return ""
    first, *rest = edit.stands.split(" ")
    if first == "edit":
        crate, _, name = rest[0].partition("/")
        there = (TOP / "crates" / crate / "must-fail" / f"{name}.edit").is_file()
        return "" if there else "the gate has no such edit"
    if edit.crate not in edits.crates_below({first}) or first == edit.crate:
        return f"{first} doesn't stand on {edit.crate}"
    function, *clause = rest
    return "" if "".join(clause) in clauses_of(first, function) else "there is no such clause"


class Stands(unittest.TestCase):
    def test_what_each_edit_names_is_there(self):
        all_edits = [edit for crate in edits.crates_with_edits() for edit in edits.edits_of(crate)]
        self.assertTrue(all_edits)
        for edit in all_edits:
            with self.subTest(str(edit)):
                self.assertTrue(edit.stands, "it doesn't say what stands for it")
                self.assertEqual(fault_of(edit), "", edit.stands)

    def test_those_for_which_nothing_stands_come_first(self):
        first = [edits.edits_of(crate)[0].stands == "none" for crate in edits.crates_with_edits()]
        self.assertEqual(first, sorted(first, reverse=True))


class Read(unittest.TestCase):
    def test_no_such_clause(self):
        path = pathlib.Path("dev/edits/mq_tree/x.edit")
        for stands, fault in (("mq_subscriptions candidates rows", ""),
                              ("mq_subscriptions candidates columns", "there is no such clause"),
                              ("mq_topic parse", "mq_topic doesn't stand on mq_tree"),
                              ("edit mq_tree/no_such", "the gate has no such edit")):
            self.assertEqual(fault_of(edits.Edit(path, stands, [])), fault)

    def test_edits_that_meet_are_compiled_apart(self):
        """The first two change the same text, the third another one."""
        path = TOP / "dev/edits/mq_tree/x.edit"
        file = "src/tree/steps.rs"
        texts = {f"crates/mq_tree/{file}": "a b"}
        one, two, three = (edits.Edit(path, "none", [(file, old, new)])
                           for old, new in (("a", "c"), ("a", "d"), ("b", "e")))
        batch = edits.Batch()
        batch.texts = texts
        self.assertEqual([batch.takes(edit) for edit in (one, two, three)], [True, False, True])
        self.assertEqual(batch.texts, {f"crates/mq_tree/{file}": "c e"})


class Tried(unittest.TestCase):
    """By an `rt` that says what it is told to, and then ends so, or goes on for a minute."""
    REFUSED = "rt: must-fail mq_topic/a.edit: refused, as it must be\n"

    def tried(self, said: str, end: str = "exec sleep 60", minutes: float = 0.02,
              **around: str) -> tuple[int, str]:
        with tempfile.TemporaryDirectory() as name:
            program = pathlib.Path(name, "rt")
            program.write_text("#!/bin/sh\ncase $1 in help) echo 'rt ci NAME..'; exit;; "
                               f"version) exit;; esac\nprintf '{said}'\necho \"$@\"\n{end}\n",
                               encoding="utf-8")
            program.chmod(0o755)
            around = {"PATH": f"{name}:{os.environ['PATH']}", "CI": "", **around}
            out = io.StringIO()
            toolchain.ci_takes_names.cache_clear()
            self.addCleanup(toolchain.ci_takes_names.cache_clear)
            with unittest.mock.patch.dict(os.environ, around), contextlib.redirect_stdout(out), \
                    contextlib.redirect_stderr(io.StringIO()):
                return edits.tried(pathlib.Path(name), ["mq_topic"], minutes), out.getvalue()

    def test_what_is_not_tried_in_time_is_counted(self):
        count = len(edits.edits_of("mq_topic"))
        self.assertEqual(self.tried(self.REFUSED.replace("\n", r"\n")),
                         (0, f"{self.REFUSED}edits.py: stopped after 0.02 minutes: "
                             f"1 of {count} edits were tried\n"))

    def test_one_that_is_not_refused_fails(self):
        for fault in ("NOT REFUSED: it is proved", "BAD EDIT: no such file"):
            status, _ = self.tried(rf"rt: must-fail mq_topic/a.edit: {fault}\n")
            self.assertEqual(status, 1)

    def test_one_that_is_left_out_fails(self):
        status, shown = self.tried(self.REFUSED.replace("\n", r"\n"), end="exit 0", minutes=1)
        self.assertEqual(status, 1)
        self.assertIn(f"1 of {len(edits.edits_of('mq_topic'))} edits were tried", shown)

    def test_what_a_run_that_fails_said_is_shown(self):
        self.assertEqual(self.tried(r"the disk is full\n", end="exit 2", minutes=1),
                         (1, "the disk is full\nci mq_topic\n"))

    def test_in_ci_the_run_is_over_all_crates(self):
        """`rt ci` takes no names there: with them it isn't the gate."""
        self.assertEqual(self.tried("", end="exit 2", minutes=1, CI="true"), (1, "ci\n"))


if __name__ == "__main__":
    unittest.main()
