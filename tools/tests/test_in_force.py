"""Whether CURRENT was the list in force when a log was written: what preview says before anything
else."""
import json

from test_preview import RECORDED, Case, wants_programs

HOLDS = ("under plain.acl 803 of 803 copies are as the log has them: this was the list in force, "
         "or one that decides the same of this log")
ASIDE = "    (64 known differences of mosquitto set aside)"
SETTLES = ["--rules", "mosquitto"]


def without(text: str, *starts: str) -> str:
    """A log without lines that begin so, behind their time."""
    return "".join(line for line in text.splitlines(keepends=True)
                   if not line.partition(": ")[2].startswith(starts))


@wants_programs
class InForce(Case):
    def setUp(self) -> None:
        super().setUp()
        for name in ("plain.acl", "proposed.acl"):
            self.write(name, (RECORDED / name).read_text("utf-8"))
        self.log = (RECORDED / "plain.log").read_text("utf-8")
        self.write("plain.log", self.log)

    def said(self, *words: str, status: int = 2) -> list[str]:
        done = self.shown(*SETTLES, *words)
        self.assertEqual(done.returncode, status, done.stderr)
        return done.stdout.split("\n")

    def test_it_was(self):
        lines = self.said("plain.acl", "proposed.acl", "plain.log", status=1)
        self.assertEqual(lines[:3], [HOLDS, ASIDE, ""])
        self.assertTrue(lines[3].startswith("proposed.acl in place of plain.acl, tried on "))

    def test_it_was_not(self):
        """Then nothing else is said."""
        lines = self.said("proposed.acl", "plain.acl", "plain.log")
        self.assertEqual(lines[0], (
            "NOT the list in force: under proposed.acl 128 differences from the log, 102 of 803 "
            "copies, first at plain.log:92. A preview would be about another broker (--no-check "
            "shows it all the same)"))
        self.assertEqual(lines[1], (
            "    different: line 92: 'meter-17' 'plant/hall-1/door': broker none; mqroute q0 r0"))
        self.assertEqual(lines[6:], ["    and 123 more: mqroute-compare-log has all", ""])

    def test_page_and_json(self):
        done = self.shown(*SETTLES, "--json", "--html", "page", "proposed.acl", "plain.acl",
                          "plain.log")
        found = json.loads(done.stdout)
        self.assertEqual((done.returncode, found["in_force"]["state"]), (2, "not in force"))
        self.assertEqual([found["in_force"][name] for name in ("copies", "differ", "differences",
                                                               "first")],
                         [803, 102, 128, "plain.log:92"])
        self.assertTrue(found["summary"].startswith("NOT the list in force: "))
        self.assertNotIn("users", found)
        page = (self.folder / "page").read_text("utf-8")
        self.assertIn("NOT the list in force: under proposed.acl", page)
        self.assertNotIn("Nothing would change", page)
        found = self.found(*SETTLES, "--html", "page", "plain.acl", "proposed.acl", "plain.log")
        self.assertEqual(found["in_force"]["state"], "in force")
        self.assertEqual(found["in_force"]["set_aside"], {
            "Retain As Published": 20, "denied will": 4, "overlapping subscriptions": 40})
        self.assertIn(HOLDS, (self.folder / "page").read_text("utf-8"))

    def test_lists_one_line_away(self):
        """Each is told apart, unless mqroute answers the day's script as under the right one."""
        lines = (RECORDED / "plain.acl").read_text("utf-8").split("\n")
        told = 0
        for place, line in enumerate(lines):
            if not line.startswith(("topic", "pattern")):
                continue
            self.write("wrong.acl", "\n".join(lines[:place] + lines[place + 1:]))
            with self.subTest(without=line):
                state = self.state("wrong.acl", "wrong.acl", "plain.log")
                self.assertEqual(state == "in force", self.is_the_same("plain.acl", "wrong.acl"))
                told += state == "not in force"
        self.assertGreater(told, 5)

    def state(self, *words: str) -> str:
        done = self.shown(*SETTLES, "--json", *words)
        return str(json.loads(done.stdout)["in_force"]["state"])

    def is_the_same(self, *lists: str) -> bool:
        """Whether mqroute writes the same of the day under both."""
        for number, name in enumerate(lists):
            self.shown(*SETTLES, "--no-check", "--keep", f"kept-{number}", name, name, "plain.log")
        return len({(self.folder / f"kept-{number}/before").read_bytes() for number in (0, 1)}) == 1

    def test_a_log_that_begins_in_the_middle(self):
        self.write("half.log", "".join(self.log.splitlines(keepends=True)[-1917:]))
        lines = self.said("plain.acl", "proposed.acl", "half.log")
        self.assertEqual(lines, [
            "NOT CHECKED whether plain.acl was in force: 1 client was connected before the log "
            "began, and it has no user name for it. Begin with the log before it, with what that "
            "log left (--begin), or with a restart of the broker", ""])

    def test_a_reload(self):
        """Differences behind one may be those of another list; a reload alone changes nothing."""
        lines = self.log.splitlines(keepends=True)
        reload = lines[60].partition(": ")[0] + ": Reloading config.\n"
        self.write("plain.log", "".join([*lines[:60], reload, *lines[60:]]))
        self.said("plain.acl", "proposed.acl", "plain.log", status=1)
        said = self.said("proposed.acl", "plain.acl", "plain.log")
        self.assertEqual(said[0], (
            "NOT CHECKED whether proposed.acl was in force: all differences, 102 of 803 copies, "
            "stand behind plain.log:61, where the broker read its configuration again: the list "
            "may have been changed there. Give the log behind it, with what was before (--begin)"))

    def test_a_log_without_messages(self):
        self.write("few.log", without(self.log, "Sending ", "Received ", "Denied "))
        self.assertEqual(self.said("plain.acl", "proposed.acl", "few.log"), [
            "2 of 2 users that plain.acl names don't connect in this log: ops, plant manager",
            "no answer about messages: this log has none: set log_type all in mosquitto.conf, "
            "reload the broker, and wait a day", ""])

    def test_left_out(self):
        lines = self.said("--no-check", "proposed.acl", "plain.acl", "plain.log", status=1)
        self.assertEqual(lines[:2], [
            "NOT CHECKED whether proposed.acl was in force: --no-check", ""])
        found = self.found(*SETTLES, "--no-check", "proposed.acl", "plain.acl", "plain.log")
        self.assertEqual((found["in_force"]["state"], found["in_force"]["why"]),
                         ("not checked", "--no-check"))

    def test_by_our_own_rules(self):
        """By which a right list may not explain the log."""
        self.write("deny.acl", "user plant manager\ntopic read #\npattern deny plant/#\n")
        hint = "this was asked by mqroute's own rules: --rules mosquitto asks by the broker's"
        for words, wanted in ((["--rules", "mosquitto"], False), ([], True)):
            done = self.shown(*words, "deny.acl", "plain.acl", "plain.log")
            self.assertEqual((done.returncode, hint in done.stdout.split("\n")), (2, wanted))

    def test_of_a_script(self):
        """It has no copies of a broker's."""
        self.shown("--no-check", *SETTLES, "--keep", "kept", "plain.acl", "plain.acl", "plain.log")
        found = self.found(*SETTLES, "proposed.acl", "plain.acl", "kept/script.jsonl")
        self.assertIsNone(found["in_force"])

    def test_with_a_plan(self):
        """The script is tried under its own names."""
        self.write("plan", "plant/# -> works/#\n")
        for lists, state in ((("plain.acl", "proposed.acl"), "in force"),
                             (("proposed.acl", "plain.acl"), "not in force")):
            done = self.shown("--json", "--plan", "plan", *lists, "plain.log")
            self.assertEqual(json.loads(done.stdout)["in_force"]["state"], state)

    def test_lines_of_the_log_with_a_plan(self):
        """A cause has the line of the log that its line of the script came from."""
        self.write("plan", "plant/# -> works/#\n")
        words = ["--json", "--plan", "plan", "--keep", "kept", "plain.acl", "proposed.acl"]
        found = json.loads(self.shown(*words, "plain.log").stdout)
        script = (self.folder / "kept/script.jsonl").read_text("utf-8").split("\n")
        log = (self.folder / "plain.log").read_text("utf-8").split("\n")
        causes = [cause for row in found["users"] + found["refused"] for cause in row["causes"]]
        self.assertGreater(len(causes), 3)
        for cause in causes:
            name, _, line = cause["log"].rpartition(":")
            command = json.loads(script[cause["line"] - 1])
            self.assertEqual(name, "plain.log")
            self.assertIn(command.get("topic", command["client"]), log[int(line) - 1])
