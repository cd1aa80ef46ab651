"""What a proposed access list would change, in one command: its text, its JSON, files and usage."""
import gzip
import json
import os
import pty
import re
import shutil
import subprocess
import sys
import tempfile
import unittest
import unittest.mock
from pathlib import Path

from two_runs import connect, publish, subscribe
from worked import HERE, PROGRAM, TOP

ACL_PROGRAM = Path(os.environ.get("MQROUTE_ACL_PROGRAM", TOP / "bin/mqroute-acl"))
wants_programs = unittest.skipUnless(PROGRAM.exists() and ACL_PROGRAM.exists(),
                                     f"there is no {PROGRAM} or no {ACL_PROGRAM}")
RECORDED = TOP / "brokers/recorded"

CURRENT = """\
user meter
topic write plant/+/energy
user dash
topic read plant/#
user hq
topic read plant/+/energy
user plc
topic write plant/+/state
"""
PROPOSED = """\
user meter
topic write plant/+/energy
user dash
topic read plant/+/state
user plc
topic write plant/#
topic write plant/+/state
"""
SHORT_DAY = [
    connect("meter-1", "meter"), connect("plc-1", "plc"), connect("dash-1", "dash"),
    connect("hq-1", "hq"), subscribe("dash-1", "plant/#"), subscribe("hq-1", "plant/+/energy"),
    publish("meter-1", "plant/h1/energy"), publish("meter-1", "plant/h2/energy"),
    publish("plc-1", "plant/h1/state")]
SCRIPT = [*SHORT_DAY, publish("plc-1", "plant/h1/state")]  # publishes in lines 7 to 10
LOSSES = """\
new.acl in place of old.acl, tried on script: 4 clients, 4 publishes; by mosquitto's rules

Who loses, who gains, of the messages delivered
  hq loses all 2
      plant/h1/energy, plant/h2/energy
    2 lost: may no longer read
        old.acl:6  topic read plant/+/energy
        new.acl    no line allows it
        mqroute-why --acl-file new.acl --rules mosquitto script 7 hq-1
  dash loses 2 of 4 (50 %)
      plant/h1/energy, plant/h2/energy
    2 lost: may no longer read
        old.acl:4  topic read plant/#
        new.acl    no line allows it
        mqroute-why --acl-file new.acl --rules mosquitto script 7 dash-1

Newly allowed, whether or not anybody tried
"""
SUMMARY = ("2 users lose 4 of 6 messages, 0 gain; 1 right granted, 2 taken away; "
           "1 subscription can receive nothing any more")


def text_of(script: list[dict]) -> str:
    return "".join(json.dumps(command) + "\n" for command in script)


def by_own(words: tuple[object, ...]) -> list[object]:
    """By our own rules, where no others are named."""
    named = any(str(word).startswith(("--rules", "--conf")) for word in words)
    return [*words] if named else ["--rules=own", *words]


class Case(unittest.TestCase):
    def setUp(self) -> None:
        folder = tempfile.TemporaryDirectory()
        self.addCleanup(folder.cleanup)
        self.folder = Path(folder.name)
        self.write("old.acl", CURRENT)
        self.write("new.acl", PROPOSED)
        self.write("script", text_of(SCRIPT))

    def write(self, name: str, text: str) -> None:
        (self.folder / name).write_text(text, encoding="utf-8")

    def shown(self, *words: object, **more) -> subprocess.CompletedProcess:
        pipes = {"capture_output": True} if "stdout" not in more else {}
        return subprocess.run([sys.executable, HERE / "preview.py", *map(str, by_own(words))],
                              encoding="utf-8", **{"cwd": self.folder} | pipes | more)

    def found(self, *words: object, **more) -> dict:
        done = self.shown("--json", *words, **more)
        self.assertIn(done.returncode, (0, 1), done.stderr)
        return json.loads(done.stdout)

    def refused(self, said: str, *words: object, **more) -> None:
        done = self.shown(*words, **more)
        self.assertEqual((done.returncode, done.stdout), (2, ""))
        self.assertIn(said, done.stderr)
        self.assertNotIn("Traceback", done.stderr)

    def not_taken(self, said: str, *words: object, **more) -> str:
        """A list with a line that mosquitto doesn't take: its lines, and what a reload does, on
        standard output."""
        done = self.shown(*words, **more)
        self.assertEqual((done.returncode, done.stderr.count("\n")), (2, 1), done.stderr)
        self.assertIn(said, done.stderr)
        self.assertIn(said, done.stdout)
        return done.stdout

    def acl(self, question: str, *words: object) -> subprocess.CompletedProcess:
        return subprocess.run([ACL_PROGRAM, question, *by_own(words)], cwd=self.folder,
                              capture_output=True, encoding="utf-8")


@wants_programs
class Text(Case):
    def test_all_of_it(self):
        done = self.shown("--rules", "mosquitto", "old.acl", "new.acl", "script")
        self.assertEqual((done.returncode, done.stderr), (1, ""))
        self.assertEqual(done.stdout[:len(LOSSES)], LOSSES)
        self.assertEqual(done.stdout.splitlines()[-1], SUMMARY)
        self.assertIn("\n\nSubscriptions that can receive nothing any more\n"
                      "  script:6  hq-1  user hq  plant/+/energy\n\n", done.stdout)
        self.assertIn("\n\nNew remarks on new.acl\n  new.acl:7  topic write plant/+/state\n",
                      done.stdout)

    def test_rights_as_compare_shows_them(self):
        """Whom, what, and by which lines, in the words of `mqroute-acl compare`; of which topics is
        said otherwise."""
        for old, new in (("house", "changed"), ("own", "owned"), ("barred", "opened"),
                         ("own", "one")):
            lists = [TOP / f"tests/acl/{name}.acl" for name in (old, new)]
            rows = self.acl("compare", "--rules=own", *lists).stdout.splitlines()
            done = self.shown("--rules", "own", *lists, "script").stdout
            shown = [" ".join(line.split()) for line in done.splitlines()]
            for row in rows[:-1]:
                with self.subTest(old=old, row=row):
                    # but where compare cuts short the names of all users
                    row = re.sub(r"^no user name; users .* more; other users$", "everybody", row)
                    words = " ".join(row.split())
                    may = re.match("may (now|no longer) (read|write) ", words)
                    self.assertTrue(any(line.startswith(may[0]) for line in shown) if may
                                    else words in shown)
            numbers = [int(self.acl("compare", "--rules=own", "--only", way, *lists)
                           .stdout.splitlines()[-1].split()[0].replace("by", "0"))
                       for way in ("gained", "lost")]
            words = re.search(r"(\d+) rights? granted, (\d+) taken away", shown[-1])
            self.assertEqual([int(words[1]), int(words[2])], numbers)

    def test_nothing_changes(self):
        """New remarks don't count as changes; each is said once."""
        again = self.shown("old.acl", "old.acl", "script")
        self.write("remarked.acl", CURRENT + "topic write plant/+/state\n")
        for done in (again, self.shown("old.acl", "remarked.acl", "script")):
            self.assertEqual(done.returncode, 0, done.stderr)
            self.assertEqual(
                done.stdout.splitlines()[-1], "0 users lose 0 of 6 messages, 0 gain; 0 rights "
                "granted, 0 taken away; 0 subscriptions can receive nothing any more")
        self.assertEqual(len(again.stdout.splitlines()), 5)
        self.assertIn("remarked.acl:9  topic write plant/+/state\n      repeats line 8\n",
                      done.stdout)

    def test_whose_publishes_are_refused(self):
        self.write("new.acl", CURRENT.replace("plant/+/state", "plant/+/count"))
        done = self.shown("old.acl", "new.acl", "script")
        self.assertIn("""
Whose publishes are refused, whose no longer
  plc has 2 publishes refused
      plant/h1/state
    2 refused: NotAuthorized
        old.acl:8  topic write plant/+/state
        new.acl    no line allows it
        mqroute-why --acl-file new.acl --rules own script 9 plc-1
""", done.stdout)
        self.assertIn("  dash loses 2 of 4 (50 %)\n", done.stdout)

    def test_messages_that_come_otherwise(self):
        """An older retained message, since the newer one is refused."""
        self.write("old.acl", CURRENT + "user meter\ntopic write plant/+/state\n")
        self.write("new.acl", CURRENT[:CURRENT.index("user plc")]
                   + "user meter\ntopic write plant/+/state\n")
        retained = [publish(client, "plant/h1/state", retain=True, payload=client)
                    for client in ("meter-1", "plc-1")]
        self.write("script", text_of([*SCRIPT[:4], *retained, SCRIPT[4]]))
        done = self.shown("old.acl", "new.acl", "script")
        self.assertIn("""
  dash gets 1 with another QoS, RETAIN flag, payload or expiry
    1 changed: retained message: publish by plc refused (NotAuthorized)
        old.acl:8  topic write plant/+/state
        new.acl    no line allows it
        mqroute-why --acl-file new.acl --rules own script 6 dash-1
""", done.stdout)
        self.assertEqual(done.returncode, 1)

    @unittest.skipUnless(shutil.which("bash"), "there is no bash")
    def test_the_command_runs(self):
        """Pasted into a shell: the client wasn't sent it."""
        self.write("it's", text_of([*SCRIPT[:4], connect("- x\u0007'", "dash"),
                                    subscribe("- x\u0007'", "plant/#"), *SCRIPT[6:]]))
        [row] = self.found("old.acl", "new.acl", "it's")["users"]
        command = row["causes"][0]["why"]
        bin_folder = self.folder / "bin"
        bin_folder.mkdir()
        (bin_folder / "mqroute-why").symlink_to(HERE / "why.py")
        path = f"{bin_folder}:{os.environ['PATH']}"
        done = subprocess.run(["bash", "-c", command], cwd=self.folder, capture_output=True,
                              text=True, env=os.environ | {"PATH": path})
        self.assertEqual((done.returncode, done.stderr), (1, ""), command)
        self.assertIn("may not read it: no line of new.acl allows it to user dash", done.stdout)


@wants_programs
class Steps(Case):
    def test_on_a_terminal(self):
        """Shown where standard error is one, and gone at the end."""
        ours, theirs = pty.openpty()
        self.addCleanup(os.close, ours)
        with open(theirs, "wb") as terminal:
            done = self.shown("--rules", "own", "old.acl", "new.acl", "script",
                              stdout=subprocess.PIPE, stderr=terminal)
        self.assertEqual(done.stdout.splitlines()[-1], SUMMARY)
        shown = os.read(ours, 4096).decode()
        self.assertEqual(re.findall(r"step (\d) of 8: \w+", shown), list("12345678"))
        self.assertEqual([line.strip() for line in shown.split("\r")[-2:]], ["", ""])


@wants_programs
class Json(Case):
    def test_against_the_tools_it_stands_on(self):
        """The recorded day: numbers of who-loses, mqroute-acl compare and reach."""
        lists = [RECORDED / "plain.acl", RECORDED / "proposed.acl"]
        found = self.found(*lists, RECORDED / "plain.log", "--rules", "own", "--keep", "kept")
        kept = [self.folder / "kept" / name for name in ("script.jsonl", "before", "after")]
        self.assertTrue(all(path.exists() for path in kept))
        losses = json.loads(subprocess.run(
            [sys.executable, HERE / "who_loses.py", "--json", "--by", "user", *kept],
            capture_output=True).stdout)
        self.assertEqual({name: found["totals"][name] for name in losses["totals"]},
                         losses["totals"])
        for user in found["users"]:
            rows = [row for row in losses["copies"] if row["user"] == user["user"]]
            for what in ("lost", "gained"):
                wanted = sum(row[what] for row in rows)
                self.assertEqual(user[what], wanted)
                self.assertEqual(sum(t["messages"] for t in user[f"topics_{what}"]), wanted)
                self.assertEqual(sum(t["topics"] for t in user[f"topics_{what}"]),
                                 sum(1 for row in rows if row[what]))
                self.assertEqual(sum(cause["count"] for cause in user["causes"]
                                     if cause["what"] == what), wanted)
            self.assertEqual(user["after"], user["before"] - user["lost"] + user["gained"])
        for way, rights in (("gained", found["granted"]), ("lost", found["taken"])):
            rows = self.acl("compare", "--rules=own", "--json", "--only", way, *lists).stdout
            self.assertEqual(sum(len(right["clients"]) for right in rights),
                             len(rows.splitlines()))
        self.assertEqual(found["summary"], "3 users lose 66 of 763 messages, 2 gain; 1 right "
                         "granted, 2 taken away; 7 subscriptions can receive nothing any more")

    def test_nothing_is_cut(self):
        users = [f"u{n:02}" for n in range(30)]
        connects = [connect(user, user) for user in users]
        subscribes = [subscribe(user, f"in/{user}") for user in users]
        sends = [publish("meter-1", f"in/{user}") for user in users]
        self.write("script", text_of([SCRIPT[0], *connects, *subscribes, *sends]))
        lists = "".join(f"user {user}\ntopic read in/{user}\n" for user in users)
        self.write("old.acl", lists + "user meter\ntopic write in/#\n")
        self.write("new.acl", "user meter\ntopic write in/#\n")
        found, done = self.found("old.acl", "new.acl", "script"), self.shown(
            "old.acl", "new.acl", "script")
        self.assertEqual([len(found[name]) for name in ("users", "taken", "subscriptions")],
                         [30, 30, 30])
        self.assertEqual(done.stdout.count("  and 10 more: --json has all\n"), 3)

    def test_a_script_of_its_own_list(self):
        """From there on neither list is tried: that is noted."""
        self.write("script", text_of([*SCRIPT[:6], {"do": "acl"}, *SCRIPT[6:]]))
        done = self.shown("--json", "--rules", "own", "old.acl", "new.acl", "script")
        self.assertIn("preview: script:7: it sets an access list", done.stderr)
        self.assertEqual(json.loads(done.stdout)["users"], [])


@wants_programs
class Files(Case):
    LISTS = ("old.acl", "new.acl")

    def test_packed_and_standard_input(self):
        wanted = self.shown(*self.LISTS, "script").stdout
        packed = gzip.compress((self.folder / "script").read_bytes())
        (self.folder / "script.gz").write_bytes(packed)
        done = self.shown(*self.LISTS, "script.gz").stdout
        self.assertEqual(done.replace("script.gz", "script"), wanted)
        for name in ("script", "script.gz"):
            with open(self.folder / name) as stream:
                done = self.shown(*self.LISTS, "-", stdin=stream).stdout
            self.assertIn("  hq loses all 2\n", done)
            self.assertIn("first at line 7 of the script, client hq-1\n", done)
            self.assertNotIn("--save", done)  # no script is made that could stay
        done = self.shown("-", "new.acl", "script", input=CURRENT).stdout
        self.assertIn("        standard input:6  topic read plant/+/energy\n", done)

    def test_comment_in_front(self):
        """A script all the same: mqroute refuses the line."""
        for front in ("\n", "# a day\n"):
            self.write("script", front + text_of(SCRIPT))
            done = self.shown(*self.LISTS, "script")
            self.assertEqual((done.returncode, done.stderr.count("lines read")), (1, 0))
            self.assertIn(f" script {7 + front.count(chr(10))} hq-1\n", done.stdout)

    def test_several_logs(self):
        lines = (RECORDED / "plain.log").read_bytes().splitlines(keepends=True)
        for name, part in (("1.log", lines[:2000]), ("2.log", lines[2000:])):
            (self.folder / name).write_bytes(b"".join(part))
        lists = [RECORDED / "plain.acl", RECORDED / "proposed.acl"]
        one = self.found(*lists, RECORDED / "plain.log")
        with open(self.folder / "2.log") as stream:
            done = self.shown("--json", *lists, "1.log", "-", stdin=stream)
        two = json.loads(done.stdout)
        self.assertEqual(two["sources"], ["1.log", "-"])
        places = [self.first_lines(found) for found in (one, two)]
        self.assertEqual({**two, "sources": one["sources"]}, one)
        self.assertIn("preview: 3834 lines read, 1019 commands written\n", done.stderr)
        wanted = [number if name == "1.log" else number + 2000 for name, number in places[1]]
        self.assertEqual(wanted, [number for _, number in places[0]])
        self.assertEqual({name for name, _ in places[1]}, {"1.log", "standard input"})

    def first_lines(self, found: dict) -> list[tuple[str, int]]:
        """Where each cause stands first in a log, which is taken out of what was found."""
        places = [cause.pop("log") for row in found["users"] + found["refused"]
                  for cause in row["causes"]]
        return [(name, int(number)) for name, _, number in
                (place.rpartition(":") for place in places)]

    def test_what_is_kept(self):
        log = RECORDED / "plain.log"
        lists = [RECORDED / "plain.acl", RECORDED / "proposed.acl"]
        done = self.shown(*lists, log).stdout
        self.assertIn("\n\nwith --save FOLDER the script stays", done)
        self.assertNotIn("mqroute-why", done)
        done = self.shown(*lists, log, "--save", "a/b")
        self.assertIn(f"--acl-file {lists[1]} --rules own a/b/script.jsonl ", done.stdout)
        self.assertEqual(sorted(os.listdir(self.folder / "a/b")),
                         ["after", "before", "script.jsonl"])
        for name in ("script.jsonl", "before"):
            (self.folder / name).write_text("x")
            self.refused(f"--save .: {name} is there already", *lists, log, "--keep", ".")
            self.assertEqual((self.folder / name).read_text(), "x")
            (self.folder / name).unlink()

    def test_usage(self):
        for said, words in (
                ("needs one script, or one log or more", ["script", "script"]),
                ("--begin needs a log", ["script", "--begin", "script"]),
                ("--session-expiry needs a log", ["script", "--session-expiry", "0"]),
                ("standard input can be read once", ["-", "--begin", "-"]),
                ("--title needs --html", ["script", "--title", "x"]),
                ("--html names a file that --save writes",
                 ["script", "--html", "kept/after", "--keep", "kept"])):
            with self.subTest(said):
                self.refused(f"error: {said}\n", *self.LISTS, *words)
        self.refused("preview: --html script: it would overwrite script, which is read too\n",
                     *self.LISTS, "script", "--html", "script")

    def test_faults(self):
        self.write("wrong.acl", CURRENT + "topic rw x\n")
        self.refused("preview: old.acl: no line is read as mosquitto's: looks like an access list",
                     *self.LISTS, "old.acl")
        self.refused("preview: /nowhere: No such file or directory\n", *self.LISTS, "/nowhere")
        self.refused("preview: nowhere.acl: No such file or directory\n",
                     "old.acl", "nowhere.acl", "script")
        with unittest.mock.patch.dict(os.environ, MQROUTE_ACL_PROGRAM="/nowhere/mqroute-acl"):
            self.refused("preview: cannot run /nowhere/mqroute-acl: No such file or directory\n",
                         *self.LISTS, "script")
        self.assertEqual(os.listdir(self.folder).count("kept"), 0)

    def test_whose_rules(self):
        """By mosquitto's, unless others are named: a topic line decides before a pattern line."""
        self.write("old.acl", "user dash\ntopic read plant/#\npattern deny plant/+/raw\n")
        self.write("new.acl", "user dash\ntopic read plant/#\n")
        own = self.shown("--rules=own", *self.LISTS, "script")
        self.assertIn("; by mqroute's own rules\n", own.stdout)
        self.assertEqual((own.returncode, own.stderr), (1, ""))
        words = [sys.executable, HERE / "preview.py", *self.LISTS, "script"]
        theirs = subprocess.run(words, cwd=self.folder, capture_output=True, encoding="utf-8")
        self.assertIn("; by mosquitto's rules\n", theirs.stdout)
        self.assertEqual((theirs.returncode, theirs.stderr), (0, ""))


if __name__ == "__main__":
    unittest.main()
