"""From a mosquitto.conf to a preview: each client under its own listener's list, what is in force,
and what an answer leaves out. The logs were written by a mosquitto 2.0.11 with these
configurations."""
import json
import re
import shutil

from test_preview import Case, wants_programs
from worked import HERE
from mqroute_tools.conf.reading import read_conf
from mqroute_tools.log.broker_state import State
from mqroute_tools.log.inference import Beginning
from mqroute_tools.log.recording import SHORTLY, Recorder
from mqroute_tools.log.report_line import Line
from mqroute_tools.log.steps import Copy
from mqroute_tools.preview.by_conf import ByConf
from mqroute_tools.preview.list_rows import Row, rows_of
from mqroute_tools.preview.listeners import Key, filled

PLANT = """\
# the machines
topic read werk/+/status
user plc
topic readwrite werk/#
user scada
topic readwrite werk/#
topic deny werk/+/safety
pattern write edge/%c/#
pattern read edge/%c/cmd
"""
GUESTS = """\
topic read nothing/#
user vendor
topic read werk/pm1/#
user plc
topic write werk/pm2/#
"""
NEW_GUESTS = """\
topic read werk/+/status
user vendor
topic read werk/pm1/state
topic write werk/pm1/cmd
user plc
topic write werk/pm2/#
topic read nothing/#
"""
CONF = """\
per_listener_settings true
log_dest file listeners.log
log_type all
log_timestamp_format %Y-%m-%dT%H:%M:%S

listener 22100 127.0.0.1
allow_anonymous true
acl_file plant.acl

listener 22101 127.0.0.1
allow_anonymous true
acl_file guests.acl

listener 22102 127.0.0.1
mount_point hall1/
allow_anonymous true
"""
BRIDGE_CONF = """\
listener 22000 127.0.0.1
allow_anonymous true
acl_file bridge.acl
log_dest file bridge.log
log_type all
connection hq
address 127.0.0.1:22001
topic werk/# both 1
"""
HOLDS = ("are as the log has them: this was the list in force, or one that decides the same of "
         "this log")


@wants_programs
class ConfCase(Case):
    def setUp(self) -> None:
        super().setUp()
        for name in ("listeners.log", "bridge.log"):
            shutil.copy(HERE / "tests/logs" / name, self.folder)
        for name, text in (("plant.acl", PLANT), ("guests.acl", GUESTS), ("new.acl", NEW_GUESTS),
                           ("mosquitto.conf", CONF), ("bridge.conf", BRIDGE_CONF)):
            self.write(name, text)

    def said(self, *words: str, status: int = 1) -> list[str]:
        done = self.shown("--conf", "mosquitto.conf", *words)
        self.assertEqual(done.returncode, status, done.stderr)
        return done.stdout.split("\n")

    def edited(self, old: str, new: str) -> None:
        self.assertEqual(CONF.count(old), 1)
        self.write("mosquitto.conf", CONF.replace(old, new))


class Listeners(ConfCase):
    def test_each_client_under_its_own_list(self):
        """As the broker decided, live, under the new list."""
        lines = self.said("--port", "22101", "new.acl")
        self.assertEqual(lines[:3], [
            f"under guests.acl and plant.acl 60 of 60 copies {HOLDS}",
            "clients came by port 22100 (5 connections, plant.acl), port 22101 (5 connections, "
            "guests.acl), port 22102 (2 connections, no list)", ""])
        rows = [line.strip() for line in lines if re.match(r"  \S.* (loses|gains) \d", line)]
        self.assertEqual(rows, [
            "vendor on port 22101 loses 12 of 24 (50 %)",
            "clients without a user name on port 22101 gains 6, to 6",
            "plc [plc-1] on port 22100 gains 6, to 12",
            "scada [scada-1] on port 22100 gains 6, to 24"])
        self.assertIn("        guests.acl:3  topic read werk/pm1/#", lines)
        self.assertTrue(lines[-2].startswith("1 user loses 12 of 60 messages, 3 gain; "))

    def test_lines_are_those_of_the_listeners_files(self):
        self.write("newer.acl", PLANT.replace("topic deny werk/+/safety\n", ""))
        found = self.found("--conf", "mosquitto.conf", "--port", "22100", "newer.acl")
        for row in found["users"]:
            for cause in row["causes"]:
                for line in (cause["deciding"] or {}).values():
                    self.assertIn(line and line["file"], (None, "plant.acl", "newer.acl",
                                                          "guests.acl"))

    def test_json(self):
        found = self.found("--conf", "mosquitto.conf", "--port", "22101", "new.acl")
        self.assertEqual(found["conf"], {
            "file": "mosquitto.conf", "port": 22101, "users": None,
            "lists": {"22100": "plant.acl", "22101": "guests.acl", "22102": None},
            "connections": {"22100": 5, "22101": 5, "22102": 2}})
        self.assertEqual((found["current"], found["proposed"], found["rules"], found["sources"]),
                         ("guests.acl", "new.acl", "mosquitto", ["listeners.log"]))

    def test_whose_list_is_replaced(self):
        for words, said in (
                ((), "mosquitto.conf: port 22100: plant.acl, port 22101: guests.acl, port 22102: "
                     "no list: say by --port whose list is to be replaced"),
                (("--port", "22102"), "no listener with a list on port 22102"),
                (("--port", "9"), "no listener with a list on port 9")):
            with self.subTest(words=words):
                self.refused(said, "--conf", "mosquitto.conf", *words, "new.acl")

    def test_the_wrong_list(self):
        """One of both, with a line less."""
        self.write("plant.acl", PLANT.replace("topic deny werk/+/safety\n", ""))
        lines = self.said("--port", "22101", "new.acl", status=2)
        self.assertTrue(
            lines[0].startswith("NOT the list in force: under guests.acl and plant.acl "))

    def test_without_a_configuration(self):
        """It is said that there may be more lists."""
        done = self.shown("--rules", "mosquitto", "guests.acl", "new.acl", "listeners.log")
        self.assertEqual(done.returncode, 2)
        self.assertIn(
            "\nclients came by the ports 22100 (5 connections) and 22101 (5 connections) and 22102 "
            "(2 connections): each may have a list of its own (per_listener_settings). This answer "
            "is of one list for all of them: --conf reads which there are\n", done.stdout)

    def test_a_pattern_that_denies_what_a_topic_line_grants(self):
        self.write("plant.acl", PLANT + "pattern deny werk/%c/#\n")
        self.refused("plant.acl:10: it denies some of what line 6 grants, and comes behind that "
                     "line: each client under its own listener's list can't be had",
                     "--conf", "mosquitto.conf", "--port", "22101", "new.acl")

    def test_names_that_look_like_marks(self):
        """Each mark stands for one name, whatever that holds."""
        row = Row("x.acl", 1, "", True, None, "read", "%c/%u/%x")
        self.assertEqual(filled(row, Key(1, "a%c", "b%u")), "b%u/a%c/%x")

    def test_lines_with_blanks(self):
        """As mosquitto reads them, and mqroute-acl does."""
        self.write("odd.acl", "  topic  read  a/+ \nuser  ops \n  user bob b\n"
                   "   topic write \ty\n pattern read\n  topic deny z\r\n \n#topic c\n")
        path = str(self.folder / "odd.acl")
        found = [(row.line, row.is_pattern, row.user, row.access, row.filter)
                 for row in rows_of(path, path)]
        self.assertEqual(found, [(1, False, None, "read", "a/+"), (4, False, "bob b", "write", "y"),
                                 (5, True, None, "readwrite", "read"),
                                 (6, False, "bob b", "deny", "z")])
        for user, topic, line in ((None, "a/b", 1), ("bob b", "y", 4), ("ops", "read", 5),
                                  ("bob b", "z", 6)):
            words = [] if user is None else ["--user", user]
            shown = self.acl("why", "--json", "--rules", "mosquitto", *words, path, "c", topic)
            rows = [json.loads(line) for line in shown.stdout.splitlines()]
            self.assertIn(line, [one["line"] for row in rows
                                 for one in (row["deny"], row["grant"]) if one])

    def test_own_bridges_are_under_no_list(self):
        self.write("bridge.acl", "topic read nothing\nuser plc\ntopic readwrite werk/#\n")
        self.write("more.acl", "topic read nothing\nuser plc\ntopic readwrite werk/#\nuser hmi\n"
                   "topic read werk/#\n")
        done = self.shown("--conf", "bridge.conf", "more.acl")
        self.assertEqual(done.stdout.split("\n")[:3], [
            f"under bridge.acl 3 of 3 copies {HOLDS}",
            "1 bridge of the broker's own: no list is asked for what they read and write", ""])
        self.assertIn("\n0 users lose 0 of 3 messages, 0 gain; 1 right granted", done.stdout)
        done = self.shown("--rules", "mosquitto", "bridge.acl", "more.acl", "bridge.log")
        self.assertEqual(done.returncode, 2)
        self.assertTrue(done.stdout.startswith("NOT the list in force: under bridge.acl "))


class Settings(ConfCase):
    def test_no_answer(self):
        """Each with its place."""
        for old, new, said in (
                ("log_type all\n", "log_type error\n", "mosquitto.conf: log_type all is missing"),
                ("log_type all\n", "log_type all\nconnection_messages false\n",
                 "mosquitto.conf:4: connection_messages false: the log has no user names"),
                ("log_dest file listeners.log\n", "log_dest stderr\n",
                 "mosquitto.conf: it names no log file (log_dest file): give a log, such as what "
                 "journalctl -u mosquitto -o cat prints"),
                ("listener 22102 127.0.0.1\n", "listener 22102 127.0.0.1\nplugin /x/auth.so y\n",
                 "mosquitto.conf:15: on port 22102 the plugin auth.so decides"),
                ("log_type all\n", "log_type all\nacl_file guests.acl\n",
                 "mosquitto.conf:4: this acl_file is in force for no listener"),
                ("log_type all\n", "log_type all\nacl guests.acl\n",
                 "mosquitto.conf:4: mosquitto doesn't start with this line: unknown word")):
            with self.subTest(new=new):
                self.edited(old, new)
                self.refused(said, "--conf", "mosquitto.conf", "--port", "22101", "new.acl")

    def test_no_list_at_all(self):
        self.write("mosquitto.conf", "listener 1\nlog_dest file listeners.log\nlog_type all\n")
        self.refused("mosquitto.conf: no listener has an acl_file, so that everything is allowed "
                     "to everybody: there is no list for new.acl to take the place of",
                     "--conf", "mosquitto.conf", "new.acl")

    def test_what_is_left_out_is_said(self):
        self.edited("log_type all\n", "log_type all\ncheck_retain_source true\n")
        lines = self.said("--port", "22101", "new.acl")
        self.assertEqual(lines[2], (
            "mosquitto.conf:4: check_retain_source true: a retained message isn't sent if its "
            "publisher may no longer write; this answer leaves that out"))

    def test_nobody_without_a_user_name(self):
        self.write("mosquitto.conf", CONF.replace("allow_anonymous true\nacl_file guests",
                                                  "allow_anonymous false\nacl_file guests"))
        found = self.found("--conf", "mosquitto.conf", "--port", "22101", "new.acl")
        self.assertEqual(found["said"][-1], "2 rights of clients without a user name left out: "
                         "none may connect (allow_anonymous false)")
        for right in found["granted"] + found["taken"]:
            self.assertTrue(all(client["user"] for client in right["clients"]))

    def test_users_who_do_not_connect(self):
        self.write("guests.acl", GUESTS + "user ann\ntopic read x\n")
        found = self.found("--conf", "mosquitto.conf", "--port", "22101", "new.acl")
        self.assertIn("1 of 3 users that guests.acl names don't connect in this log: ann",
                      found["said"])

    def test_time_format(self):
        """As the configuration has it."""
        log = (self.folder / "listeners.log").read_text("utf-8")
        stamp = re.compile(r"^(\d{4})-(\d\d)-(\d\d)T", re.M)
        (self.folder / "listeners.log").write_text(stamp.sub(r"\3.\2.\1 ", log), "utf-8")
        self.edited("%Y-%m-%dT%H:%M:%S", "%d.%m.%Y %H:%M:%S")
        self.assertIn(HOLDS, self.said("--port", "22101", "new.acl")[0])

    def test_arguments(self):
        for words, said in (
                (("--port", "1", "a", "b", "c"), "--port needs --conf"),
                (("a", "b"),
                 "needs OLD, NEW, and a script or logs; or --conf and NEW"),
                (("--conf", "mosquitto.conf", "--rules", "own", "new.acl"),
                 "--conf goes by mosquitto's rules"),
                (("--conf", "mosquitto.conf", "--plan", "p", "new.acl"),
                 "--plan goes by mqroute's own rules, and --conf by mosquitto's"),
                (("--conf", "mosquitto.conf", "--port", "22101", "new.acl", "script"),
                 "--conf needs a log")):
            with self.subTest(words=words):
                self.refused(said, *words)

    def test_the_page(self):
        self.shown("--conf", "mosquitto.conf", "--port", "22101", "--html", "page", "new.acl")
        page = (self.folder / "page").read_text("utf-8")
        for text in ("under guests.acl and plant.acl 60 of 60 copies", "clients came by port 22100",
                     "vendor on port 22101"):
            self.assertIn(text, page)

    def test_json_without_an_answer(self):
        done = self.shown("--json", "--rules", "mosquitto", "guests.acl", "new.acl",
                          "listeners.log")
        found = json.loads(done.stdout)
        self.assertEqual((found["in_force"]["state"], found["conf"], len(found["said"])),
                         ("not in force", None, 1))


class SetAside(ConfCase):
    """Differences that a setting explains, and no others."""
    PLACE = 50  # where a client resumed

    def sets_aside(self, setting: str, ours: list[Copy], theirs: list[Copy], topic: str = "x",
                   place: int = 60, client: str = "wall") -> bool:
        self.write("mosquitto.conf", f"listener 1\nacl_file a\n{setting} true\n")
        conf = read_conf(str(self.folder / "mosquitto.conf"))
        reader = Recorder(None, None, Beginning(State()))
        reader.resumptions["wall"].append(self.PLACE)
        reader.qos_0.add("x")
        found = ByConf(conf, conf.listeners[0], {}, None, reader=reader)
        return found.sets_aside(Line(place, (client, topic), theirs, ours))

    def test_what_waited(self):
        """Of a client that resumes, and of a topic that is published with QoS 0."""
        for setting, qos in (("queue_qos0_messages", 0), ("upgrade_outgoing_qos", 1)):
            with self.subTest(setting=setting):
                theirs = [Copy(qos, 0)]
                self.assertTrue(self.sets_aside(setting, [], theirs))
                for more in ({"topic": "y"}, {"client": "other"}, {"place": self.PLACE - 1},
                             {"place": self.PLACE + SHORTLY}):
                    self.assertFalse(self.sets_aside(setting, [], theirs, **more), more)
                self.assertFalse(self.sets_aside(setting, [Copy(qos, 0)] * 2, theirs))
                self.assertFalse(self.sets_aside("check_retain_source", [], theirs))
        self.assertFalse(self.sets_aside("queue_qos0_messages", [], [Copy(1, 0)]))

    def test_another_qos(self):
        one, other = [Copy(0, 0)], [Copy(2, 0)]
        self.assertTrue(self.sets_aside("upgrade_outgoing_qos", one, other, "y", 1))
        self.assertFalse(self.sets_aside("queue_qos0_messages", one, other, "y", 1))


class Passwords(ConfCase):
    HASH = "$7$101$c2FsdA==$aGFzaA=="
    NEW = NEW_GUESTS + "user vendr\ntopic read werk/x\npattern read notes\n"

    def setUp(self) -> None:
        super().setUp()
        self.edited("acl_file guests.acl\n", "acl_file guests.acl\npassword_file /etc/pw\n")
        self.passwords("vendor", "plc", "anna", "berta")
        self.write("new.acl", self.NEW)

    def passwords(self, *names: str) -> None:
        self.write("pw", "# none\n" + "".join(f"{name}:{self.HASH}\n" for name in names))

    def preview(self) -> dict:
        return self.found("--conf", "mosquitto.conf", "--port", "22101", "new.acl")

    def rows(self) -> list[str]:
        lines = self.said("--port", "22101", "--html", "page", "new.acl")
        self.assertNotIn(self.HASH[7:], "".join(lines) + (self.folder / "page").read_text("utf-8"))
        return [line.strip() for line in lines]

    def test_other_users_are_a_list_of_names(self):
        rows = self.rows()
        at = rows.index("may now read  notes")
        self.assertEqual(rows[at - 1], "everybody")
        self.passwords("vendor", "plc", "vendr", "anna")
        self.write("new.acl", GUESTS + "user vendr\ntopic read nothing\npattern read notes\n")
        self.assertIn("no user name; users plc, vendor, vendr, anna", self.rows())
        self.assertNotIn("other users", " ".join(self.rows()))
        self.assertEqual(self.preview()["conf"]["users"], ["vendor", "plc", "vendr", "anna"])

    def test_a_name_that_is_mistyped(self):
        self.assertIn("new.acl names 1 user that pw doesn't have: vendr (vendor?)",
                      self.preview()["said"])
        self.write("guests.acl", GUESTS + "user gast\ntopic read nothing\n")
        said = self.preview()["said"]
        self.assertIn("guests.acl names 1 user that pw doesn't have: gast", said)

    def test_nobody_else(self):
        """Where the lists name all users no right is of others."""
        self.passwords("vendor", "plc", "vendr")
        self.write("guests.acl", GUESTS + "pattern read x/%u\n")
        self.write("new.acl", GUESTS + "user vendr\ntopic read nothing\n")
        found = self.preview()
        self.assertTrue(all(client["user"] not in client["placeholders"]
                            for right in found["taken"] for client in right["clients"]))
        self.assertIn("1 right of other users left out: the lists name all 3 users of pw",
                      found["said"])

    def test_not_known(self):
        """Without the file, or where others connect."""
        (self.folder / "pw").unlink()
        (self.folder / "pw").mkdir()
        found = self.preview()
        self.assertIn("pw: Is a directory: who other users are isn't known", found["said"])
        self.assertIsNone(found["conf"]["users"])
        (self.folder / "pw").rmdir()
        self.passwords("vendor", "anna")
        self.write("mosquitto.conf", "listener 22101\nallow_anonymous true\nacl_file guests.acl\n"
                   "password_file pw\nlog_dest file listeners.log\nlog_type all\n")
        done = self.shown("--conf", "mosquitto.conf", "--no-check", "new.acl")
        self.assertIn("edge connects in the log, whom pw doesn't have: who other users are isn't "
                      "known", done.stdout)
        self.assertIn("other users", done.stdout)

    def test_names_by_certificate(self):
        """Then no password is asked for."""
        self.edited_again("password_file /etc/pw\n",
                          "password_file /etc/pw\nuse_identity_as_username true\n")
        self.assertIsNone(self.preview()["conf"]["users"])

    def edited_again(self, old: str, new: str) -> None:
        text = (self.folder / "mosquitto.conf").read_text("utf-8")
        self.write("mosquitto.conf", text.replace(old, new))
