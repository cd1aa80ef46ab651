"""What a broker has under old names at the end of a script, and the script that moves what is
retained: by the plain reader, and by the program where there is one."""
import json
import random
import unittest
from collections import Counter

from plan_names import NAMES, new_name, random_plan
from test_plan import Case, wants_programs
from two_runs import connect, leave, publish, subscribe
from worked import wants_program
from mqroute_tools.common.exit_status import Fault
from mqroute_tools.plain.reader import Reader
from mqroute_tools.plan.day_end import Answered, DayEnd, day_end, under
from mqroute_tools.plan.kept import NAMELESS, OTHER, SAME, SOME, UNKNOWN, Kept, kept_of
from mqroute_tools.plan.kept import moving_script
from mqroute_tools.plan.topic_plan import plan_of
from mqroute_tools.plan.translator import Translator
from mqroute_tools.script.oracle import Oracle
from mqroute_tools.script.output import Command

PLAN = """\
none plant/+/old
plant/+hall/door -> site/+hall/doors/state
plant/+hall/gate -> site/+hall/doors/state
plant/#          -> site/#
keep office/#
"""
LIST = "topic readwrite #\nuser guest\ntopic read #\n"
PUBLISHER = connect("p")
LATER = {"do": "advance", "seconds": 10}
OLD_SESSION = ({"do": "connect", "client": "away", "user": "ops", "session_expiry": 99},)


def kept(topic: str, payload: str = "p", **more: object) -> Command:
    return publish("p", topic, payload=payload, retain=True, **more)


def text_of(script: list[Command]) -> str:
    return "".join(json.dumps(command) + "\n" for command in script)


def lines_of(script: list[Command]) -> list[bytes]:
    return text_of(script).encode().splitlines()


def plain(acl: str | None = None) -> Answered:
    return Oracle(acl, plain=True).script_blocks


def end_of(*script: Command, acl: str | None = None) -> DayEnd:
    return day_end(lines_of([PUBLISHER, *script]), plain(acl))


def retained_by(*script: Command) -> dict[str, tuple]:
    """As the plain reader has it in its own world."""
    reader = Reader()
    for line in lines_of(list(script)):
        reader.answer(line)
    return {one.topic: (one.payload, one.qos, one.deadline and one.deadline - reader.world.moment)
            for one in reader.world.retained}


class Retained(unittest.TestCase):
    """Line 1 connects the publisher."""

    def rows(self, *script: Command, acl: str | None = None) -> list[tuple]:
        return [(one.topic, one.payload, one.qos, one.expiry, one.line)
                for one in end_of(*script, acl=acl).retained]

    def test_the_last_of_each_topic(self):
        self.assertEqual(
            self.rows(kept("b", "1"), kept("a", "2", qos=1), kept("b", "3"), publish("p", "b")),
            [("a", "2", 1, None, 3), ("b", "3", 0, None, 4)])

    def test_what_is_cleared_or_over(self):
        self.assertEqual(self.rows(kept("a"), kept("a", "")), [])
        self.assertEqual(self.rows(kept("a"), kept("a", expiry=0)), [])
        self.assertEqual(self.rows(kept("a", expiry=9), kept("b", expiry=11), LATER),
                         [("b", "p", 0, 1, 3)])

    def test_what_is_refused(self):
        """A faulty name, a client that isn't connected, no line of JSON, and the list."""
        guest = connect("g", "guest")
        self.assertEqual(self.rows(kept("a/+"), kept("a") | {"client": "nobody"}), [])
        self.assertEqual(self.rows(guest, kept("a"), kept("a", "g") | {"client": "g"}, acl=LIST),
                         [("a", "p", 0, None, 3)])
        self.assertEqual(day_end([b"no", *lines_of([PUBLISHER, kept("a")])], plain()).retained[0]
                         .line, 3)

    def test_dollars(self):
        self.assertEqual([row[0] for row in self.rows(kept("$x/a"), kept("/a"), kept("$x"))],
                         ["$x/a", "/a", "$x"])

    def test_a_list_that_a_script_sets(self):
        """Who may read nothing hides nothing."""
        self.assertEqual(self.rows({"do": "acl", "text": "topic write #"}, kept("a")),
                         [("a", "p", 0, None, 3)])

    def test_who_asks(self):
        """Under a name that the script hasn't."""
        self.assertEqual(self.rows(connect("plan-probe"), kept("a") | {"client": "plan-probe"}),
                         [("a", "p", 0, None, 3)])

    def test_publishers(self):
        [one] = end_of(connect("q", "ops"), kept("a") | {"client": "q"}).retained
        self.assertEqual((one.client, one.user), ("q", "ops"))


class Away(unittest.TestCase):
    def rows(self, *script: Command) -> list[tuple]:
        return [(one.client, one.user, one.line, one.filters, one.waiting)
                for one in end_of(*OLD_SESSION, subscribe("away", "a", qos=1),
                                  subscribe("away", "b", qos=1), *script).away]

    def test_what_waits(self):
        self.assertEqual(
            self.rows(leave("away"), *(publish("p", "a", qos=qos) for qos in (0, 1, 2)),
                      publish("p", "b", qos=1), publish("p", "c", qos=1)),
            [("away", "ops", 5, ["a", "b"], Counter(a=2, b=1))])

    def test_who_is_there(self):
        self.assertEqual(self.rows(), [])
        self.assertEqual(self.rows(leave("away"), *OLD_SESSION), [])

    def test_what_is_over(self):
        self.assertEqual(self.rows(leave("away"), {"do": "advance", "seconds": 99}), [])
        self.assertEqual(self.rows(leave("away"), connect("away"), leave("away")), [])

    def test_filters(self):
        self.assertEqual(
            self.rows({"do": "unsubscribe", "client": "away", "filter": "a"},
                      subscribe("away", "a/#/b"), leave("away"))[0][3], ["b"])


class Moves(unittest.TestCase):
    def kept(self, *script: Command, plan: str = PLAN) -> Kept:
        return kept_of(Translator(plan_of(plan)), end_of(*script), True)

    def rows(self, *script: Command, plan: str = PLAN) -> list[tuple]:
        return [(move.message.topic, move.new, move.why)
                for move in self.kept(*script, plan=plan).moves]

    def script(self, *script: Command, plan: str = PLAN, both: bool = False) -> list[tuple]:
        made = moving_script(self.kept(*script, plan=plan), "m", None, both)
        self.assertTrue(all(command["client"] == "m" for command in made))
        self.assertEqual(made[:1], [{"do": "connect", "client": "m"}] if made else [])
        self.assertTrue(all(command["retain"] for command in made[1:]))
        return [(command["topic"], command.get("payload"), command.get("qos"),
                 command.get("expiry")) for command in made[1:]]

    def test_a_move(self):
        script = (kept("plant/h/x", "1", qos=2, expiry=30), kept("office/x"), kept("else"), LATER)
        self.assertEqual(self.rows(*script), [("plant/h/x", "site/h/x", "")])
        self.assertEqual(self.script(*script),
                         [("site/h/x", "1", 2, 20), ("plant/h/x", None, None, None)])
        self.assertEqual(self.script(*script, both=True), [("site/h/x", "1", 2, 20)])

    def test_what_has_no_new_name(self):
        """It is left; what has a new name already isn't old."""
        script = kept("plant/h/old"), kept("site/x")
        self.assertEqual(self.rows(*script), [("plant/h/old", None, NAMELESS)])
        self.assertEqual(self.script(*script), [])

    def test_a_payload_of_a_log(self):
        script = kept("plant/h/x", "5 bytes"), kept("plant/h/y", "x 5 bytes")
        self.assertEqual(self.rows(*script), [("plant/h/x", "site/h/x", UNKNOWN),
                                              ("plant/h/y", "site/h/y", "")])
        self.assertEqual(self.script(*script)[0], ("plant/h/x", None, None, None))
        self.assertEqual(len(self.script(*script)), 3)
        self.assertIn("1 payload, of which the script has the size alone",
                      self.kept(*script).not_known)
        self.assertEqual(self.script(script[0], both=True), [])

    def test_several_that_become_one(self):
        """By when they were published, the last stays."""
        script = kept("plant/h/gate", "g"), kept("plant/h/door", "d"), kept("plant/h/gate", "last")
        new = "site/h/doors/state"
        self.assertEqual(self.rows(*script), [
            ("plant/h/door", new, "line 4 becomes the same topic, and is later: that stays"),
            ("plant/h/gate", new, "")])
        self.assertEqual([row[:2] for row in self.script(*script)], [
            ("plant/h/door", None), (new, "last"), ("plant/h/gate", None)])

    def test_what_stands_under_the_new_name(self):
        for payload, standing, why in (("p", "p", SAME), ("p", "q", OTHER), ("1 bytes", "q", SOME),
                                       ("1 bytes", "1 bytes", SOME)):
            script = kept("site/h/x", standing), kept("plant/h/x", payload)
            with self.subTest(payload=payload, standing=standing):
                self.assertEqual(self.rows(*script), [("plant/h/x", "site/h/x", why)])
                self.assertEqual(self.script(*script), [("plant/h/x", None, None, None)])

    def test_a_chain(self):
        """A name that is an old and a new one gets what it becomes, and isn't cleared."""
        plan = "a -> b\nb -> c\n"
        for script in ([kept("a", "1"), kept("b", "2")], [kept("b", "2"), kept("a", "1")]):
            self.assertEqual(retained_by(PUBLISHER, *script, connect("m"), *(
                {"do": "publish", "client": "m", "topic": topic, "payload": payload or "",
                 "retain": True} for topic, payload, _, _ in self.script(*script, plan=plan))),
                {"b": ("1", 0, None), "c": ("2", 0, None)})
        self.assertEqual(self.script(kept("a", "1 bytes"), kept("b", "2"), plan=plan), [
            ("a", None, None, None), ("c", "2", None, None), ("b", None, None, None)])

    def test_after_random_days(self):
        """Each message stands under its new name, and under no old one: by a reading of plans and a
        world that aren't those of the tool."""
        moved = 0
        for seed in range(200):
            chance = random.Random(seed)
            plan = random_plan(chance)
            topics = chance.sample(NAMES, 25)
            day = [PUBLISHER, *(kept(chance.choice(topics), str(number), qos=chance.randint(0, 2))
                                for number in range(30))]
            end = day_end(lines_of(day), plain())
            made = moving_script(kept_of(Translator(plan), end, False), "m", None, False)
            before = retained_by(*day)
            names = {topic: new_name(plan.text.split("\n"), topic) for topic in before}
            standing = {topic: message for topic, message in before.items()
                        if names[topic] in (None, topic)}
            latest = sorted((topic for topic in before if topic not in standing),
                            key=lambda topic: int(before[topic][0]))
            wanted = {names[topic]: before[topic] for topic in latest} | standing
            moved += len(latest)
            with self.subTest(plan=plan.text, day=day):
                self.assertEqual(retained_by(*day, *made), wanted)
        self.assertGreater(moved, 500)


class Sessions(unittest.TestCase):
    def kept(self, *script: Command) -> Kept:
        end = end_of(*OLD_SESSION, *script, leave("away"), publish("p", "plant/h/door", qos=1),
                     publish("p", "office/x", qos=1), publish("p", "site/x", qos=1))
        return kept_of(Translator(plan_of(PLAN)), end, True)

    def rows(self, *filters: str) -> list[tuple]:
        found = self.kept(*(subscribe("away", one, qos=1) for one in filters))
        return [(one.becomes, one.waiting) for one in found.sessions]

    def test_old_names(self):
        self.assertEqual(self.rows("plant/+/door", "office/#"),
                         [({"plant/+/door": ["site/+/doors/state"]}, 1)])
        self.assertEqual(self.rows("office/#", "else"), [])

    def test_new_names(self):
        """Who has changed already."""
        self.assertEqual(self.rows("site/#"), [])
        self.assertEqual(self.rows("site/#", "plant/h/x"), [({"plant/h/x": ["site/h/x"]}, 0)])

    def test_no_new_name(self):
        self.assertEqual(self.rows("plant/x/old"), [({"plant/x/old": []}, 0)])

    def test_words(self):
        found = self.kept(subscribe("away", "plant/+/door", qos=1))
        self.assertEqual((found.of_sessions(), found.sums()), (
            "1 session, of which 1 has subscriptions under old names",
            {"retained": 0, "renamed": 0, "moved": 0, "nameless": 0, "away": 1, "sessions": 1}))


SOUND = """\
none plant/+/old
plant/+hall/door  -> site/+hall/doors/state
plant/+hall/+what -> site/+hall/+what
keep office/#
"""
DAY = [PUBLISHER, *OLD_SESSION, subscribe("away", "plant/+/door", qos=1),
       subscribe("away", "office/#"), kept("plant/h2/door", "open", qos=1), leave("away"),
       kept("plant/h1/old"), kept("plant/h1/x\u202e", "5 bytes"), kept("office/x"),
       kept("plant/h1/door", "closed", qos=1)]
CHECKED = """\
Retained at the end of script.jsonl: 5 messages, of which 3 have another new name, and 1 has none
line  client  retained              becomes
   5  p       plant/h2/door         site/h2/doors/state
   7  p       plant/h1/old          (none)               no new name: it isn't cleared
   8  p       "plant/h1/x\\u{202e}"  "site/h1/x\\u{202e}"  its payload isn't known: it can be \
cleared, and not moved
  10  p       plant/h1/door         site/h1/doors/state
They stay in the broker under their old names until they are cleared. Who subscribes to the new \
names isn't sent them.
plan retained plan script.jsonl writes a script that moves them.

Away at the end of script.jsonl: 1 session, of which 1 has subscriptions under old names
line  client  waiting  subscribed to  becomes
   6  away          1  plant/+/door   site/+/doors/state
The broker keeps these subscriptions until the client unsubscribes or begins a new session. \
Nothing waits for it under the new names before it subscribes to them.

Not known: what the broker had before the first line of the script; \
what an access list refuses, since none is given; 1 payload, of which the script has the size \
alone; \
properties of MQTT 5 other than the expiry.

Topics of script.jsonl
"""
MOVING = """\
{"do":"connect","client":"plan-mover"}
{"do":"publish","client":"plan-mover","topic":"site/h2/doors/state","payload":"open","qos":1,\
"retain":true}
{"do":"publish","client":"plan-mover","topic":"plant/h2/door","retain":true}
{"do":"publish","client":"plan-mover","topic":"plant/h1/x\\u202e","retain":true}
{"do":"publish","client":"plan-mover","topic":"site/h1/doors/state","payload":"closed","qos":1,\
"retain":true}
{"do":"publish","client":"plan-mover","topic":"plant/h1/door","retain":true}
"""
SAID = """\
script.jsonl:7: plant/h1/old: no new name: it isn't cleared
script.jsonl:8: plant/h1/x\\u{202e}: its payload isn't known: it can be cleared, and not moved
plan: 5 messages retained: 2 published under new names, 3 cleared under old ones
plan: Not known: what the broker had before the first line of the script; what an access list \
refuses, since none is given; 1 payload, of which the script has the size alone; properties of \
MQTT 5 other than the expiry.
"""


class Shown(Case):
    def setUp(self) -> None:
        super().setUp()
        self.write("plan", SOUND)
        self.write("script.jsonl", text_of(DAY))

    @wants_program
    def test_the_script(self):
        done = self.done("retained", "plan", "script.jsonl")
        self.assertEqual((done.stdout, done.stderr, done.returncode), (MOVING, SAID, 1))

    @wants_program
    def test_options(self):
        self.write("list", LIST)
        self.write("script.jsonl", text_of([PUBLISHER, kept("plant/h/x"), connect("g", "guest"),
                                            kept("plant/h/y") | {"client": "g"}]))
        done = self.done("retained", "plan", "script.jsonl", "--client", "m:ops", "--acl-file",
                         "list", "--both")
        self.assertEqual((done.stdout, done.returncode), (
            '{"do":"connect","client":"m","user":"ops"}\n{"do":"publish","client":"m",'
            '"topic":"site/h/x","payload":"p","retain":true}\n', 0))
        self.assertIn("plan: 1 message retained: 1 published under new names, 0 cleared under old "
                      "ones\n", done.stderr)
        self.assertNotIn("access list", done.stderr)

    @wants_program
    def test_nothing_to_move(self):
        self.write("script.jsonl", text_of([PUBLISHER, kept("office/x")]))
        done = self.done("retained", "plan", "script.jsonl")
        self.assertEqual((done.stdout, done.returncode), ("", 0))
        self.assertIn("1 message retained: 0 published", done.stderr)

    def test_refusals(self):
        self.refused('a client "p" of its own: name another, by --mover', "retained", "plan",
                     "script.jsonl", "--client", "p")
        self.write("chain", "a -> b\nb -> c\n")
        self.refused("chain:1: a becomes b, which line 2 takes for an old topic", "retained",
                     "chain", "script.jsonl", "--both")
        self.write("bad.acl", "topc a\n")
        for command in (["retained"], ["check", "--script"]):
            words = [command[0], "plan", *command[1:], "script.jsonl", "--acl-file", "bad.acl"]
            self.refused('bad.acl:1: unknown keyword "topc"', *words)
        self.refused("no line is a command", "retained", "plan", "plan")
        with self.assertRaisesRegex(Fault, "^bad.acl:1: "):
            under("topc a\n", "bad.acl")

    @wants_programs
    def test_check(self):
        found = self.shown(1, "check", "plan", "--script", "script.jsonl")
        self.assertEqual(found[:len(CHECKED)], CHECKED)
        found = [json.loads(line) for line in self.shown(
            1, "check", "--json", "plan", "--script", "script.jsonl").splitlines()]
        kinds = Counter(one["kind"] for one in found)
        self.assertEqual((kinds["retained"], kinds["session"], kinds["kept"]), (4, 1, 1))
        self.assertIn({
            "kind": "retained", "topic": "plant/h2/door", "becomes": "site/h2/doors/state",
            "line": 5, "client": "p", "user": None, "payload": "open", "qos": 1, "expiry": None,
            "is_moved": True, "words": ""}, found)
        self.assertIn({
            "kind": "retained", "topic": "plant/h1/x\u202e", "becomes": "site/h1/x\u202e",
            "line": 8, "client": "p", "user": None, "payload": None, "qos": 0, "expiry": None,
            "is_moved": False, "words": UNKNOWN}, found)
        self.assertIn({
            "kind": "session", "client": "away", "user": "ops", "line": 6, "waiting": 1,
            "subscriptions": [{"was": "plant/+/door", "becomes": ["site/+/doors/state"]}]}, found)
        [sums] = [one for one in found if one["kind"] == "kept"]
        self.assertEqual({name: sums[name] for name in sums if name != "not_known"}, {
            "kind": "kept", "retained": 5, "renamed": 3, "moved": 2, "nameless": 1, "away": 1,
            "sessions": 1})
        self.assertIn("properties of MQTT 5 other than the expiry", sums["not_known"])

    @wants_programs
    def test_status(self):
        """What is to be moved on the day is no fault of the plan."""
        self.write("script.jsonl", text_of([PUBLISHER, kept("plant/h/x")]))
        self.assertIn("\nplan retained plan script.jsonl writes a script that moves them.\n",
                      self.shown(0, "check", "plan", "--script", "script.jsonl"))

    @wants_programs
    def test_many(self):
        self.write("script.jsonl", text_of([PUBLISHER, *(kept(f"plant/h/{n}") for n in range(23))]))
        found = self.shown(0, "check", "plan", "--script", "script.jsonl")
        self.assertIn("\nand 3 more: --json has all\n", found)
        self.assertEqual(found.count("  p       plant/h/"), 20)


if __name__ == "__main__":
    unittest.main()
