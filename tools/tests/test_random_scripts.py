"""The random scripts, how they are made smaller, and which differences are of one kind."""
import json
import unittest
from collections.abc import Iterator

from worked import PROGRAM, wants_program
from mqroute import Oracle
from mqroute_tools.script.fresh_names import fresh, with_names
from mqroute_tools.search.difference_kinds import Difference, Kind, separate, uses
from mqroute_tools.search.exercised import Exercised
from mqroute_tools.search.parts import ACCESS, CLOCK, MARKS, ODD, PARTS, Use
from mqroute_tools.search.random_scripts import Maker
from mqroute_tools.search.shrinking import connected, shrink

A = {"do": "connect", "client": "a"}
X = {"do": "subscribe", "client": "a", "filter": "x"}
PUBLISH = {"do": "publish", "client": "a", "topic": "x", "payload": "1"}


def seen(scene: list) -> Iterator[str]:
    """What of big and odd values it has."""
    topics = [command["topic"] for command in scene if "topic" in command]
    payloads = [command.get("payload", "") for command in scene]
    joins = [(command["client"], command["filter"]) for command in scene
             if command["do"] == "subscribe"]
    shares = {name for _, name in joins if name.startswith("$share/")}
    has = {"long payload": any(len(text.encode()) > 65_535 for text in payloads),
           "U+0000": any("\0" in text for text in payloads),
           "long topic": any(len(topic) > 32_767 for topic in topics),
           "20 levels": any(topic.count("/") == 19 for topic in topics),
           "200 levels": any(topic.count("/") == 199 for topic in topics),
           "beyond ASCII": any(not topic.isascii() for topic in topics),
           "11 wait": any(command["do"] == "disconnect" for command in scene) and len(topics) > 10,
           "5 overlap": len({name for _, name in joins if set("+#") & set(name)}) >= 4,
           "longest interval": any(one.get("expiry") == 4_294_967_295 for one in scene),
           "group of three": len({client for client, name in joins if name in shares}) == 3,
           "two shares": len(shares) == 2, "500 messages": len(topics) > 500}
    yield from (what for what, is_so in has.items() if is_so)


class Scripts(unittest.TestCase):
    def made(self, use: Use) -> str:
        maker = Maker(3, use)
        return "\n".join(json.dumps(maker.script(number)) for number in range(300))

    SIGNS = {"groups": r"\$share", "retained": '"retain"', "wildcards": '"filter": "[^"]*[+#]',
             "identifiers": '"id"',
             "sessions": '"session_expiry"|"clean"', "expiry": '"expiry"',
             "options": '"no_local"|"rap"|"handling"', "dollar": r'[/"]\$x',
             "wills": '"payload": "will"', "qos2": '"qos": 2', "qos": '"qos"'}

    def test_parts(self):
        self.assertEqual(set(self.SIGNS), set(PARTS))
        for part, sign in self.SIGNS.items():
            self.assertRegex(self.made(Use()), sign)
            self.assertNotRegex(self.made(Use().without([part])), sign)

    def test_same_seed_same_scripts(self):
        """Whichever were made before."""
        maker = Maker(1, Use())
        first = [maker.script(number) for number in (1, 2, 3)]
        self.assertEqual(Maker(1, Use()).script(3), first[2])
        self.assertNotEqual(Maker(2, Use()).script(3), first[2])

    def test_odd_scenes_stand_behind(self):
        """Each of them in 270 scripts; the script before is the same without."""
        plain, odd = Maker(1, Use().without([ODD])), Maker(1, Use())
        found: set[str] = set()
        for number in range(1, 271):
            before, script = plain.script(number), odd.script(number)
            self.assertEqual(script[:len(before)], before)
            found.update(seen(script[len(before):]))
        self.assertEqual(found, {
            "long payload", "U+0000", "long topic", "20 levels", "200 levels", "beyond ASCII",
            "11 wait", "5 overlap", "longest interval", "group of three", "two shares",
            "500 messages"})

    @wants_program
    def test_every_line_is_accepted(self):
        maker = Maker(5, Use(frozenset([*PARTS, CLOCK, ODD])))
        with Oracle(program=str(PROGRAM)) as oracle:
            for number in range(60):
                for answers in oracle.run(fresh(maker.script(number), "Z9Z")):
                    self.assertNotIn("refused", answers[-1])

    @wants_program
    def test_much_happens(self):
        """In so many of a hundred scripts at least."""
        exercised = Exercised()
        with Oracle(program=str(PROGRAM)) as oracle:
            for number in range(200):
                script = Maker(1, Use()).script(number)
                exercised.add(script, oracle.blocks(script))
        for what, wanted in (("a message to three clients and more", 35),
                             ("a group with two connected members served", 20),
                             ("a copy with two identifiers", 4), ("a message that waited", 8),
                             ("two messages that waited and more", 4),
                             ("two retained messages and more at a subscribe", 5),
                             ("a will sent", 4), ("a session resumed", 20)):
            self.assertGreaterEqual(exercised.counts[what] / 2, wanted, what)

    def test_fresh_names(self):
        for name, wanted in (
                ("x", "xZ"), ("x/+/#", "xZ/+/#"), ("/", "/"), ("#", "#"), ("$x/y", "$xZ/yZ"),
                ("$SYS/x", "$SYS/xZ"),
                ("$share/g/x/#", "$share/gZ/xZ/#"), ("$share/g/#", "$share/gZ/#")):
            self.assertEqual(fresh([{"do": "subscribe", "client": "a", "filter": name}], "Z"),
                             [{"do": "subscribe", "client": "aZ", "filter": wanted}])
        self.assertEqual(fresh([PUBLISH | {"payload": "x"}], "Z"),
                         [PUBLISH | {"client": "aZ", "topic": "xZ", "payload": "x"}])

    def test_fresh_letters(self):
        """What is put together of names still is."""
        for client, user, topic, text in (
                ("aZ/bZ", "uZ", "$xZ/1", "user uZ vZ\npattern deny %caZ/%u#\n# it\ntopic xZ\n"),
                ("%cbZ", "", "$SYS/xZyZ", ""), ("+/#", "%u", "/", "user \n")):
            wanted = {"do": "connect", "client": client, "user": user, "topic": topic, "text": text}
            plain = {field: value.replace("Z", "") for field, value in wanted.items()}
            self.assertEqual(fresh([plain], "Z", True), [wanted])


class Shrinks(unittest.TestCase):
    def test_to_what_is_needed(self):
        maker = Maker(2, Use())
        tried = 0

        def still(script):
            return any(c["do"] == "publish" and c.get("retain") and c["topic"].startswith("$")
                       for c in script) and connected(script) == script
        for script in map(maker.script, range(200)):
            if still(script):
                tried += 1
                self.assertEqual(
                    shrink(script, still), [A, PUBLISH | {"topic": "$x", "retain": True}])
        self.assertGreater(tried, 10)

    def test_nothing_can_be_left_out(self):
        script = [A, X | {"qos": 1}, PUBLISH]
        self.assertEqual(shrink(script, lambda candidate: candidate == script), script)

    def test_connected(self):
        self.assertEqual(connected([X, A, X, {"do": "disconnect", "client": "a"}, PUBLISH,
                                    {"do": "advance", "seconds": 1}, A, PUBLISH]),
                         [A, X, {"do": "disconnect", "client": "a"},
                          {"do": "advance", "seconds": 1}, A, PUBLISH])


class Kinds(unittest.TestCase):
    def whats(self, ours: str, theirs: str, *more: str, head: str = "   a x") -> list[str]:
        return [one.what for one in separate(
            3, "publish", [head, f"      mqroute: {ours}", f"      broker:  {theirs}", *more])]

    def test_what_differs(self):
        full = 'qos 1, retain true, payload "1", "2", ids [3, 7], expiry 0'
        for theirs, wanted in (
                ("nothing", ["missing"]), (full.replace("true", "false"), ["retain"]),
                (full.replace(", expiry 0", ""), ["expiry"]),
                (full.replace("[3, 7]", "[3]"), ["missing"]),
                (full.replace(", ids [3, 7]", ""), ["missing"]),
                (full.replace("qos 1", "qos 2"), ["more"]),
                (full.replace("qos 1", "qos 0").replace("[3, 7]", "[7]").replace("true", "false"),
                 ["missing", "retain"]),
                (full.replace(', "2"', ""), ["missing"]),
                (full.replace('"2"', '"3"'), ["payload"])):
            self.assertEqual(
                self.whats(full, theirs), [f"publish: {what}" for what in wanted], theirs)
        self.assertEqual(
            self.whats(full.replace("expiry 0", "expiry 1000"),
                       full.replace("expiry 0", "expiry 999").replace("[3, 7]", "[7]")),
            ["publish: missing"])
        self.assertEqual(self.whats("nothing", full), ["publish: more"])
        self.assertEqual(self.whats("2 copies", "1 copy"), ["publish: missing"])
        self.assertEqual(self.whats("1 copy", "3 copies"), ["publish: more"])
        self.assertEqual(
            self.whats('x "1", x "2"', 'x "2", x "1"', head="   a order"), ["publish: order"])

    def test_a_copy_less_shows_as_an_identifier_less(self):
        less = Kind("publish: identifiers", frozenset("xy"))
        for what, used, wanted in (("publish: missing", "x", True), ("publish: more", "x", True),
                                   ("publish: missing", "z", False), ("will: more", "x", False),
                                   ("publish: retain", "x", False)):
            self.assertEqual(Kind(what, frozenset(used)).covers(less), wanted, what)
        self.assertFalse(less.covers(Kind("publish: missing", frozenset("xy"))))

    def test_one_number_of_one_copy(self):
        """No copy is missing where an identifier or the QoS is less."""
        full = f'qos 1, retain false, payload "{"p" * 60}" and 69940 characters more, ids [3, 7]'
        for theirs, wanted in ((full.replace(", 7", ""), "identifiers"),
                               (full.replace("qos 1", "qos 0"), "QoS"),
                               (full.replace("69940", "65475"), "payload"),
                               (full.replace("qos 1", "qos 0").replace(", 7", ""), "missing")):
            self.assertEqual(self.whats(full, theirs), [f"publish: {wanted}"])

    def test_reasons(self):
        nobody = "   reason: mqroute 0, broker 16"
        self.assertEqual(self.whats('qos 0, retain false, payload ""', "nothing", nobody),
                         ["publish: missing"] * 2)
        self.assertEqual([one.what for one in separate(3, "publish", [nobody])],
                         ["publish: reason: mqroute 0, broker 16"])

    def test_as_stored(self):
        """A little of an interval may be gone."""
        one = Difference(3, "publish: retain", ["   a x", "retain true, expiry 1000"])
        for texts, wanted in ((["   a x", "retain true, expiry 998"], True),
                              (["   a x", "retain true, expiry 990"], False),
                              (["   a x", "retain true"], False), (["   a x"], False)):
            self.assertEqual(one.is_as(one._replace(texts=texts)), wanted, texts)
        self.assertFalse(one.is_as(one._replace(line=4)))

    def test_covers(self):
        small, great = Kind("publish: missing", frozenset("ab")), Kind(
            "publish: missing", frozenset("abc"))
        self.assertTrue(small.covers(great) and small.covers(small))
        self.assertFalse(great.covers(small) or small.covers(great._replace(what="publish: more")))

    def test_what_a_script_uses(self):
        self.assertEqual(uses([A, X, PUBLISH]), {"subscribe", "plain", "publish"})
        script = [A, A | {"clean": False, "session_expiry": 1},
                  X | {"filter": "$share/g/$x/#", "qos": 1}, X, X | {"handling": 2},
                  PUBLISH | {"topic": "$x", "expiry": 0}]
        self.assertEqual(uses(script), {"taken over", "resumes", "session", "subscribe", "group",
                                        "plain", "$ filter", "#", "qos", "subscribes again",
                                        "handling 2", "publish", "$ topic", "expiry 0"})


class AccessLists(unittest.TestCase):
    def test_names(self):
        """A list speaks of the names that its script has."""
        text = "topic read x/+\nuser u\npattern write %c/y\ntopic #\n"
        [made] = fresh([{"do": "acl", "text": text}], "Z")
        self.assertEqual(made["text"],
                         "topic read xZ/+\nuser u\npattern write %c/yZ\ntopic #\n")
        self.assertEqual(with_names(made["text"], lambda name: name.replace("Z", "")), text)

    def test_only_where_they_are_asked_for(self):
        def lists(use: Use) -> int:
            maker = Maker(1, use)
            return sum(any(command["do"] == "acl" for command in maker.script(number))
                       for number in range(100))
        self.assertEqual(lists(Use()), 0)
        self.assertGreater(lists(Use().with_part(MARKS)), 20)
        self.assertGreater(lists(Use(frozenset([*PARTS, ACCESS]))), 50)

    def test_a_line_that_decides_nothing_is_left_out(self):
        script = [{"do": "acl", "text": "topic read y\ntopic deny x\n"}]
        self.assertEqual(shrink(script, lambda one: "deny x" in one[0].get("text", "")),
                         [{"do": "acl", "text": "topic deny x\n"}])


if __name__ == "__main__":
    unittest.main()
