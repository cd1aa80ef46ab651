"""The oracle module; and the guide's example, which finds the bug that is
planted in its broker."""
import io
import json
import os
import re
import tempfile
import unittest
from pathlib import Path
from unittest import mock

from worked import GUIDE, PROGRAM, UNBUFFERED, answers, wants_program, wants_unbuffered
import mqroute
from mqroute import Oracle, OracleFault
from mqroute_tools.common import programs
from mqroute_tools.script.oracle import place_of

CONNECT = [{"do": "connect", "client": c} for c in "ab"]
SUBSCRIBE = {"do": "subscribe", "client": "b", "filter": "#", "qos": 1}
PUBLISH = {"do": "publish", "client": "a", "topic": "ä", "payload": "1", "retain": True}
COPY = {"client": "b", "line": 4, "payload": "1", "qos": 0, "retain": False, "topic": "ä"}


class Places(unittest.TestCase):
    def test_place_of(self):
        """Where the line begins, however the pieces fall that are read."""
        text = b"first\n\nsecond one\nthe third\nlast"
        for size in (1, 2, 3, 7, 100):
            with mock.patch("mqroute_tools.script.oracle.PIECE", size):
                for wanted, place in ((b"first", 0), (b"second one", 7), (b"one", 7), (b"ird", 18),
                                      (b"last", 28), (b"fourth", len(text))):
                    self.assertEqual(place_of(io.BytesIO(text), wanted), place)


@wants_program
class Answers(unittest.TestCase):
    def setUp(self):
        named = mock.patch.dict(os.environ, MQROUTE=str(PROGRAM))
        named.start()
        self.addCleanup(named.stop)

    def test_copies_then_the_closing_line(self):
        with Oracle() as oracle:
            for _ in range(2):  # each script begins anew
                self.assertEqual(
                    oracle.run(iter([*CONNECT, SUBSCRIBE, PUBLISH, {"do": "fly"}, PUBLISH]))[2:],
                    [[{"line": 3, "reason": 1}], [COPY, {"line": 4, "reason": 0}],
                     [{"code": 3, "line": 5, "refused": "BadCommand"}],
                     [COPY | {"line": 6}, {"line": 6, "reason": 0}]])
            self.assertEqual(oracle.run([]), [])

    def test_access_list(self):
        with Oracle(acl="topic write ä\n") as oracle:
            folder = Path(oracle.folder.name)
            self.assertEqual(
                oracle.run([*CONNECT, SUBSCRIBE, PUBLISH, PUBLISH | {"topic": "y"}])[3:],
                [[{"line": 4, "reason": 16}],
                 [{"code": 11, "line": 5, "refused": "NotAuthorized"}]])
        self.assertFalse(folder.exists())
        with Oracle(acl="topic read #\ntopick #\n") as oracle, self.assertRaisesRegex(
                OracleFault, "line 2: Keyword"):
            oracle.run(CONNECT)

    def test_limits(self):
        with Oracle(max_retained=1, max_queued=0) as oracle:
            script = [
                CONNECT[0], CONNECT[1] | {"session_expiry": 9}, SUBSCRIBE,
                {"do": "disconnect", "client": "b"}, PUBLISH | {"qos": 1}, PUBLISH | {"topic": "y"}]
            self.assertEqual(
                oracle.run(script)[4:],
                [[{"line": 5, "reason": 16}], [{"code": 14, "line": 6, "refused": "RetainedFull"}]])

    def test_no_program(self):
        with self.assertRaisesRegex(OracleFault, "cannot run /nowhere"):
            Oracle(program="/nowhere").run([])

    def test_which_program(self):
        self.assertEqual(mqroute.found_program(), str(PROGRAM))
        with mock.patch.dict(os.environ, MQROUTE=""), mock.patch.multiple(
                programs, BUILT=Path("/nowhere"), INSTALLED=Path("/nowhere")):
            with mock.patch.dict(os.environ, PATH="/nowhere"):
                self.assertEqual(mqroute.found_program(), "mqroute")
            with tempfile.TemporaryDirectory() as folder:
                installed = Path(folder, "mqroute")
                installed.symlink_to(PROGRAM)
                with mock.patch.object(programs, "INSTALLED", Path(folder)):
                    self.assertEqual(mqroute.found_program(), str(installed))

    def test_large_scripts(self):
        """More than a pipe holds, in both directions."""
        script = [*CONNECT, SUBSCRIBE, *[PUBLISH | {"payload": "x" * 1000}] * 2000]
        with Oracle() as oracle:
            found = oracle.run(script)
        self.assertEqual((len(found), {len(one) for one in found[3:]}), (2003, {2}))
        self.assertEqual(
            found[-1][-1],
            answers("".join(json.dumps(command) + "\n" for command in script).encode())[-1])


@wants_unbuffered
class OneByOne(unittest.TestCase):
    def oracle(self, **more) -> Oracle:
        found = Oracle(program=str(PROGRAM), **more)
        self.addCleanup(found.close)
        return found

    def test_each_goes_on_from_there(self):
        oracle = self.oracle()
        for number, command in enumerate([*CONNECT, SUBSCRIBE], 1):
            self.assertEqual(oracle.answers(command)[0]["line"], number)
        self.assertEqual(oracle.answers(PUBLISH), [COPY, {"line": 4, "reason": 0}])
        self.assertEqual(
            oracle.answers({"do": "fly"}), [{"code": 3, "line": 5, "refused": "BadCommand"}])
        self.assertEqual(oracle.answers({"do": "stat"})[0]["line"], 6)
        # of a world of its own
        self.assertEqual(oracle.run([*CONNECT, SUBSCRIBE])[2], [{"line": 3, "reason": 1}])
        self.assertEqual(oracle.answers(PUBLISH), [COPY | {"line": 7}, {"line": 7, "reason": 0}])

    def test_as_a_whole_script(self):
        """With an access list and limits, and answers larger than a pipe holds."""
        script = ([{"do": "connect", "client": f"c{n}"} for n in range(300)]
                  + [{"do": "subscribe", "client": f"c{n}", "filter": "x/#"} for n in range(300)])
        script += [
            {"do": "publish", "client": "c0", "topic": topic, "payload": "é" * size, "retain": True}
            for topic, size in (("x/1", 1000), ("y", 1), ("x/2", 200_000 // 300), ("x/3", 1))]
        more = {"acl": "topic readwrite x/#\n", "max_retained": 2}
        oracle = self.oracle(**more)
        self.assertEqual(
            [oracle.answers(command) for command in script], self.oracle(**more).run(script))

    def test_rules(self):
        """Those of mosquitto take marks within levels, and let `topic` lines decide first."""
        text = "pattern deny #\npattern x%c\ntopic readwrite ä\n"
        oracle = self.oracle(acl=text, rules="mosquitto")
        found = oracle.run([*CONNECT, PUBLISH, {"do": "acl", "text": text}])
        self.assertEqual(found[2:], [[{"line": 3, "reason": 16}], [{"line": 4, "reason": 0}]])
        for more in ({}, {"rules": "own"}):
            with self.assertRaisesRegex(OracleFault, "line 2: Pattern"):
                self.oracle(acl=text, **more).answers(CONNECT[0])

    def test_begun_anew_after_the_end(self):
        oracle = self.oracle()
        for _ in range(2):
            self.assertEqual(oracle.answers(CONNECT[0]), [{"line": 1, "reason": 0}])
            oracle.close()

    def test_faults(self):
        with self.assertRaisesRegex(OracleFault, "cannot run /nowhere"):
            Oracle(program="/nowhere").answers(CONNECT[0])
        oracle = self.oracle(acl="topick #\n")
        with self.assertRaisesRegex(OracleFault, "line 1: Keyword"):
            oracle.answers(CONNECT[0])

    def test_a_program_that_ends(self):
        oracle = self.oracle()
        oracle.answers(CONNECT[0])
        oracle.conversation.program.kill()
        oracle.conversation.program.wait()
        with self.assertRaisesRegex(OracleFault, "ended with status -9"):
            oracle.answers(CONNECT[1])


@wants_program
class WithoutTheOption(unittest.TestCase):
    def test_it_is_said(self):
        with tempfile.TemporaryDirectory() as folder:
            old = Path(folder, "mqroute")
            old.write_text("#!/bin/sh\necho 'mqroute: unknown option --unbuffered' >&2\nexit 2\n")
            old.chmod(0o755)
            with Oracle(program=str(old)) as oracle, self.assertRaisesRegex(
                    OracleFault, "unknown option --unbuffered"):
                oracle.answers(CONNECT[0])


@wants_program
class Example(unittest.TestCase):
    """The blocks of the guide are files for pytest. Here their functions are called without."""
    BY_LINE, WHOLE = "test_as_mqroute", "test_whole_script"

    def example(self) -> dict:
        text = GUIDE.read_text("utf-8")
        names: dict = {}
        with mock.patch.dict(os.environ, MQROUTE=str(PROGRAM)):
            for code in re.findall(r"^```python\n(.*?)^```$", text, re.S | re.M):
                exec(compile(code, GUIDE.name, "exec"), names)
        return names

    def chosen(self, names: dict) -> list:
        self.assertLessEqual({self.BY_LINE, self.WHOLE}, names.keys())
        return [names[name] for name in ([self.BY_LINE] if UNBUFFERED else []) + [self.WHOLE]]

    def test_they_find_the_bug(self):
        for test in self.chosen(self.example()):
            with mock.patch.dict(os.environ, MQROUTE=str(PROGRAM)), self.assertRaises(
                    AssertionError) as found:
                test()
            self.assertIn("E       AssertionError: " + str(found.exception) + "\n",
                          GUIDE.read_text("utf-8"))

    def test_they_pass_without(self):
        names = self.example()
        right = names["Toy"].matches

        def mended(self, filter: str, topic: str) -> bool:
            return not (topic.startswith("$") and filter[0] in "+#") and right(self, filter, topic)
        names["Toy"].matches = mended
        for test in self.chosen(names):
            with mock.patch.dict(os.environ, MQROUTE=str(PROGRAM)):
                test()


if __name__ == "__main__":
    unittest.main()
