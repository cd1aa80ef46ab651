"""How a list is asked: many questions by one process, which answers them in their order."""
import json
import os
import tempfile
import unittest
import unittest.mock
from pathlib import Path

import worked  # noqa: F401  it knows where the tools are
from mqroute_tools.common.exit_status import Fault
from mqroute_tools.script import access_list
from mqroute_tools.script.access_list import AccessList, Question

# Its answers say what was asked. It keeps each call's words and questions beside it.
ANSWERS = '''#!/usr/bin/env python3
import json, os, sys
text = sys.stdin.read()
with open(sys.argv[0] + ".calls", "a") as calls:
    calls.write(json.dumps([sys.argv[1:], text]) + "\\n")
answers = []
for number, line in enumerate(text.splitlines(), 1):
    asked = json.loads(line)
    grant = {"file": sys.argv[-1], "line": number, "text": json.dumps(asked, sort_keys=True)}
    answers.append({"access": asked["access"], "allowed": True, "deny": None, "grant": grant})
for one in eval(os.environ.get("OTHER", "lambda answers: answers"))(answers):
    print(json.dumps(one))
'''
REFUSES = '#!/bin/sh\necho "$6:3: no list" >&2\nexit 2\n'
MARKED = b"pattern readwrite %c/#\n"


class Asking(unittest.TestCase):
    def setUp(self) -> None:
        folder = tempfile.TemporaryDirectory()
        self.addCleanup(folder.cleanup)
        self.program = Path(folder.name, "mqroute-acl")
        self.is_to(ANSWERS)

    def is_to(self, text: str) -> None:
        self.program.write_text(text)
        self.program.chmod(0o755)

    def made(self, text: bytes = MARKED, rules: str = "own") -> AccessList:
        with unittest.mock.patch.dict(os.environ, MQROUTE_ACL_PROGRAM=str(self.program)):
            return AccessList("the list", rules, text)

    def calls(self) -> list[list[dict]]:
        """What each process was asked."""
        path = Path(f"{self.program}.calls")
        found = path.read_text("utf-8").splitlines() if path.exists() else []
        return [list(map(json.loads, json.loads(line)[1].splitlines())) for line in found]

    def answered(self, one: AccessList, asked: Question) -> None:
        """By what was asked about this question, whatever else was."""
        members = {name: value for name, value in asked._asdict().items() if value is not None}
        verdict = one.verdict(asked)
        self.assertEqual((verdict.access, json.loads(verdict.grant.text)), (asked.access, members))

    def test_in_order(self):
        """A client without a user name has no `user`, and one with an empty name has."""
        one = self.made()
        questions = [Question(client, user, topic, access) for access in ("write", "read")
                     for topic in ("x", "a/ü", 'q"\\') for user in ("u", None, "", "\u202e")
                     for client in ("c", "d")]
        one.ask_all(reversed(questions))
        self.assertEqual(len(self.calls()), 1)
        for asked in questions:
            self.answered(one, asked)
        self.assertEqual(len(self.calls()), 1)
        self.assertNotIn(None, [asked.get("user", "none") for asked in self.calls()[0]])

    def test_each_once(self):
        """Where the list asks for no client, for one client."""
        questions = [Question(client, "u", topic, "read") for client in "cd" for topic in "xyx"]
        for text, rules, count in ((MARKED, "own", 4), (b"topic read #\n", "own", 2),
                                   (b"topic read #\n", "mosquitto", 4)):
            one, before = self.made(text, rules), len(self.calls())
            one.ask_all(questions)
            one.ask_all([*questions, Question("c", "u", "x", "write")])
            one.ask_all(questions)
            one.ask_all([])
            asked = [len(call) for call in self.calls()[before:]]
            self.assertEqual(asked, [count, 1], (text, rules))

    def test_one_alone(self):
        one = self.made()
        for _ in range(2):
            self.answered(one, Question("c", None, "x", "write"))
        self.assertEqual(self.calls(), [[{"client": "c", "topic": "x", "access": "write"}]])

    def test_more_than_a_process_takes(self):
        one = self.made()
        questions = [Question("c", "u", "x" * length, "read") for length in (*range(1, 40), 300)]
        with unittest.mock.patch.object(access_list, "MOST_BYTES", 200):
            one.ask_all(questions)
            found = [sum(len(json.dumps(asked)) + 1 for asked in call) for call in self.calls()]
        *others, last = found
        self.assertTrue(len(questions) // 3 < len(found) < len(questions) and max(others) <= 200)
        self.assertTrue(last > 300 and len(self.calls()[-1]) == 1)  # a question is never cut
        for asked in questions:
            self.answered(one, asked)
        self.assertEqual(len(self.calls()), len(found))

    def test_other_answers(self):
        """None, one too few, one too many, and those to other questions."""
        questions = [Question("c", "u", "x", "read"), Question("c", "u", "x", "write")]
        for other, said in (("[]", "0 answers to 2 questions"),
                            ("answers[1:]", "1 answer to 2 questions"),
                            ("answers + answers[:1]", "3 answers to 2 questions"),
                            ("answers[::-1]", "2 answers to 2 questions")):
            one = self.made()
            with unittest.mock.patch.dict(os.environ, OTHER=f"lambda answers: {other}"):
                with self.assertRaises(Fault) as raised:
                    one.ask_all(questions)
            self.assertEqual(str(raised.exception), f"{self.program} doesn't answer what it is "
                             f"asked about the list: {said}")
            self.assertEqual(one.known, {})

    def test_a_list_that_cannot_be_read(self):
        """The list is named, where the program reads a copy of it."""
        self.is_to(REFUSES)
        with self.assertRaisesRegex(Fault, r"^the list:3: no list$"):
            self.made().verdict(Question("c", None, "x", "read"))


if __name__ == "__main__":
    unittest.main()
