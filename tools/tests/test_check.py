"""What is said of invalid lines; and that these are the lines
that the program refuses so."""
import json
import random
import subprocess
import sys
import tempfile
import unittest
from pathlib import Path

from worked import HERE, TEXT_FAULTS, answers, invalid_lines, scripts, wants_program
from mqroute_tools.common.messages import named
from mqroute_tools.script.commands import COMMANDS, faults, line_faults, read_line
from mqroute_tools.script.text_faults import filter_fault, name_fault, text_faults

SAID = [
    ({"do": "publish", "client": "a", "topic": "x", "payloud": ""},
     ['publish has no field "payloud" (payload?)']),
    ({"do": "publish", "client": "a", "topic": "x", "QoS": 1},
     ['publish has no field "QoS" (qos?)']),
    ({"do": "publish", "client": "a", "topic": "x", "when": 1}, ['publish has no field "when"']),
    ({"do": "stat", "client": "a"}, ['stat has no field "client"']),
    ({"do": "publish", "topic": 1}, ['publish needs the field "client"', "topic is 1: not a text"]),
    ({"do": "subscribe", "client": "a", "filter": "x", "qos": 3}, ["qos is 3: not from 0 to 2"]),
    ({"do": "subscribe", "client": "a", "filter": "x", "id": 0},
     ["id is 0: not from 1 to 268,435,455"]),
    ({"do": "subscribe", "client": "a", "filter": "x", "rap": 1},
     ["rap is 1: neither true nor false"]),
    ({"do": "advance", "seconds": 1.5}, ["seconds is 1.5: not a whole number"]),
    ({"do": "advance", "seconds": True}, ["seconds is true: not a whole number"]),
    ({"do": "advance"}, ['advance needs the field "seconds"']),
    ({"do": "publsh", "client": "a"}, ['there is no command "publsh" (publish?)']),
    ({"do": 5}, ["there is no command 5"]),
    ({"client": "a", "command": "connect"}, ['"do" is missing ("command" is "connect")']),
    ({"client": "a"}, ['"do" is missing']),
    ([{"do": "stat"}], ['[{"do": "stat"}] is not an object']),
    ({"do": "acl", "text": "x" * 100, "texts": None}, ['acl has no field "texts"']),
    ({"do": "publish", "client": "a", "topic": ["x" * 100]},
     ['topic is ["' + "x" * 58 + "..: not a text"]),
]
TEXTS = [
    (b'{"do":"stat"', "not JSON: expecting ',' delimiter, column 13"),
    (b"{", "not JSON: each command is an object on one line"),
    (b'\xef\xbb\xbf{"do":"stat"}', "not JSON: it begins with a byte order mark"),
    (b'{"do":"\xff"}', "not JSON: byte 8 is not UTF-8"),
    (b'{"do":"advance","seconds":NaN}', "not JSON: NaN is not a number in JSON"),
    (b'{"do":"advance","seconds":1e999}', "not JSON: the number 1e999 is too great"),
    (b'{"do":"connect","client":"\\ud800"}',
     "not JSON: half of a surrogate pair stands alone in a text"),
    (b"[" * 128 + b"]" * 128, "not JSON: nested deeper than 127"),
    (b" " * 1_048_577, "1,048,577 bytes, where 1,048,576 may be"),
]
# Filters, each with what is wrong; by MQTT 5.0, 4.7.1 and 4.8.2.
FILTERS = [
    ("a/#/b", "it has # before its last level"), ("#/", "it has # before its last level"),
    ("a#", "it has # within a level"), ("a+", "it has + within a level"),
    ("+#", "it has + within a level"), ("", "it is empty"), ("a\0", "it has U+0000"),
    ("$share//x", "it has no share name"), ("$share/", "it has no share name"),
    ("$share/+/x", "its share name has a wildcard"),
    ("$share/g", "it has no filter behind its share name"),
    ("$share/g/", "it has no filter behind its share name"),
    ("$share/g/a#", "it has # within a level"),
    ("/" * 200, "it has 201 levels, where mqroute takes 200"),
    ("$share/g" + "/a" * 201, "it has 201 levels, where mqroute takes 200"),
    ("a" * 65_536, "it has more than 65,535 bytes"),
    *((text, "") for text in ("#", "+", "/", "a/#", "a/+/b", "$share", "$sharex/a", "/" * 199,
                              "$share/g/#", "$share/g//", "$share/g" + "/a" * 200, "a" * 65_535))]
NAMES = [("", "it is empty"), ("a/+", "it has a wildcard"), ("a#", "it has a wildcard"),
         ("a\0", "it has U+0000"), ("/" * 200, "it has 201 levels, where mqroute takes 200"),
         ("/", ""), ("$share//x", ""), ("/" * 199, "")]
TEXT_COMMANDS = [
    ({"do": "connect", "client": "", "user": "a\0"},
     ['client is "": it is empty', 'user is "a\\u0000": it has U+0000']),
    ({"do": "connect", "client": "a", "user": ""}, []),
    ({"do": "subscribe", "client": "a", "filter": "$share/g/x", "no_local": True},
     ["no_local is true: a shared subscription has no No Local"]),
    ({"do": "unsubscribe", "client": "a", "filter": "a" * 65_536},
     ['filter is "' + "a" * 60 + '..": it has more than 65,535 bytes']),
]
ODD = [b"0", b"1", b"2", b"3", b"-0", b"-1", b"1.0", b"1e0", b"268435455", b"268435456",
       b"4294967295", b"4294967296", b"18446744073709551615", b"18446744073709551616", b"9" * 400,
       b"1e308", b"1e309", b"-1e309", b"1e-999", b"01", b"+1", b"NaN", b"Infinity", b"true",
       b"false", b"null", b"[]", b"{}", b'""', b'"x"', b'"\\u0000"', b'"\\ud800"',
       b'"\\ud83d\\ude00"', b'"\\ude00\\ud83d"', b'"\\x41"', b'"\x01"', b'"\x7f"', b'"\xff"',
       b'"\xed\xa0\x80"', b"'x'", b"[" * 126 + b"]" * 126, b"[" * 127 + b"]" * 127,
       b'[["\\udfff"]]', b'{"a":[["\\ud800"]]}', b'{"a":1,"a":"\\ud800","a":2}']


def random_line(chance: random.Random) -> bytes:
    """Mostly a command, of which something may be odd."""
    do = chance.choice(sorted(COMMANDS))
    fields = COMMANDS[do]
    parts = [(b'"do"', json.dumps(do).encode())]
    for name, field in fields.items():
        if chance.random() < (0.97 if field.required else 0.4):
            usual = {"text": b'"x"', "flag": b"true", "number": b"%d" % field.low}[field.kind]
            parts.append(
                (json.dumps(name).encode(), chance.choice(ODD) if chance.random() < 0.2 else usual))
    if chance.random() < 0.1:
        parts.append(
            (chance.choice([b'"y"', b'"do"', b'"client"', b'"\\u0064o"', b'"\\ud800"', b"do"]),
             chance.choice(ODD + [b'"stat"'])))
    chance.shuffle(parts)
    space = (chance.choice([b"", b" ", b"\t", b"\r", b"\x0c", b"\xc2\xa0"]) if chance.random() < 0.2
             else b"")
    line = b"{" + b",".join(name + space + b":" + value for name, value in parts) + b"}" + space
    if chance.random() < 0.1:
        at = chance.randrange(len(line))
        line = (line[:at] + chance.choice([b"", b'"', b"\\", b"}", b"[", b",", b"\xff", b" "])
                + line[at + chance.randrange(2):])
    return line


class Said(unittest.TestCase):
    def test_fields(self):
        for value, said in SAID:
            self.assertEqual(line_faults(json.dumps(value).encode()), said)

    def test_texts(self):
        for line, said in TEXTS:
            self.assertEqual(line_faults(line), [said])

    def test_filters_and_names(self):
        for fault_of, cases in ((filter_fault, FILTERS), (name_fault, NAMES)):
            for text, said in cases:
                self.assertEqual(fault_of(text), said, text[:40])
        for command, said in TEXT_COMMANDS:
            self.assertEqual(list(text_faults(command)), said)

    def test_remark(self):
        """Of what is answered 17: a fault alone makes the status 1."""
        script = [{"do": "connect", "client": "c"},
                  {"do": "subscribe", "client": "c", "filter": "a"},
                  {"do": "unsubscribe", "client": "c", "filter": "a"},
                  {"do": "unsubscribe", "client": "c", "filter": "a/b"},
                  {"do": "disconnect", "client": "c"},
                  {"do": "unsubscribe", "client": "c", "filter": "a/b"}]
        text = "".join(json.dumps(command) + "\n" for command in script).encode()
        remark = ('script:4: remark: "c" hasn\'t subscribed to "a/b", so that this is answered 17, '
                  'and not refused\n')
        self.assertEqual(self.run_tool(text, "script"), (0, remark))
        text += b'{"do":"publish","client":"c","topic":"a/+"}\n'
        self.assertEqual(self.run_tool(text, "script"),
                         (1, remark + 'script:7: topic is "a/+": it has a wildcard\n'))

    def run_tool(self, script: bytes, *words: str) -> tuple[int, str]:
        with tempfile.TemporaryDirectory() as folder:
            Path(folder, "script").write_bytes(script)
            done = subprocess.run([sys.executable, HERE / "check.py", *words], input=script,
                                  cwd=folder, capture_output=True)
            return done.returncode, done.stdout.decode("utf-8") + done.stderr.decode("utf-8")

    def test_the_tool(self):
        for words in (["script"], ["-"], []):
            shown = "".join("{0}:%s\n" % text
                            for text in ('4: stat has no field "x"', '4: stat has no field "y"',
                                         '5: there is no command "ä"'))
            self.assertEqual(self.run_tool(
                b'{"do":"stat"}\n\n \r\n{"do":"stat","x":1,"y":1}\n{"do":"\xc3\xa4"}', *words),
                             (1, shown.format(named((*words, "-")[0]))))
        self.assertEqual(self.run_tool(b'{"do":"stat"}\n', "script"), (0, ""))
        self.assertEqual(
            self.run_tool(b"", "nowhere"), (2, "check: nowhere: No such file or directory\n"))


@wants_program
class Agrees(unittest.TestCase):
    def agrees(self, name: str, script: bytes) -> int:
        refused = invalid_lines(answers(script))
        found = {number for number, _ in faults(line + b"\n" for line in script.split(b"\n"))}
        lines = script.split(b"\n")
        for number in sorted(found ^ refused):
            self.fail(f"{name} line {number}: {lines[number - 1][:200]!r}: the program "
                      f"{'refuses' if number in refused else 'takes'} it")
        return len(refused)

    def test_texts(self):
        """Each text by itself, of a client that is connected."""
        client = {"do": "connect", "client": "a"}
        script = [client, *(command | {"do": do} for cases, commands in (
            (FILTERS, [("subscribe", "filter"), ("unsubscribe", "filter")]),
            (NAMES, [("publish", "topic")])) for text, _ in cases for do, name in commands
            for command in [{"client": "a", name: text}])]
        script += [command for command, _ in TEXT_COMMANDS]
        lines = [json.dumps(command).encode() for command in script]
        found = {number for number, line in enumerate(lines, 1)
                 if list(text_faults(read_line(line)[0] or {}))}
        self.assertEqual(found, invalid_lines(answers(b"\n".join(lines)), TEXT_FAULTS))

    def test_worked_scripts(self):
        self.assertGreater(sum(self.agrees(str(name), script) for name, script in scripts()), 5)

    def test_random_lines(self):
        chance = random.Random(7)
        refused = self.agrees("random", b"\n".join(random_line(chance) for _ in range(20_000)))
        self.assertTrue(4_000 < refused < 16_000, refused)


if __name__ == "__main__":
    unittest.main()
