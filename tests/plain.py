#!/usr/bin/env python3
"""Compares mqroute with the plain reader (tools/mqroute_tools/plain) on random lines, to the byte.

    tests/plain.py [--lines N] [--seed N]

The scripts are those that mqroute-search makes, with access lists of both rules, limits, and time
that passes; every tenth line is broken: by other values and types, names that are none, JSON that
is none, and bytes.
"""
import argparse
import json
import os
import pathlib
import random
import subprocess
import sys
import tempfile

TOP = pathlib.Path(__file__).resolve().parent.parent
sys.path.insert(0, str(TOP / "tools"))
from mqroute_tools.plain.reader import Reader  # noqa: E402
from mqroute_tools.plain.world import FaultyList  # noqa: E402
from mqroute_tools.script.oracle import LINES  # noqa: E402
from mqroute_tools.search.parts import ACCESS, ALL, MARKS, Use  # noqa: E402
from mqroute_tools.search.random_scripts import Maker  # noqa: E402

PROGRAM = os.environ.get("MQROUTE") or str(TOP / "bin/mqroute")
SCRIPTS = 3  # of the maker's in one script: the second meets what the first has left
BROKEN = 0.1
VALUES = (None, True, False, 0, 1, 2, 3, -1, 0.0, 1.5, 1e300, 2**31, 2**32 - 1, 2**32, 2**64 - 1,
          2**64, "", "x", "0", [], {}, [1], {"a": 1}, "\0", "x" * 65_535, "x" * 65_536,
          "é" * 40_000)
NAMES = ("", "#", "+", "x/#", "#/x", "x+", "+/+", "$share/g/x", "$share//x", "$share/g",
         "$share/g/", "$share/+/x", "$share/g/#", "$SYS/x", "$", "/", "//", "x\0", "/" * 199,
         "/" * 200, "\u00e9", "e\u0301", "\U0001f600", "\x01", "\x7f", "\ufeff")
TEXTS = (b"", b" ", b"\t\r", b"{}", b"[]", b"1", b"null", b"{", b'"', b"nan", b"{\"do\":\"stat\"}x",
         b"\xff", b"\xef\xbb\xbf{\"do\":\"stat\"}", b"{\"do\":\"stat\",}", b"{\"do\":\"stat\"} \r",
         b"[" * 127 + b"]" * 127, b"[" * 128 + b"]" * 128, b"{\"do\":\"fly\"}",
         b"{\"do\":\"advance\",\"seconds\":1e3}", b"{\"do\":\"advance\",\"seconds\":-0}",
         b"{\"do\":\"advance\",\"seconds\":1e999}", b"{\"do\":\"advance\",\"seconds\":01}",
         b"{\"do\":\"acl\",\"text\":\"\\ud800\"}", b"{\"do\":\"acl\",\"text\":\"\\ud83d\\ude00\"}",
         b"{\"do\":\"stat\",\"do\":\"stat\"}", b"{\"do\":\"acl\",\"text\":\"a\tb\"}",
         b"{\"do\":\"advance\",\"seconds\":999999999999}", b" " * 1_048_577)
FIELDS = ("client", "user", "clean", "session_expiry", "filter", "qos", "no_local", "rap",
          "handling", "id", "topic", "payload", "retain", "expiry", "text", "seconds", "do", "dup")


def broken(chance, command):
    """The line of a command, with something else in it."""
    kind = chance.randrange(6)
    if kind == 0:
        return chance.choice(TEXTS)
    if kind == 1:
        command = command | {chance.choice(FIELDS): chance.choice(VALUES)}
    elif kind == 2 and {"topic", "filter"} & command.keys():
        command = command | {name: chance.choice(NAMES) for name in ("topic", "filter")
                             if name in command}
    elif kind == 3:
        name = chance.choice(list(command))
        command = {field: value for field, value in command.items() if field != name}
    line = json.dumps(command, ensure_ascii=chance.random() < 0.5).encode()
    if kind > 3:
        at = chance.randrange(len(line))
        line = line[:at] + bytes([chance.choice(b'"{}[]:,0-.eE\\tx \0\x80')]) + line[at + 1:]
    return line.replace(b"\n", b" ")


def timed(chance, command):
    """Where the maker waits in real time, any time may pass here."""
    if command["do"] != "advance" or chance.random() < 0.3:
        return command
    seconds = [0, 1, 2, 249, 250, 999, 1000, 1001, 10**6, 10**12]
    return command | {"seconds": chance.choice(seconds)}


def script(chance, seed, number, use):
    commands = [one for place in range(SCRIPTS)
                for one in Maker(seed, use).script(SCRIPTS * number + place)]
    lines = []
    for command in commands:
        is_broken = chance.random() < BROKEN
        line = json.dumps(timed(chance, command)).encode()
        lines.append(broken(chance, command) if is_broken else line)
        if chance.random() < 0.05:
            lines.append(json.dumps(chance.choice([
                {"do": "stat"}, {"do": "acl"}, {"do": "advance", "seconds": chance.choice(
                    [0, 1, 500, 1000])}])).encode())
    return b"\n".join(lines) + chance.choice([b"\n", b""])


def chosen(chance):
    """The options of a script, and what of MQTT it uses."""
    rules = chance.choice(["own", "own", "mosquitto"])
    without = [] if chance.random() < 0.5 else [ACCESS, MARKS]
    without += [MARKS] if rules == "own" else []
    limits = {"max_retained": chance.choice([None, None, 0, 1, 2]),
              "max_queued": chance.choice([None, None, 0, 1, 2])}
    acl = chance.choice([None, None, None, "pattern readwrite #\n", "user u\ntopic deny x\n",
                         "topic x/#\n", "topic read #\npattern write %c/x\n", "topic x+\n"])
    return {"acl": acl, "rules": rules, **limits}, Use(frozenset(ALL)).without(without)


def by_program(text, options, folder):
    words = [PROGRAM, f"--rules={options['rules']}"]
    words += [f"--{name.replace('_', '-')}={options[name]}"
              for name in ("max_retained", "max_queued") if options[name] is not None]
    if options["acl"] is not None:
        file = pathlib.Path(folder, "acl")
        file.write_text(options["acl"])
        words.append(f"--acl-file={file}")
    done = subprocess.run(words, input=text, capture_output=True)
    return done.stdout, done.returncode


def by_reader(text, options):
    try:
        reader = Reader(**options)
    except FaultyList:
        return b"", 2
    lines = text.split(b"\n")
    out = b"".join(map(reader.answer, lines if lines[-1] else lines[:-1]))
    return out, 1 if reader.has_refused else 0


def different(text, options, ours, theirs):
    """The first line that is answered otherwise, as a text."""
    number = next((number for number, pair in enumerate(zip(
        ours[0].splitlines(), theirs[0].splitlines()), 1) if pair[0] != pair[1]), 0)
    mine, other = ((side[0].splitlines() or [b""])[number - 1] for side in (ours, theirs))
    place = json.loads(mine or b"{}").get("line", 0)
    return (f"plain: {options}\n  script line {place}: {text.splitlines()[place - 1][:300]!r}\n"
            f"  plain reader: {mine[:300]!r}, status {ours[1]}\n"
            f"  mqroute:      {other[:300]!r}, status {theirs[1]}")


def compared(wanted, seed):
    """How many lines were compared, and the scripts that differ, as texts."""
    lines, number, faults = 0, 0, []
    with tempfile.TemporaryDirectory() as folder:
        while lines < wanted:
            chance = random.Random(f"plain/{seed}/{number}")
            options, use = chosen(chance)
            text = script(chance, seed, number, use)
            ours, theirs = by_reader(text, options), by_program(text, options, folder)
            faults += [] if ours == theirs else [different(text, options, ours, theirs)]
            lines, number = lines + text.count(b"\n"), number + 1
    return lines, faults


def main():
    parser = argparse.ArgumentParser(description=__doc__.partition("\n")[0])
    parser.add_argument("--lines", type=int, default=LINES)
    parser.add_argument("--seed", type=int, default=1)
    options = parser.parse_args()
    lines, faults = compared(options.lines, options.seed)
    for fault in faults[:10]:
        print(fault)
    print(f"plain: {lines} lines, {len(faults)} scripts differ")
    return 1 if faults else 0


if __name__ == "__main__":
    sys.exit(main())
