#!/usr/bin/env python3
"""Runs the built mqroute-acl on the example of examples/access-list and on faulty lists, and
compares what it writes and its statuses; then on random small lists, beside a check of every
client, user and topic of few levels.
"""
import json
import pathlib
import sys
import tempfile

from coloured import faults_of_colours
from faults import is_absent, status_of
from plain_lists import MosquittoRules, OwnRules
from random_lists import PROGRAM, faults_of_known_pairs, faults_of_random, no_command, run

TOP = pathlib.Path(__file__).resolve().parent.parent
EXAMPLE = TOP / "examples/access-list"

# The walk-through: arguments, status, and what is written.
WALK = [
    (["compare", "current.acl", "proposed.acl"], 1, """\
no user name; user plc; other users
  may now read        mill/notes
    current.acl      no line allows it
    proposed.acl:15  pattern read mill/notes
no user name
  may no longer read  for example mill/energy
    current.acl:4    topic read mill/energy/#
    proposed.acl     no line allows it
user plc
  may now write       for example mill/<level>/<level>/state
    current.acl      no line allows it
    proposed.acl:10  topic write mill/+/+/state
3 differences
"""),
    (["compare", "--only", "lost", "current.acl", "proposed.acl"], 1, """\
no user name
  may no longer read  for example mill/energy
    current.acl:4  topic read mill/energy/#
    proposed.acl   no line allows it
1 lost
"""),
    (["compare", "current.acl", "current.acl"], 0,
     "by mqroute's own rules both lists allow the same, on every topic, to every client id and "
     "user name a broker can have\n"),
    (["why", "current.acl", "screen", "mill/energy/east"], 0, """\
client screen, no user name, topic mill/energy/east
may read: current.acl:4  topic read mill/energy/#
may not write: no line allows it
"""),
    (["why", "current.acl", "press", "mill/line1/press/secret", "--user", "plc"], 0, """\
client press, user plc, topic mill/line1/press/secret
may not read: current.acl:13  topic deny mill/+/+/secret
may not write: current.acl:13  topic deny mill/+/+/secret
    would be allowed by current.acl:11  topic write mill/line1/#
"""),
    (["why", "--json", "current.acl", "press", "mill/line1/press/secret", "--user=plc"], 0, """\
{"access":"read","allowed":false,\
"deny":{"file":"current.acl","line":13,"text":"topic deny mill/+/+/secret"},"grant":null}
{"access":"write","allowed":false,\
"deny":{"file":"current.acl","line":13,"text":"topic deny mill/+/+/secret"},\
"grant":{"file":"current.acl","line":11,"text":"topic write mill/line1/#"}}
"""),
    (["why", "current.acl", "screen", "mill/energy/east", "--may", "write"], 1, """\
client screen, no user name, topic mill/energy/east
may read: current.acl:4  topic read mill/energy/#
may not write: no line allows it
"""),
    (["lint", "current.acl"], 0,
     "current.acl: nothing to remark: by mqroute's own rules no line is faulty or odd, repeats "
     "another, denies nothing or is needless, for any client id and user name a broker can have\n"),
    (["lint", "proposed.acl"], 1,
     "proposed.acl:15: a pattern line without %c and %u applies to every client\n"
     "    pattern read mill/notes\n"),
    (["lint", "--json", "proposed.acl"], 1, """\
{"file":"proposed.acl","kind":"no mark","line":15,"other":null,"text":"pattern read mill/notes",\
"words":"a pattern line without %c and %u applies to every client"}
"""),
    (["reach", "current.acl", "screen", "mill/+/east"], 0,
     "client screen, no user name: mill/+/east can be sent mill/energy/east\n"),
    (["reach", "current.acl", "press", "mill/line1/#", "--user", "plc"], 1,
     "client press, user plc: mill/line1/# can be sent nothing\n"),
    (["reach", "current.acl", "press", "mill/line1/#", "--user", "Plc"], 1,
     "client press, user Plc: mill/line1/# can be sent nothing\n"
     "no line names user Plc; plc?\n"),
    (["reach", "current.acl", "--any", "mill/orders/#"], 1,
     "any client id, no user name: mill/orders/# can be sent mill/orders/<client id>\n"
     "    current.acl:16  pattern read mill/orders/%c\n"),
    (["reach", "current.acl", "--any", "mill/line1/#", "--user", "plc"], 0,
     "any client id, user plc: mill/line1/# can be sent nothing\n"),
    (["reach", "--json", "current.acl", "--any", "mill/line1/#", "--user", "plc"], 0,
     '{"client":null,"filter":"mill/line1/#","line":null,"placeholders":[],"topic":null,'
     '"user":"plc"}\n'),
    (["reach", "--json", "current.acl", "press", "$share/g/mill/orders/+", "--user=plc"], 0,
     '{"filter":"$share/g/mill/orders/+","topic":"mill/orders/press"}\n'),
    (["reach", "current.acl", "--script", "day.jsonl"], 1, """\
day.jsonl:7   press  user plc      mill/line1/#
day.jsonl:11  wall   no user name  mill/line1/press/state
2 of 5 subscriptions can receive nothing
"""),
    (["reach", "--json", "current.acl", "--script=day.jsonl"], 1, """\
{"client":"press","file":"day.jsonl","filter":"mill/line1/#","line":7,"user":"plc"}
{"client":"wall","file":"day.jsonl","filter":"mill/line1/press/state","line":11,"user":null}
{"first_invalid_line":null,"invalid_lines":0,"receive_nothing":2,"subscriptions":5}
"""),
]

# A script with few subscriptions that can receive nothing and few invalid lines: its lines, and
# what is shown under a list that grants `a`.
ODD_SCRIPT = """\
{"do":"subscribe","client":"c","filter":"b"}

{"do":"connect","client":"c"}
{"do":"subscribe","client":"c","filter":"a"}
{"do":"acl","text":""}
{"do":"subscribe","client":"c","filter":"#"}
{"do":"subscribe","client":"c","filter":"a/#/b"}
{"do":"subscribe","client":"c","filter":"$share/g/b","no_local":true}
{"do":"connect","client":"c","user":"u\\u0000"}
{"do":"subscribe","client":"c","filter":"$share/g/a"}
{"do":"connect","client":"","user":"u"}
{"do":"subscribe","client":"","filter":"a"}
"""

# What is shown of lines by lint: their text, and what is shown.
REMARKED = """\
topic rw a
pattern read a
  # indented
topic\tread b
user
"""
REMARKS = """\
a.acl:1: unknown access "rw": expected read, write, readwrite or deny
    topic rw a
a.acl:2: a pattern line without %c and %u applies to every client
    pattern read a
a.acl:3: mosquitto 2.0 takes # for a comment in the first column only
    # indented
a.acl:4: mosquitto 2.0 separates words by spaces only, not by tabs
    topic\\u{9}read b
a.acl:5: the user name is missing
    user
"""
# What mosquitto does with a list that it doesn't take, and what is said of it last.
RELOAD = ("DON'T RELOAD {}: mosquitto 2.0.11 drops a list with a faulty line, and then allows "
          "everything to everybody. It doesn't start with it either.")
DROPPED = "mqroute-acl: {}: mosquitto doesn't take this list\n"
NEEDLESS = """\
topic read a/#
topic read a/b
topic deny c/+
topic deny c/d
topic read c/d
"""

# Lists that are refused: their text, what is shown of the first faulty line, and whether mosquitto
# takes them.
FAULTY = [
    ("topic rw a\n", '1: unknown access "rw": expected read, write, readwrite or deny', False),
    ("\ntopics read a\n", '2: unknown keyword "topics": expected topic, pattern or user', False),
    ("topic read\n\ntopic\n", "3: the topic is missing", False),
    ("topic read a/#/b\n", '1: "a/#/b" is not a topic filter', False),
    ("user\n", "1: the user name is missing", False),
    ("pattern read a%c/b\n", '1: %c and %u must be whole levels: "a%c/b"', True),
    ("topic read a\ntopic read " + "b" * 301 + "\n",
     "2: a level or a user name of more than 300 bytes", True),
]

# Lists that aren't UTF-8, and the line of the first byte that isn't.
NO_TEXTS = [(b"topic read \xe9\n", 1), (b"topic read \xc3\xa9\n\ntopic read \xc3\n", 3),
            (b"# \xf0\x9f\x98\x80\n\xff\n\xfe\n", 2),
            (b"user a\n\xe2\x82", 2)]

NO_FILE, A_FOLDER = "No such file or directory (os error 2)", "Is a directory (os error 21)"
TWICE = "error: standard input can be only one of the files: - stands more than once"

# Words that are not understood, and a part of what is shown.
MISUSED = [
    ([], "requires a subcommand"),
    (["compare", "current.acl"], "<NEW>"),
    (["melt", "current.acl"], "melt"),
    (["why", "current.acl", "c", "a/#"], '"a/#" is not a topic name'),
    (["reach", "current.acl", "c", "a/#/b"], '"a/#/b" is not a topic filter'),
    (["reach", "current.acl", "c", "$share/g"], '"$share/g" is not a topic filter'),
    (["reach", "current.acl", "c" * 301, "mill/energy/#"],
     "a client id, a user name or a level of more than 300 bytes"),
    (["reach", "current.acl", "c", "mill/energy/" + "b" * 301],
     "a client id, a user name or a level of more than 300 bytes"),
    (["why", "nowhere.acl", "c", "a"], f"mqroute-acl: nowhere.acl: {NO_FILE}\n"),
    (["compare", "current.acl", "."], f"mqroute-acl: .: {A_FOLDER}\n"),
    (["compare", "current.acl/a", "current.acl"],
     "mqroute-acl: current.acl/a: Not a directory (os error 20)\n"),
    (["lint"], "<LIST>..."),
    (["lint", "proposed.acl", "nowhere.acl", "current.acl"],
     f"mqroute-acl: nowhere.acl: {NO_FILE}\n"),
    (["compare", "-", "-"], TWICE),
    (["lint", "-", "current.acl", "-"], TWICE),
    (["reach", "-", "--script", "-"], TWICE),
    (["compare", "--steps", "few", "current.acl", "proposed.acl"], "'few' for '--steps <N>'"),
    (["lint", "--steps", "-1", "current.acl"], "'-1'"),
    (["why", "--steps", "1", "current.acl", "c", "a"], "--steps"),
    (["why", "--may", "both", "current.acl", "c", "a"], "'both' for '--may <ACCESS>'"),
    (["compare", "--only", "new", "current.acl", "proposed.acl"], "'new' for '--only <WAY>'"),
    (["who", "--access", "all", "current.acl", "#"], "'all' for '--access <ACCESS>'"),
    (["reach", "current.acl"], "CLIENT and FILTER, or --any FILTER, or --script SCRIPT"),
    (["reach", "current.acl", "c"], "CLIENT and FILTER, or --any FILTER, or --script SCRIPT"),
    (["reach", "current.acl", "c", "a", "--script", "day.jsonl"],
     "CLIENT and FILTER, or --any FILTER, or --script SCRIPT"),
    (["reach", "current.acl", "c", "--script", "day.jsonl"],
     "CLIENT and FILTER, or --any FILTER, or --script SCRIPT"),
    (["reach", "current.acl", "--script", "day.jsonl", "--user", "u"],
     "CLIENT and FILTER, or --any FILTER, or --script SCRIPT"),
    (["reach", "--script", "day.jsonl"], "<LIST>"),
    (["reach", "nowhere.acl", "--script", "day.jsonl"], f"mqroute-acl: nowhere.acl: {NO_FILE}\n"),
    (["reach", "current.acl", "--script", "nowhere.jsonl"],
     f"mqroute-acl: nowhere.jsonl: {NO_FILE}\n"),
    (["reach", "current.acl", "--script", "."], f"mqroute-acl: .: {A_FOLDER}\n"),
    (["reach", "current.acl", "--script", "proposed.acl"],
     "mqroute-acl: proposed.acl: no line of 15 is a command\n"),
    (["reach", "current.acl", "--script", "-"], "mqroute-acl: -: no line of 0 is a command\n"),
    (["compare", "current.acl", "proposed.acl", "--script", "nowhere.jsonl"],
     f"mqroute-acl: nowhere.jsonl: {NO_FILE}\n"),
    (["compare", "current.acl", "proposed.acl", "--script", "current.acl"],
     "mqroute-acl: current.acl: no line of 16 is a command\n"),
    (["compare", "current.acl", "-", "--script", "-"], "standard input can be only one"),
    (["who", "current.acl", "#", "--script", "."], f"mqroute-acl: .: {A_FOLDER}\n"),
    (["who", "-", "#", "--script", "-"], "standard input can be only one"),
]


def by_own(words):
    """The same, by our own rules."""
    return [words[0], "--rules", "own", *words[1:]]


def faults_of_walk():
    for words, status, wanted in WALK:
        done = run(by_own(words), EXAMPLE)
        if (done.returncode, done.stdout, done.stderr) != (status, wanted, ""):
            yield f"{' '.join(words)}: status {done.returncode}\n{done.stdout}{done.stderr}"


def faults_of_input():
    """Each example answers the same where one of its files is standard input, but for the
    file's name and the columns."""
    for words, status, wanted in WALK:
        for place in (n for n, word in enumerate(words) if word.endswith((".acl", ".jsonl"))):
            name = words[place].removeprefix("--script=")
            asked = [*words[:place], words[place].replace(name, "-"), *words[place + 1:]]
            done = run(by_own(asked), EXAMPLE, given=(EXAMPLE / name).read_text())
            if (done.returncode, done.stdout.split(), done.stderr) != (
                    status, wanted.replace(name, "-").split(), ""):
                yield f"{' '.join(asked)}: status {done.returncode}\n{done.stdout}{done.stderr}"


def faults_of_several(folder):
    """Of several files each is remarked on, in their order, and none where one
    of them can't be read."""
    files = {"a.acl": REMARKED, "b.acl": "topic read a\n", "-": "topic\n"}
    for name in ("a.acl", "b.acl"):
        pathlib.Path(folder, name).write_text(files[name])
    missing = "-:1: the topic is missing\n    topic\n"
    none = ("b.acl: nothing to remark: by mqroute's own rules no line is faulty or odd, repeats "
            "another, denies nothing or is needless, for any client id and user name a broker can "
            "have\n")
    said = {"a.acl": REMARKS + RELOAD.format("a.acl") + "\n", "b.acl": none,
            "-": missing + RELOAD.format("-") + "\n"}
    for names in (["b.acl"], ["b.acl", "b.acl"], ["a.acl", "-"], ["-", "a.acl"],
                  ["b.acl", "a.acl", "b.acl"], ["a.acl", "b.acl"]):
        done = run(by_own(["lint", *names]), folder, files["-"])
        dropped = [name for name in names if name != "b.acl"]
        last = DROPPED.format(dropped[0]) if dropped else ""
        if (done.returncode, done.stdout, done.stderr) != (
                2 if dropped else 0, "".join(said[name] for name in names), last):
            yield f"lint {' '.join(names)}: status {done.returncode}:\n{done.stdout}{done.stderr}"
    for names in (["a.acl", "c.acl"], ["c.acl", "a.acl"]):
        done = run(by_own(["lint", *names]), folder)
        if (done.returncode, done.stdout, done.stderr) != (
                2, "", f"mqroute-acl: c.acl: {NO_FILE}\n"):
            yield f"lint {' '.join(names)}: status {done.returncode}:\n{done.stdout}{done.stderr}"
    pathlib.Path(folder, "-").write_text("\ntopic\n")
    done = run(by_own(["lint", "./-"]), folder)
    wanted = f"./-:2: the topic is missing\n    topic\n{RELOAD.format('./-')}\n"
    if (done.returncode, done.stdout, done.stderr) != (2, wanted, DROPPED.format("./-")):
        yield f"lint ./-: status {done.returncode}:\n{done.stdout}{done.stderr}"


def faults_of_remarks(folder):
    pathlib.Path(folder, "a.acl").write_text(REMARKED)
    done = run(by_own(["lint", "a.acl"]), folder)
    wanted = f"{REMARKS}{RELOAD.format('a.acl')}\n"
    if (done.returncode, done.stdout, done.stderr) != (2, wanted, DROPPED.format("a.acl")):
        yield f"lint: status {done.returncode}:\n{done.stdout}{done.stderr}"
    pathlib.Path(folder, "a.acl").write_text(NEEDLESS)
    done = run(by_own(["lint", "--json", "a.acl"]), folder)
    shown = [(each["line"], each["words"]) for each in map(json.loads, done.stdout.splitlines())]
    needless = "needless: without it the list allows the same"
    # each of the last three by itself, and all: without them nothing below c is granted
    wanted = [(2, needless + ", because of line 1"), (3, needless), (4, needless), (5, needless)]
    if (done.returncode, shown) != (1, wanted):
        yield f"lint: status {done.returncode}: {shown}"


def faults_of_refusals(folder):
    for text, shown, is_taken in FAULTY:
        pathlib.Path(folder, "a.acl").write_text(text)
        for words in (["compare", "a.acl", "a.acl"], ["why", "a.acl", "c", "t"]):
            if len(text) > 300 and words[0] == "why":
                continue
            done = run(by_own(words), folder)
            reload = "" if is_taken or words[0] == "why" else f". {RELOAD.format('a.acl')}"
            if (done.returncode, done.stdout, done.stderr) != (
                    2, "", f"a.acl:{shown}{reload}\n"):
                yield (f"{' '.join(words)} of {text[:40]!r}: status {done.returncode}: "
                       f"{done.stdout}{done.stderr}")
    for text, line in NO_TEXTS:
        pathlib.Path(folder, "latin.acl").write_bytes(text)
        done = run(["compare", "latin.acl", "latin.acl"], folder)
        if (done.returncode, done.stderr) != (2, f"latin.acl:{line}: not UTF-8\n"):
            yield f"{text}: status {done.returncode}: {done.stderr}"
    for words, shown in MISUSED:
        done = run(words, EXAMPLE)
        if done.returncode != 2 or done.stdout or shown not in done.stderr:
            yield f"{' '.join(words)}: status {done.returncode}: {done.stdout}{done.stderr}"
    for words in (["--help"], ["help"], ["compare", "--help"], ["help", "why"]):
        done = run(words, EXAMPLE)
        if done.returncode != 0 or done.stderr or "Usage: " not in done.stdout:
            yield f"{' '.join(words)}: status {done.returncode}: {done.stderr}"


def faults_of_odd_scripts(folder):
    """Lines that a broker refuses, that are invalid or too long, and a script
    without a last line feed."""
    pathlib.Path(folder, "a.acl").write_text(
        "topic read a\ntopic read b/" + "c" * 300 + "\ntopic read d/+\n")
    cases = [
        (ODD_SCRIPT, 0, "0 of 3 subscriptions can receive nothing\n", ""),
        ('{"do":"stat"}', 0, "0 of 0 subscriptions can receive nothing\n", ""),
        ("", 2, "", "mqroute-acl: s.jsonl: no line of 0 is a command\n"),
        ("\n\n \n", 2, "", "mqroute-acl: s.jsonl: no line of 3 is a command\n"),
        ("topic read a\n\n# b\nuser c", 2, "", "mqroute-acl: s.jsonl: no line of 4 is a command\n"),
        ('{"do":"connect","client":"c","user":"\u00fc"}\n'
         '{"do":"subscribe","client":"c","filter":"b"}', 1,
         "s.jsonl:2  c  user \u00fc  b\n1 of 1 subscriptions can receive nothing\n", ""),
        ('\nx\n{"do":"connect","client":"c"}\n' + " " * 1_048_577
         + '\n{"do":"subscribe","client":"c","filter":"b"}', 1,
         "s.jsonl:5  c  no user name  b\n2 invalid lines skipped, the first is s.jsonl:2\n"
         "1 of 1 subscriptions can receive nothing\n", ""),
        (" " * 1_048_576
         + '\n{"do":"connect","client":"c"}\n{"do":"subscribe","client":"c","filter":"a"}\nx', 0,
         "1 invalid line skipped: s.jsonl:4\n0 of 1 subscriptions can receive nothing\n", ""),
        ('{"do":"connect","client":"c"}\n{"do":"subscribe","client":"c","filter":"d/' + "b" * 301
         + '"}', 2, "",
         "s.jsonl:2: a client id, a user name or a level of more than 300 bytes\n"),
        # of what no line can grant it is known all the same
        ('{"do":"connect","client":"c"}\n{"do":"subscribe","client":"c","filter":"' + "b" * 301
         + '"}', 1,
         f"s.jsonl:2  c  no user name  {'b' * 301}\n"
         "1 of 1 subscriptions can receive nothing\n", ""),
    ]
    for script, status, shown, failed in cases:
        pathlib.Path(folder, "s.jsonl").write_text(script, encoding="utf-8")
        done = run(by_own(["reach", "a.acl", "--script", "s.jsonl"]), folder)
        if (done.returncode, done.stdout, done.stderr) != (status, shown, failed):
            yield (f"reach --script of {script[:60]!r}: status {done.returncode}: "
                   f"{done.stdout}{done.stderr}")


def faults_of_logs(folder):
    """Logs of mosquitto aren't scripts."""
    pathlib.Path(folder, "a.acl").write_text("topic read a\n")
    logs = [path.read_text(encoding="utf-8")
            for path in sorted((TOP / "brokers/recorded").glob("*.log"))]
    for text in [*logs, "2026-11-27T10:00:00: mosquitto version 2.0.11 starting\n",
                 "2026-11-27 10:00:00"]:
        pathlib.Path(folder, "s.log").write_text(text, encoding="utf-8")
        done = run(["reach", "a.acl", "--script", "s.log"], folder)
        shown = (no_command("s.log", text).rstrip()
                 + "; it looks like a log: see mqroute-log-to-script(1)\n")
        if (done.returncode, done.stdout, done.stderr) != (2, "", shown):
            yield (f"reach --script of {text[:60]!r}: status {done.returncode}: "
                   f"{done.stdout}{done.stderr}")


def main():
    if is_absent("acl", PROGRAM):
        return 1
    count = int(sys.argv[1]) if len(sys.argv) > 1 else 130
    with tempfile.TemporaryDirectory() as folder:
        faults = [*faults_of_walk(), *faults_of_input(), *faults_of_remarks(folder),
                  *faults_of_several(folder), *faults_of_refusals(folder),
                  *faults_of_odd_scripts(folder), *faults_of_logs(folder),
                  *faults_of_colours(folder)]
        for rules in (OwnRules, MosquittoRules):
            faults += faults_of_known_pairs(rules, folder)
            faults += faults_of_random(rules, folder, count)
    sums = (f"{len(WALK)} examples, {len(FAULTY) + len(MISUSED)} refusals, {count} random pairs of "
            f"lists by each set of rules, {len(faults)} faults")
    return status_of("acl", faults, sums)


if __name__ == "__main__":
    sys.exit(main())
