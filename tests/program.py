#!/usr/bin/env python3
"""Runs the built program as a user would: its arguments, files, texts and exit statuses; lines,
topics and filters at their limits; and access lists in odd forms.
"""
import json
import os
import pathlib
import subprocess
import sys
import tempfile
import time

from faults import is_absent, status_of

TOP = pathlib.Path(__file__).resolve().parent.parent
PROGRAM = TOP / "bin/mqroute"
NAMES = {1: "LineTooLong", 2: "BadJson", 3: "BadCommand", 4: "BadField", 8: "TopicName",
         9: "TopicFilter", 11: "NotAuthorized", 12: "AclLine"}
CONNECT = '{"do":"connect","client":"a"}'
ANSWER = '{"line":1,"reason":0}\n'
SCRIPT = f'{CONNECT}\n{{"do":"publish","client":"a","topic":"b"}}\n'
ALLOWED = ANSWER + '{"line":2,"reason":16}\n'
DENIED = ANSWER + '{"code":11,"line":2,"refused":"NotAuthorized"}\n'
# More messages than may be retained, and a copy that may not wait.
LIMITED = "\n".join([
    CONNECT, '{"do":"connect","client":"b","session_expiry":60}',
    '{"do":"subscribe","client":"b","filter":"t","qos":1}', '{"do":"disconnect","client":"b"}',
    *(f'{{"do":"publish","client":"a","topic":"r/{i}","payload":"x","retain":true}}'
      for i in range(6)),
    '{"do":"publish","client":"a","topic":"t","qos":1}',
    '{"do":"connect","client":"b","clean":false}'])
REASONS = {1: 0, 2: 0, 3: 1, 4: 0, 5: 16, 6: 16, 7: 16, 8: 16, 9: 16, 10: None, 11: 16, 12: 0}
AT_LIMITS = "".join(f'{{"line":{line},"reason":{reason}}}\n' if reason is not None else
                    f'{{"code":14,"line":{line},"refused":"RetainedFull"}}\n'
                    for line, reason in REASONS.items())
FILES = {"script": SCRIPT.encode(), "limited": LIMITED.encode(), "empty": b"",
         "blank": b"\n \n\r\n", "last": f"\n\n{CONNECT}".encode(),
         "list": b"topic a\n", "faulty": b"# c\n\ntopic a b", "bytes": b"\xff",
         "marks": b"pattern x%c/%u%c\n", "tab": b"\ttopic b\n"}
UNKNOWN_RULES = "error: {}\n  [possible values: own, mosquitto]\n\n" \
    "For more information, try '--help'.\n"

# Arguments; what is written, what is shown, and the status. The script is on standard input too.
CASES = [
    ("script", ALLOWED, "", 0),
    ("-", ALLOWED, "", 0),
    ("", ALLOWED, "", 0),
    ("--unbuffered", ALLOWED, "", 0),
    ("empty", "", "", 0),
    ("blank", "", "", 0),
    ("last", '{"line":3,"reason":0}\n', "", 0),
    ("--max-retained 5 --max-queued 0 limited", AT_LIMITS, "", 1),
    ("--acl-file list", DENIED, "", 1),
    ("--acl-file list script", DENIED, "", 1),
    ("nowhere", "", "mqroute: cannot open script nowhere\n", 2),
    (".", "", "mqroute: read fault\n", 3),
    ("--acl-file nowhere neither", "", "mqroute: cannot read access list nowhere\n", 2),
    ("--acl-file .", "", "mqroute: cannot read access list .\n", 2),
    ("--acl-file bytes", "", "mqroute: access list bytes is not UTF-8\n", 2),
    ("--acl-file faulty", "", "mqroute: access list faulty line 3: Access\n", 2),
    ("--acl-file marks", "", "mqroute: access list marks line 1: Pattern\n", 2),
    ("--rules own --acl-file marks", "", "mqroute: access list marks line 1: Pattern\n", 2),
    ("--rules mosquitto --acl-file marks", DENIED, "", 1),
    ("--rules=mosquitto --acl-file tab", "", "mqroute: access list tab line 1: Keyword\n", 2),
    ("--rules mosquitto", ALLOWED, "", 0),
    ("--rules x", "", UNKNOWN_RULES.format("invalid value 'x' for '--rules <RULES>'"), 2),
    ("--rules=", "",
     UNKNOWN_RULES.format("a value is required for '--rules <RULES>' but none was supplied"), 2),
    ("--acl-file long", "", "mqroute: access list long is too long\n", 2),
]
MISUSED = ["--bad", "a b", "--acl-file", "--rules", "--rules Own", "--rules own --rules own",
           "--max-retained x", "--max-retained 4294967296", "--max-queued=-1",
           "--max-retained=-0", "--max-queued=-00"]

# Lines that are refused, with their code.
LINES = [
    ("[]", 3), ("{}", 3), ('{"do":7}', 3), ('{"do":"fly"}', 3), ("[" * 127 + "]" * 127, 3),
    ("[" * 128 + "]" * 128, 2), (b'{"do":"connect","client":"\xff"}', 2),
    (b'{"do":"publish","client":"a","topic":"t","payload":"\xff"}', 2),
    ('{"do":"stat","client":"a"}', 4), ('{"do":"advance"}', 4),
    ('{"do":"advance","seconds":1.0}', 4), ('{"do":"advance","seconds":1e0}', 4),
    ('{"do":"advance","seconds":18446744073709551616}', 4), ('{"do":"connect"}', 4),
    ('{"do":"connect","client":null}', 4), ('{"do":"connect","client":"a","extra":1}', 4),
    ('{"do":"publish","client":"a","topic":"t","retain":1}', 4),
    ('{"do":"publish","client":"a","topic":"t","expiry":4294967296}', 4),
    ('{"do":"subscribe","client":"a","filter":"t","handling":3}', 4),
    ('{"do":"subscribe","client":"a","filter":"t","qos":3}', 4),
    ('{"do":"subscribe","client":"a","filter":"t","qos":1.0}', 4),
    ('{"do":"subscribe","client":"a","filter":"t","qos":-1}', 4),
    ('{"do":"subscribe","client":"a","filter":"t","id":0}', 4),
    ('{"do":"subscribe","client":"a","filter":"t","id":268435456}', 4),
    ('{"do":"subscribe","client":"a","filter":"t","no_local":1}', 4),
    *((CONNECT[:length], 2) for length in range(1, len(CONNECT))), (CONNECT.ljust(1_048_577), 1),
    (CONNECT.ljust(1_100_000), 1), (" " * 1_048_577, 1),
]
# Lines that are commands, or blank.
COMMANDS = [CONNECT + "\r", CONNECT.ljust(1_048_576)]
BLANK = ["", " ", "\r", " \t\r"]

# Topics and filters, and the code with which each is refused.
TOPICS = [("a" * 65_535, None), ("a" * 65_536, 8), ("/" * 199, None), ("/" * 200, 8), ("", 8),
          ("a+", 8), ("a\0", 8), ("/", None), ("$SYS/x", None)]
FILTERS = [("#", None), ("+", None), ("+/tennis/#", None), ("sport/+/player1", None), ("/", None),
           ("sport+", 9), ("sport/tennis#", 9), ("a/#/b", 9), ("$share//t", 9), ("$share/g", 9),
           ("$share/g/", 9), ("$share/+/t", 9), ("$share/g/a#", 9), ("$share", None),
           ("$sharex/g", None), ("$share/g/" + "/" * 199, None), ("$share/g/" + "/" * 200, 9),
           ("$share/g/" + "a" * 65_526, None), ("$share/g/" + "a" * 65_527, 9)]
# A filter, a topic, and whether it matches.
MATCHES = [("sport/+", "sport", False), ("sport/#", "sport", True), ("sport/#", "sport/a/b", True),
           ("+/+", "/finance", True), ("/+", "/finance", True), ("+", "/finance", False),
           ("#", "$SYS/x", False), ("+/x", "$SYS/x", False), ("$SYS/+", "$SYS/x", True),
           ("a/+", "a/$x", True)]

# An access list that has a fault, with its line; or none.
LISTS = [("allow a", 1), ("\ufefftopic a", 1), ("topic a b", 1), ("topic", 1), ("topic read a+", 1),
         ("user", 1), ("pattern read x%u", 1), ("pattern read +%u", 1), ("# c\n\ntopic a b", 3),
         ("topic read\r\npattern read x%u", 2), ("", None), ("topic read x%u", None),
         ("topic read a b", None), ("topic read", None)]
# Deny and grant rows of both kinds, with %u as a first and as a last level; and a list in its usual
# form.
MIXED = ("topic read a/#\npattern deny a/%u\npattern read %u/#\npattern write +/+\n"
         "pattern write $SYS/#\nuser b\ntopic read a/#\n")
USUAL = ("# anonymous clients\ntopic read $SYS/#\n\nuser roger\ntopic foo/bar\n\n# all clients\n"
         "pattern write $SYS/broker/connection/%c/state\n")
# A list, a client, its user name, a topic, and whether it may be read and written.
ACCESS = [
    (MIXED, "b", "b", "b/x", True, True), (MIXED, "n", None, "a/b", True, True),
    (MIXED, "b", "b", "a/b", False, False), (MIXED, "b", "b", "a/c", True, True),
    (MIXED, "p", "+", "b/x", False, True), (MIXED, "s", "$SYS", "$SYS/x", False, True),
    (MIXED, "w", None, "$SYS/x", False, True), (MIXED, "w", None, "$x/y", False, False),
    (MIXED, "w", None, "q", False, False), (USUAL, "c1", "roger", "foo/bar", True, True),
    (USUAL, "c1", "roger", "$SYS/broker/connection/c1/state", False, True),
    (USUAL, "c1", "roger", "$SYS/broker/connection/c2/state", False, False),
    (USUAL, "c1", "roger", "$SYS/x", False, False), (USUAL, "c1", None, "$SYS/x", True, False),
    ("user a b\ntopic x", "c", "a b", "x", True, True),
    ("user a b\ntopic x", "c", "a", "x", False, False),
    (" \ttopic \t readwrite \t a  b \t\r ", "c", None, "a  b", True, True),
    ("pattern %c/#", "a", None, "a", True, True), ("pattern %c/#", "a", None, "a/z", True, True),
    ("pattern %c/#", "a/b", None, "a/b", False, False),
    ("pattern %c/#", "$c", None, "$c/z", False, False),
]

# The same by mosquitto's rules.
LISTS_OF_MOSQUITTO = [
    ("allow a", 1), ("topic read a+", 1), ("topic a b", 1), ("user", 1), ("pattern %c+", 1),
    ("\ttopic a", 1), ("topic\ta", 1), (" # c", 1), ("a\n#c\ntopic a b", 1),
    ("#\n\ntopic a b", 3),
    ("pattern read x%u/%c%c", None), ("  topic a", None), ("topic read\ta", None), ("# c", None),
    ("topic read \ta\t \r", None), ("user  b c ", None), ("", None)]
TOPIC_LINES_FIRST = "pattern deny a/#\ntopic read a/b\ntopic deny a/c\npattern write a/b\n"
ACCESS_OF_MOSQUITTO = [
    ("pattern deny a/b\ntopic a/#\n", "w", None, "a/b", True, True),
    (TOPIC_LINES_FIRST, "w", None, "a/b", True, False),
    (TOPIC_LINES_FIRST, "w", None, "a/c", False, False),
    (TOPIC_LINES_FIRST, "w", "b", "a/b", False, False),
    ("topic a/#\ntopic deny a/b\n", "w", None, "a/b", False, False),
    ("pattern deny a/b\npattern a/#\ntopic read x\n", "w", None, "a/b", False, False),
    ("topic read a\npattern write a\n", "w", None, "a", True, True),
    ("user b\ntopic a\n", "w", None, "a", False, False),
    ("user b\ntopic a\n", "w", "", "a", False, False),
    ("topic a\n", "w", "", "a", True, True),
    ("pattern x%c/y", "a", None, "xa/y", True, True),
    ("pattern x%c/y", "a", None, "x/y", False, False),
    ("pattern %u%c/%c", "a", "b", "ba/a", True, True),
    ("pattern %c/x", "a/b", None, "a/b/x", True, True),
    ("pattern %c/#", "a/b", None, "a/b", True, True),
    ("pattern %c", "+", None, "q", False, False), ("pattern q", "+", None, "q", False, False),
    ("topic q", "+", None, "q", True, True), ("pattern q", "w", "a#", "q", False, False),
    ("pattern %u/x", "w", None, "/x", False, False), ("pattern %u/x", "w", "", "/x", False, False),
    ("pattern %c/x", "$c", None, "$c/x", True, True),
    ("pattern +/x", "$c", None, "$c/x", False, False),
    ("pattern %c/x\ntopic x/%c", "%u", "b", "%u/x", True, True),
    ("topic x/%c", "c", None, "x/c", False, False), ("topic x/%c", "c", None, "x/%c", True, True),
]


def text_of(**fields):
    return json.dumps(fields, separators=(",", ":"))


def run(arguments, script, folder="."):
    """What was written, what was shown, and the status."""
    data = script if isinstance(script, bytes) else script.encode()
    done = subprocess.run(
        [PROGRAM, *arguments.split()], input=data, capture_output=True, cwd=folder, timeout=60)
    return done.stdout.decode(), done.stderr.decode(), done.returncode


def answers(lines, arguments=""):
    """The last answer to each line."""
    script = b"\n".join(line if isinstance(line, bytes) else line.encode() for line in lines)
    written = run(arguments, script)[0]
    found = [json.loads(text) for text in written.splitlines()]
    last = {answer["line"]: answer for answer in found}
    return [last.get(number) for number in range(1, len(lines) + 1)]


def faults_of_arguments(folder):
    for name, data in FILES.items():
        pathlib.Path(folder, name).write_bytes(data)
    with open(pathlib.Path(folder, "long"), "wb") as file:
        file.truncate(16_777_217)
    for arguments, *wanted in CASES:
        found = run(arguments, SCRIPT, folder)
        if list(found) != wanted:
            yield f"mqroute {arguments}: {found}"
    for arguments in MISUSED:
        written, shown, status = run(arguments, SCRIPT, folder)
        if (written, status) != ("", 2) or not shown.startswith("error: "):
            yield f"mqroute {arguments}: {written, shown, status}"
    written, shown, status = run("--help", "")
    if ("Usage: mqroute [OPTIONS] [SCRIPT]" not in written or "--acl-file <FILE>" not in written
            or shown or status):
        yield f"mqroute --help: {written, shown, status}"


def faults_of_devices(folder):
    """A folder as standard input can't be read, and a full device takes nothing."""
    folder_in = os.open(folder, os.O_RDONLY)
    read = subprocess.run([PROGRAM], stdin=folder_in, capture_output=True, timeout=60)
    os.close(folder_in)
    if (read.stdout, read.stderr, read.returncode) != (b"", b"mqroute: read fault\n", 3):
        yield f"mqroute with a folder as its input: {read}"
    for arguments in (["--help"], ["--unbuffered", "script"]):
        with open("/dev/full", "wb") as full:
            shown = subprocess.run(
                [PROGRAM, *arguments], stdout=full, stderr=subprocess.PIPE, cwd=folder, timeout=60)
        if (shown.stderr, shown.returncode) != (b"mqroute: write fault\n", 3):
            yield f"mqroute {arguments} on a full device: {shown}"
    # What can't be shown is left out: the status is as if it had been shown.
    for argument, status in (("nowhere", 2), ("--bad", 2), (".", 3)):
        with open("/dev/full", "wb") as full:
            done = subprocess.run(
                [PROGRAM, argument], stdout=subprocess.PIPE, stderr=full, cwd=folder, timeout=60)
        if (done.stdout, done.returncode) != (b"", status):
            yield f"mqroute {argument}, whose fault can't be shown: {done}"


def faults_of_pieces(folder):
    """An access list that comes byte by byte is read to its end."""
    os.mkfifo(pathlib.Path(folder, "fifo"))
    words = [PROGRAM, "--acl-file", "fifo"]
    with subprocess.Popen(
            words, stdin=subprocess.PIPE, stdout=subprocess.PIPE, cwd=folder) as program:
        with open(pathlib.Path(folder, "fifo"), "wb", buffering=0) as pieces:
            for byte in b"topic a\ntopic b\n":
                pieces.write(bytes([byte]))
                time.sleep(0.01)
        written = program.communicate(SCRIPT.encode(), timeout=60)[0].decode()
        if (written, program.returncode) != (ALLOWED, 0):
            yield f"an access list byte by byte: {written}, {program.returncode}"


def refusal(code):
    return None if code is None else (code, NAMES[code])


def refused(answer):
    return (answer["code"], answer["refused"]) if answer and "code" in answer else None


def faults_of_lines():
    found = answers([line for line, _ in LINES])
    for (line, code), answer in zip(LINES, found):
        if refused(answer) != refusal(code):
            yield f"{line[:80]!r} is answered {answer}"
    for line, answer in zip(COMMANDS + BLANK, answers(COMMANDS + BLANK)):
        if (line in BLANK and answer or line in COMMANDS
                and answer != {"line": COMMANDS.index(line) + 1, "reason": 0}):
            yield f"{line[:80]!r} is answered {answer}"
    texts = {"payload": "a\"b\\\b\f\n\r\té", "topic": "t/\u0001"}
    copy = run("", "\n".join([CONNECT, text_of(do="subscribe", client="a", filter="t/+"),
                              text_of(do="publish", client="a", **texts)]))[0].splitlines()[2]
    if copy != (r'{"client":"a","line":3,"payload":"a\"b\\\b\f\n\r\té","qos":0,"retain":false,'
                r'"topic":"t/\u0001"}'):
        yield f"odd characters are printed as {copy}"


def faults_of_topics():
    lines = ([text_of(do="publish", client="a", topic=topic) for topic, _ in TOPICS]
             + [text_of(do="subscribe", client="a", filter=text) for text, _ in FILTERS])
    for (text, code), answer in zip(TOPICS + FILTERS, answers([CONNECT, *lines])[1:]):
        if refused(answer) != refusal(code):
            yield f"{text[:60]!r} ({len(text)} characters) is answered {answer}"
    for text, topic, wanted in MATCHES:
        lines = [CONNECT, text_of(do="subscribe", client="a", filter=text),
                 text_of(do="publish", client="a", topic=topic)]
        if (answers(lines)[2]["reason"] == 0) != wanted:
            yield f"whether {text} matches {topic}"


def faults_of_access(arguments, lists, access):
    for text, line in lists:
        answer = answers([text_of(do="acl", text=text)], arguments)[0]
        if (refused(answer), answer.get("acl_line")) != (refusal(line and 12), line):
            yield f"the list {text!r} is answered {answer}, {arguments}"
    for text, client, user, topic, *wanted in access:
        user_name = {} if user is None else {"user": user}
        lines = [text_of(do="connect", client=client, **user_name),
                 text_of(do="subscribe", client=client, filter=topic),
                 text_of(do="connect", client="other"),
                 text_of(do="publish", client="other", topic=topic, retain=True, payload="x"),
                 text_of(do="acl", text=text),
                 text_of(do="subscribe", client=client, filter=topic),
                 text_of(do="publish", client=client, topic=topic)]
        written = [json.loads(answer)
                   for answer in run(arguments, "\n".join(lines))[0].splitlines()]
        found = [any(answer["line"] == 6 and "payload" in answer for answer in written),
                 written[-1].get("code") != 11]
        if found != wanted:
            yield (f"{client!r}, user {user!r}, topic {topic!r}, list {text!r}: read and write "
                   f"{found}, {arguments}")


def faults_of_prefixes():
    """A thousand filters with common beginnings, taken out in the order in which they
    were put in and in another."""
    def name(number):
        first, second, third = number % 10, number // 10 % 10, number // 100
        return [f"{first}/{second}/{third}", f"$share/g/{first}/{second}/{third}",
                f"{first}/{second}/{third}/#"][number % 3]
    publish = text_of(do="publish", client="a", topic="6/5/4")
    for step in (1, 387):
        taken = [name(number * step % 1000) for number in range(1000)]
        lines = [
            CONNECT,
            *(text_of(do="subscribe", client="a", filter=name(number)) for number in range(1000)),
            publish,
            *(text_of(do="unsubscribe", client="a", filter=text) for text in taken), publish,
            text_of(do="stat")]
        found = answers(lines)
        if (any(answer.get("reason") != 0 for answer in found[:-2]) or found[-2]["reason"] != 16
                or found[-1]["nodes"] or found[-1]["subscriptions"]):
            yield f"a thousand filters, step {step}: {found[-2:]}"


def main():
    if is_absent("program", PROGRAM):
        return 1
    with tempfile.TemporaryDirectory() as folder:
        os.chmod(folder, 0o755)
        faults = [
            *faults_of_arguments(folder), *faults_of_devices(folder), *faults_of_pieces(folder),
            *faults_of_lines(), *faults_of_topics(), *faults_of_access("", LISTS, ACCESS),
            *faults_of_access("--rules mosquitto", LISTS_OF_MOSQUITTO, ACCESS_OF_MOSQUITTO),
            *faults_of_prefixes()]
    tables = (CASES, MISUSED, LINES, COMMANDS, BLANK, TOPICS, FILTERS, MATCHES, LISTS, ACCESS,
              LISTS_OF_MOSQUITTO, ACCESS_OF_MOSQUITTO)
    tried = sum(map(len, tables)) + 11  # which no table has
    return status_of("program", faults, f"{tried - len(faults)} passed, {len(faults)} failed")


if __name__ == "__main__":
    sys.exit(main())
