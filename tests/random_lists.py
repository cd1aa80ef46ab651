"""Random small lists asked by mqroute-acl, beside a test of every client, user and topic of few
levels (plain_lists.py)."""
import itertools
import json
import pathlib
import random
import subprocess

from asked_lists import cases_of, faults_of_who
from asked_questions import faults_of_questions
from changed_plans import faults_of_plan
from claimed_lists import faults_of_any, faults_of_claims
from counted_publishes import faults_of_counts
from plain_lists import (
    MosquittoRules, OwnRules, accesses, allowed, deciding, filter_matches, is_wild,
    number_of, rows_of)
from shown_differences import faults_of_placeholders, faults_of_shown, line_of
from worded_answers import faults_of_words, lint_words, reach_words, why_words
from worded_differences import words_of

PROGRAM = pathlib.Path(__file__).resolve().parent.parent / "bin/mqroute-acl"

FAULTY_LINES = ["x", '{"do":"melt"}', '{"do":"connect"}', '{"do":"stat","extra":1}', "[]",
                '{"do":"subscribe","client":"c1"}']


def run(words, folder, given=""):
    return subprocess.run(
        [PROGRAM, *words], cwd=folder, input=given, capture_output=True, text=True, timeout=60)


LEVELS = ["a", "b", "", "$s", "$SYS", "$sharex", "c1", "u1"]
# Names of several levels, and those of which by mosquitto's rules no `pattern` line is asked.
ODD_NAMES = ["a/b", "c1/u1", "a+", "#"]
USERS = [None, "u1", "u2", "zz", *ODD_NAMES]
CLIENTS = ["c1", "a", "u1", "q", "$s", "$SYS", *ODD_NAMES]
PLAIN_NAMES = [name for name in {*CLIENTS, *USERS} - {None} if not is_wild(name)]
TOPICS = sorted(
    {"/".join(levels) for count in (1, 2)
     for levels in itertools.product(LEVELS + ["x", "$x"], repeat=count)} - {""}
    | {*PLAIN_NAMES}
    | {"/".join(levels) for levels in itertools.product(["a", "", "$s", "c1", "u1"], repeat=3)})


CASES = cases_of(USERS, CLIENTS, TOPICS)
WHO_AND_WHAT = CLIENTS, USERS, TOPICS


def random_filter(chance, is_pattern):
    levels = [chance.choice(LEVELS + ["+", "+"] + (["%c", "%u"] if is_pattern else []))
              for _ in range(chance.randint(1, 3))]
    if chance.random() < 0.35:
        levels[-1] = "#"
    return "/".join(levels) or "a"


def random_list(chance):
    lines = []
    for _ in range(chance.randint(0, 6)):
        if chance.random() < 0.2:
            lines.append("user " + chance.choice(["u1", "u2", "a", "a/b", "a+"]))
        is_pattern = chance.random() < 0.4
        access = chance.choice(["read", "write", "readwrite", "deny"])
        lines.append(
            f"{'pattern' if is_pattern else 'topic'} {access} {random_filter(chance, is_pattern)}")
    return lines


def near(chance, lines):
    """The list, with a line or two more or less."""
    lines = list(lines)
    for _ in range(chance.randint(0, 2)):
        if lines and chance.random() < 0.5:
            lines.pop(chance.randrange(len(lines)))
        else:
            lines[chance.randint(0, len(lines)):0] = random_list(chance)[:1]
    return lines


def faults_of_compare(rules, folder, old, new):
    """Of each class of clients, access and way a difference is listed; and where no line has a
    mark, of each pair of lines that decides."""
    done = run(["compare", *rules.words, "--json", "old.acl", "new.acl"], folder)
    shown = [json.loads(line) for line in done.stdout.splitlines()]
    old_rows, new_rows = rows_of(old), rows_of(new)
    for difference in shown:
        for fault in (*faults_of_shown(rules, difference, old_rows, new_rows),
                      *faults_of_placeholders(rules, difference, old_rows, new_rows)):
            yield f"{difference} {fault}"
    if done.returncode != (1 if shown else 0):
        yield f"status {done.returncode}"
    if done.stderr:
        yield f"noted: {done.stderr}"
    named = {row.user for row in old_rows + new_rows} - {None}
    worded = run(["compare", *rules.words, "old.acl", "new.acl"], folder).stdout
    if shown and worded != words_of(rules, shown, named):
        yield f"is worded otherwise than {shown}: {worded}"
    for way in ("gained", "lost"):
        done = run(["compare", *rules.words, "--json", "--only", way, "old.acl", "new.acl"], folder)
        wanted = [each for each in shown if each["change"] == way]
        if ([json.loads(line) for line in done.stdout.splitlines()], done.returncode) != (
                wanted, 1 if wanted else 0):
            yield f"--only {way}: status {done.returncode}: {done.stdout}"
    by_lines = "%" not in old + new

    def kind(user, access, change, *lines):
        whom = user if user is None or user in named else "other users"
        return (whom, access, change, *lines) if by_lines else (whom, access, change)

    kinds = {kind(d["user"], d["access"], d["change"], line_of(d["old"]), line_of(d["new"]))
             for d in shown}
    for user, client, topic in itertools.product(USERS, CLIENTS, TOPICS):
        by_old = accesses(rules, old_rows, client, user, topic)
        by_new = accesses(rules, new_rows, client, user, topic)
        for access in by_old ^ by_new:
            lines = [number_of(deciding(rules, rows, client, user, topic, access)[0])
                     for rows in (old_rows, new_rows)]
            if kind(user, access, "gained" if access in by_new else "lost", *lines) not in kinds:
                yield (f"{user} differs in {access} {topic} as {client} by lines {lines}, which "
                       "isn't listed")
                return


def faults_of_known_pairs(rules, folder):
    """Names that begin with `$` beside others; and as many differences as a list has lines."""
    many = "".join(f"topic read a/{place}\n" for place in range(1000))
    for old, new, count in (
            ("topic read a\n", "topic read a\ntopic read b\ntopic read $SYS/#\n", 2),
            (many, "topic read b\n", 1001)):
        pathlib.Path(folder, "old.acl").write_text(old)
        pathlib.Path(folder, "new.acl").write_text(new)
        yield from faults_of_compare(rules, folder, old, new)
        shown = run(["compare", *rules.words, "old.acl", "new.acl"], folder)
        shown = shown.stdout.splitlines()[-1:]
        whose = " by mosquitto's rules" if rules is MosquittoRules else ""
        if shown != [f"{count} differences{whose}"]:
            yield f"compare: {shown}, not {count} differences"


def asked_of(question, rules, client, user, topic):
    """The words of a question about one client."""
    named = [] if user is None else [f"--user={user}"]
    return [question, *rules.words, "--json", "old.acl", *named, "--", client, topic]


def faults_of_why(rules, folder, chance, text):
    rows = rows_of(text)
    client, user = chance.choice(CLIENTS), chance.choice(USERS)
    topic = chance.choice(TOPICS)
    words = asked_of("why", rules, client, user, topic)
    done = run(words, folder)
    shown = [json.loads(line) for line in done.stdout.splitlines()]
    if done.returncode != 0 or [each["access"] for each in shown] != ["read", "write"]:
        yield f"{words}: status {done.returncode}: {done.stdout}{done.stderr}"
        return
    for each in shown:
        row, grant = deciding(rules, rows, client, user, topic, each["access"])
        deny = row if row and row.access == "deny" else None
        wanted = number_of(deny), number_of(grant)
        if (line_of(each["deny"]), line_of(each["grant"])) != wanted:
            yield f"{words}: {each}, not {deny} and {grant}"
        may = allowed(rules, rows, client, user, topic, each["access"])
        refused = rules.refuses(topic, each["access"])
        if (each["allowed"], each.get("refused", False)) != (may, refused):
            yield f"{words}: {each}"
        asked = run([*words[:-3], "--may", each["access"], *words[-3:]], folder)
        if asked.returncode != (0 if may else 1) or asked.stdout != done.stdout:
            yield f"{words} --may {each['access']}: status {asked.returncode}"
    yield from faults_of_words(run, folder, words, why_words(rows, client, user, topic, shown))


def faults_of_reach(rules, folder, chance, text):
    rows = rows_of(text)
    client, user = chance.choice(CLIENTS), chance.choice(USERS)
    wanted = random_filter(chance, False)
    share = chance.choice(["", "", "$share/g/"])
    words = asked_of("reach", rules, client, user, share + wanted)
    done = run(words, folder)
    shown = json.loads(done.stdout)
    if shown["filter"] != share + wanted or done.returncode != (1 if shown["topic"] is None else 0):
        yield f"{words}: status {done.returncode}: {done.stdout}{done.stderr}"
    yield from faults_of_words(run, folder, words, reach_words(rows, client, user, shown))
    for topic in TOPICS if shown["topic"] is None else [shown["topic"]]:
        found = (filter_matches(wanted, topic)
                 and allowed(rules, rows, client, user, topic, "read"))
        if found == (shown["topic"] is None):
            yield f"{words}: {shown}, and {topic} is {'' if found else 'not '}reached"
            return


# Topics with all that small lists and filters tell apart: no row has more than three levels, %c and
# %u are names.
NAMES = sorted({*LEVELS, *PLAIN_NAMES, "x", "$x"})
DEEP = ["/".join(levels) for count in (2, 3) for levels in itertools.product(NAMES, repeat=count)]
DEEP += [topic + "/x" for topic in DEEP]


def is_reached(rules, rows, client, user, text):
    """Whether the client may read some topic that the subscription's filter matches."""
    wanted = text.split("/", 2)[2] if text.startswith("$share/") else text
    return any(filter_matches(wanted, topic) and allowed(rules, rows, client, user, topic, "read")
               for topics in (TOPICS, DEEP) for topic in topics)


class Sessions:
    """The sessions of clients, and each subscription with the user names of its session while that
    keeps it."""

    def __init__(self):
        self.users, self.kept, self.connected, self.stays = {}, {}, set(), set()
        self.subscriptions = []

    def connect(self, client, user, resumes, stays):
        self.disconnect(client)
        if not resumes:
            self.kept.pop(client, None)
        self.users[client] = user
        self.connected.add(client)
        (self.stays.add if stays else self.stays.discard)(client)
        for subscription in self.kept.setdefault(client, {}).values():
            subscription[-1].append(user)

    def disconnect(self, client):
        if client in self.connected and client not in self.stays:
            self.kept.pop(client, None)
        self.connected.discard(client)

    def subscribe(self, number, client, text):
        if client in self.connected:
            user = self.users[client]
            self.kept[client][text] = (number, client, user, text, [user])
            self.subscriptions.append(self.kept[client][text])

    def unsubscribe(self, client, text):
        if client in self.connected:
            self.kept[client].pop(text, None)


def random_script(chance):
    """The lines of a script, its subscriptions, each with its line, client, user, filter and the
    user names of its session, and its faulty lines."""
    lines, sessions, faulty = [], Sessions(), []
    for number in range(1, chance.randint(2, 18)):
        client, user = chance.choice(CLIENTS), chance.choice(USERS)
        known = [each[3] for each in sessions.subscriptions if each[1] == client]
        kind = chance.random()
        if kind < 0.35:
            resumes, stays = chance.random() < 0.7, chance.random() < 0.7
            sessions.connect(client, user, resumes, stays)
            lines.append(
                {"do": "connect", "client": client} | ({} if user is None else {"user": user})
                | ({"clean": False} if resumes else {}) | ({"session_expiry": 9} if stays else {}))
        elif kind < 0.42:
            sessions.disconnect(client)
            lines.append({"do": "disconnect", "client": client})
        elif kind < 0.47 and known:
            text = chance.choice(known)
            sessions.unsubscribe(client, text)
            lines.append({"do": "unsubscribe", "client": client, "filter": text})
        elif kind < 0.8:
            text = chance.choice(["", "", "$share/g/"]) + random_filter(chance, False)
            if known and chance.random() < 0.2:
                text = chance.choice(known)
            lines.append({"do": "subscribe", "client": client, "filter": text})
            sessions.subscribe(number, client, text)
        elif kind < 0.9:
            lines.append(chance.choice([{"do": "acl", "text": "topic deny #"},
                                        {"do": "publish", "client": client, "topic": "a"}, ""]))
        else:
            lines.append(chance.choice(FAULTY_LINES))
            faulty.append(number)
    return ([line if isinstance(line, str) else json.dumps(line) for line in lines],
            sessions.subscriptions, faulty)


def no_command(name, script):
    """What is shown of a script without a command."""
    lines = script.count("\n") + (script[-1:] not in ("", "\n"))
    return f"mqroute-acl: {name}: no line of {lines} is a command\n"


def faults_of_script(rules, folder, chance, text):
    rows = rows_of(text)
    lines, subscriptions, faulty = random_script(chance)
    script = "\n".join(lines) + chance.choice(["", "\n", "\n\n"])
    pathlib.Path(folder, "s.jsonl").write_text(script)
    unreached = [(number, client, user, text) for number, client, user, text, users in subscriptions
                 if not any(is_reached(rules, rows, client, name, text) for name in users)]
    done = run(["reach", *rules.words, "--json", "old.acl", "--script", "s.jsonl"], folder)
    if all(line in ("", *FAULTY_LINES) for line in lines):
        if (done.returncode, done.stdout, done.stderr) != (2, "", no_command("s.jsonl", script)):
            yield f"reach --script: status {done.returncode}: {done.stdout}{done.stderr}\n{script}"
        return
    *shown, counts = [json.loads(line) for line in done.stdout.splitlines()] or [None]
    wanted = {"receive_nothing": len(unreached), "subscriptions": len(subscriptions),
              "invalid_lines": len(faulty), "first_invalid_line": faulty[0] if faulty else None}
    if done.returncode != (1 if unreached else 0) or counts != wanted:
        yield f"reach --script: status {done.returncode}, {counts}, not {wanted}\n{script}"
    if done.stderr:
        yield f"reach --script: noted: {done.stderr}"
    found = [(each["line"], each["client"], each["user"], each["filter"]) for each in shown]
    if found != unreached or any(each["file"] != "s.jsonl" for each in shown):
        yield f"reach --script: {shown}, not {unreached}\n{script}"


def faults_of_needless(rules, folder, lines):
    """Lines that repeat others are listed, and no others as such. What a line denies that is listed
    as denying nothing, no line grants. Without a line that is listed as needless, and those that
    repeat it, a list allows the same; and so it does without all of these."""
    done = run(["lint", *rules.words, "--json", "old.acl"], folder)
    rows = rows_of("\n".join(lines))
    shown = [json.loads(line) for line in done.stdout.splitlines()]
    counted = [each for each in shown if each["kind"] != "denies nothing"]
    kinds = ("needless", "repeats", "no mark", "empty")
    if (done.returncode != (1 if counted else 0)
            or any(each["kind"] not in kinds for each in counted)):
        yield f"lint: status {done.returncode}: {done.stdout}{done.stderr}"
    if done.stderr:
        yield f"lint: noted: {done.stderr}"
    if shown:
        words = ["lint", *rules.words, "--json", "old.acl"]
        yield from faults_of_words(run, folder, words, lint_words(shown))
    if bool([each for each in shown if each["kind"] == "empty"]) != (not rows):
        yield f"lint: {lines} allow something, or nothing"
    of_kind = {kind: {each["line"]: each["other"] for each in shown if each["kind"] == kind}
               for kind in ("needless", "repeats", "denies nothing")}
    repeats = {}
    for place, row in enumerate(rows):
        first = next((other.number for other in rows[:place] if other.same(row)), None)
        if first is not None:
            repeats[row.number] = first
    if of_kind["repeats"] != repeats:
        yield f"lint: {of_kind['repeats']}, not {repeats}"
    for row in rows:
        others = [other for other in rows if not other.same(row)]
        grants = [other for other in others if other.access != "deny"]
        for user, client, topic in itertools.product(USERS, CLIENTS, TOPICS):
            if (row.number in of_kind["denies nothing"]
                    and rules.covers(row, client, user, topic)
                    and any(rules.covers(other, client, user, topic) for other in grants)):
                yield f"lint: line {row.number} denies {user} {topic} as {client}"
                break
            if (row.number in of_kind["needless"]
                    and accesses(rules, rows, client, user, topic)
                    != accesses(rules, others, client, user, topic)):
                yield f"lint: line {row.number} isn't needless: {user} {topic} as {client}"
                break
    called = [row for row in rows if row.number in of_kind["needless"]]
    left = [row for row in rows if not any(row.same(other) for other in called)]
    for user, client, topic in itertools.product(USERS, CLIENTS, TOPICS):
        if (accesses(rules, rows, client, user, topic)
                != accesses(rules, left, client, user, topic)):
            yield f"lint: not needless together: {user} {topic} as {client}"
            break


def faults_of_random(rules, folder, count):
    for seed in range(count):
        chance = random.Random(seed)
        lines = random_list(chance)
        others = near(chance, lines) if chance.random() < 0.7 else random_list(chance)
        old, new = "\n".join(lines), "\n".join(others)
        pathlib.Path(folder, "old.acl").write_text(old)
        pathlib.Path(folder, "new.acl").write_text(new)
        faults = itertools.chain(
            faults_of_compare(rules, folder, old, new), faults_of_why(rules, folder, chance, old),
            faults_of_questions(
                rules, run, folder, random.Random(seed), rows_of(old), WHO_AND_WHAT),
            faults_of_reach(rules, folder, chance, old),
            faults_of_script(rules, folder, chance, old),
            faults_of_needless(rules, folder, lines),
            faults_of_who(rules, run, folder, random_filter(chance, True), rows_of(old), CASES,
                          chance.choice([["-"], ["u1"], ["*"], ["-", "u2", "*"]])),
            faults_of_claims(rules, run, folder, chance, random_filter, rows_of(old), CASES),
            faults_of_any(rules, run, folder, chance.choice(USERS), random_filter(chance, True),
                          rows_of(old), CASES),
            faults_of_counts(rules, run, folder, chance, TOPICS, random_filter(chance, True),
                             [rows_of(old), rows_of(new)], CASES))
        if rules is OwnRules:
            faults = itertools.chain(
                faults, faults_of_plan(run, folder, chance, rows_of(old), rows_of(new), CASES))
        for fault in faults:
            yield f"seed {seed}: {' '.join(rules.words)} {fault}\n{old}\n--\n{new}"
