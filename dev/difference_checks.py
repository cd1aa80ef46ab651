#!/usr/bin/env python3
"""Asks a mosquitto about what `mqroute-acl compare --rules mosquitto` says of random pairs of
access lists: whether what it shows is so, and whether it leaves something out.

Each pair has a mosquitto of its own, on a loopback port, which gets one list after the other.
Random clients are asked about random topics (access_checks.py says how), and so are the client and
the topic of each difference that is shown. A difference that is shown has to be seen. One that is
seen has to be shown for clients of the same kind: those without a user name, those of a user name
that a line is for, and all others.

What isn't answered is counted: lists that mosquitto drops or that have a mark inside a level.
"""
import json
import pathlib
import random
import subprocess
import sys
import tempfile
from dataclasses import dataclass

from access.broker import asked
from access.lists import Client, Group, is_kept, line, random_group, random_list
from access.run import parser_of, run
from access.seen import seeded_of

TOP = pathlib.Path(__file__).resolve().parent.parent
PATIENCE = 120  # seconds that an answer may take
BLANKS = " \t\v\f\r"


@dataclass
class Sums:
    checks: int = 0
    pairs: int = 0
    unanswered: int = 0
    shown: int = 0
    seen: int = 0
    faults: int = 0

    def in_words(self):
        return (f"{self.checks:,} checks of {self.pairs:,} pairs ({self.shown:,} differences "
                f"shown, {self.seen:,} seen), {self.unanswered:,} further pairs not answered, "
                f"{self.faults:,} faults")


def changed(chance, group, text):
    """The list with a line less, a line more, or another one."""
    lines = text.splitlines()
    place = chance.randrange(len(lines))
    behind = place + chance.randint(0, 1)
    lines[place:behind] = [line(chance, group) for _ in range(chance.choice((0, 1, 1)))]
    return "\n".join(lines) + "\n"


def shown_by(program, folder, old, new):
    """The differences that are shown; none where there is no answer."""
    for name, text in ("old.acl", old), ("new.acl", new):
        (folder / name).write_text(text, encoding="utf-8")
    done = subprocess.run(
        [program, "compare", "--rules", "mosquitto", "--json", "old.acl", "new.acl"], cwd=folder,
        capture_output=True, encoding="utf-8", timeout=PATIENCE)
    if done.returncode not in (0, 1):
        return None
    return [json.loads(one) for one in done.stdout.splitlines()]


def listed_users(*texts):
    """The user names that `topic` lines are for."""
    listed = set()
    for text in texts:
        user = None
        for one in text.split("\n"):
            keyword, _, rest = one.rstrip(BLANKS).lstrip(" ").partition(" ")
            if keyword == "user":
                user = rest.strip(BLANKS)
            elif keyword == "topic":
                listed.add(user)
    return listed


def kind_of(user, listed):
    if user is None:
        return "no user name"
    return f"user {user}" if user in listed else "other users"


def allowed(group, seen):
    """What a list allows: (client, topic, access)."""
    found = {(*one, "write") for one in seen.write} | {(*one, "read") for one in seen.read}
    return {(group.clients[client], group.topics[topic], access) for client, topic, access in found}


def batches_of(clients):
    """The clients in groups: a broker has one at a time with a client id."""
    batches = []
    for client in clients:
        free = (one for one in batches if client.name not in {other.name for other in one})
        batch = next(free, None)
        if batch is None:
            batches.append([client])
        else:
            batch.append(client)
    return batches


def seen_of(options, folder, groups, texts):
    """What each list allows the clients of all groups."""
    both = [set() for _ in texts]
    for group in groups:
        with asked(options.broker, group, folder) as mosquitto:
            for found, text in zip(both, texts):
                found |= allowed(group, mosquitto.seen(text))
    return both


def faults_of(topics, shown, before, after, listed):
    """Each difference that is only shown, or only seen, in words."""
    readable = {topic for topic in topics if not is_kept(topic)}
    seen = {(*one, "lost") for one in before - after} | {(*one, "gained") for one in after - before}
    kinds = set()
    for one in shown:
        client = Client(one["client"], one["user"])
        kinds.add((kind_of(client.user, listed), one["access"], one["change"]))
        is_asked = one["access"] == "write" or one["topic"] in readable
        if is_asked and (client, one["topic"], one["access"], one["change"]) not in seen:
            yield "shown, not seen", one
    for client, topic, access, change in seen:
        user = client.user or None
        if (kind_of(user, listed), access, change) not in kinds:
            yield "seen, not shown", (client, topic, access, change)


def ask_pair(options, chance, sums):
    group = random_group(chance)
    old = random_list(chance, group)
    new = changed(chance, group, old)
    with tempfile.TemporaryDirectory() as name_of_it:
        folder = pathlib.Path(name_of_it)
        shown = shown_by(options.mqroute_acl, folder, old, new)
        if shown is None:
            sums.unanswered += 1
            return
        clients = dict.fromkeys([*group.clients,
                                 *(Client(one["client"], one["user"]) for one in shown)])
        topics = sorted({*group.topics, *(one["topic"] for one in shown)})
        groups = [Group(batch, group.shapes, topics) for batch in batches_of(clients)]
        both = seen_of(options, folder, groups, (old, new))
    found = list(faults_of(topics, shown, *both, listed_users(old, new)))
    for words, one in found:
        print(f"{words}: {one}\n  old {old!r}\n  new {new!r}", flush=True)
    sums.pairs += 1
    sums.checks += 2 * len(clients) * (len(topics) + len(seeded_of(groups[0])))
    sums.shown += len(shown)
    sums.seen += len(both[0] ^ both[1])
    sums.faults += len(found)


def main():
    parser = parser_of(__doc__)
    parser.add_argument("--mqroute-acl", default=TOP / "bin/mqroute-acl", metavar="PROGRAM")
    parser.add_argument("--pairs", type=int, default=1000, metavar="N",
                        help="end after so many pairs that are answered (default 1000)")
    options = parser.parse_args()
    chance, sums = random.Random(options.seed), Sums()

    def ask_all():
        while sums.pairs < options.pairs:
            ask_pair(options, chance, sums)

    return run("difference_checks", ask_all, sums)


if __name__ == "__main__":
    sys.exit(main())
