"""What mqroute-acl says of who may, on random small lists, beside a test of every client, user and
topic of few levels (plain_lists.py)."""
import itertools
import json

from plain_lists import accesses, allowed, deciding, is_asked, is_taken, limits_of, number_of
from worded_answers import faults_of_words, placeholders_of, who_words


def whom(rows, user):
    """The class of a client's user name."""
    return user if user is None or user in {row.user for row in rows} else "*"


def faults_of_permission(rules, rows, wanted, shown):
    """What is wrong with one that is listed."""
    for each, may in ((shown, True), *((other, False) for other in shown["not"])):
        client, user, topic = each["client"], each["user"], each["topic"]
        row, _ = deciding(rules, rows, client, user, topic, shown["access"])
        if (not is_asked(rules, wanted, client, user, topic)
                or allowed(rules, rows, client, user, topic, shown["access"]) != may
                or (each["line"] and each["line"]["line"]) != number_of(row)
                or whom(rows, user) != whom(rows, shown["user"])):
            yield f"who: {each} isn't so, by {row}"
    unnamed = placeholders_of(rules, rows, wanted, shown)
    if set(shown["placeholders"]) != unnamed:
        yield f"who: {shown} has other placeholders than {unnamed}"


def faults_of_missing(rules, rows, wanted, shown, asked_about):
    """What is allowed and not listed, or listed as every topic though one isn't allowed. Where the
    filter doesn't name what the broker refuses by itself, `every` isn't about that."""
    listed = {(whom(rows, each["user"]), each["access"]) for each in shown}
    whole = {(whom(rows, each["user"]), each["access"]) for each in shown if each["every"]}
    for client, user, topic in asked_about:
        if not is_asked(rules, wanted, client, user, topic):
            continue
        taken = is_taken(rules, rows, client, user)
        may = accesses(rules, rows, client, user, topic)
        for access in ("read", "write"):
            kind = (whom(rows, user), access)
            if rules.refuses(topic, access) and not rules.refuses(wanted, access):
                continue
            if kind not in listed if access in may else taken and kind in whole:
                yield f"who: {user} {access} {topic} as {client} isn't listed rightly: {shown}"
                return


def faults_of_who(rules, run, folder, wanted, rows, asked_about, left_out):
    """Of a filter, and of others than some."""
    words = ["who", *rules.words, "--json", "old.acl"]
    done = run([*words, "--", wanted], folder)
    shown = [json.loads(line) for line in done.stdout.splitlines()]
    refused = [{"refused": access} for access in ("read", "write")
               if rules.refuses(wanted, access)]
    last = refused + limits_of(rules)
    if done.returncode != 0 or done.stderr or shown[len(shown) - len(last):] != last:
        yield f"who {wanted}: status {done.returncode}: {done.stderr}{shown}"
    shown = shown[:len(shown) - len(last)]
    for each in shown:
        yield from faults_of_permission(rules, rows, wanted, each)
    yield from faults_of_missing(rules, rows, wanted, shown, asked_about)
    yield from faults_of_words(run, folder, [*words, "--", wanted],
                               who_words(rules, rows, wanted, shown, last))
    names = ",".join(left_out)
    left = {None if word == "-" else word for word in left_out}
    others = [each for each in shown if whom(rows, each["user"]) not in left]
    done = run([*words, f"--except={names}", "--", wanted], folder)
    if ([json.loads(line) for line in done.stdout.splitlines()], done.returncode) != (
            others + last, 1 if others else 0):
        yield f"who {wanted} --except {names}: status {done.returncode}: {done.stdout}"


def cases_of(users, clients, topics):
    return tuple((client, user, topic)
                 for user, client, topic in itertools.product(users, clients, topics))
