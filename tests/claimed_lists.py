"""What mqroute-acl says of what is expected of a list, and of clients with any id, on random small
lists, beside a test of every client, user and topic of few levels (plain_lists.py)."""
import json
import pathlib
from typing import NamedTuple
from xml.etree import ElementTree

from plain_lists import allowed, deciding, is_asked, is_taken, limits_of, number_of
from worded_answers import any_words, faults_of_words, tested_words

HOLDS = {"": "every", "some ": "some", "not ": "none"}
ACCESSES = {"read": ["read"], "write": ["write"], "readwrite": ["read", "write"]}


class Claim(NamedTuple):
    whom: str
    holds: str
    access: str
    wanted: str
    left_out: tuple[str, ...]

    def line(self):
        left_out = f" except {', '.join(self.left_out)}" if self.left_out else ""
        return f"{self.whom} may {self.holds}{self.access} {self.wanted}{left_out}"


def random_claim(chance, random_filter):
    whom = chance.choice(["anyone", "anyone", "anonymous", "others", "u1", "u2"])
    names = chance.sample(["anonymous", "others", "u1", "u2"], chance.choice([0, 0, 1, 2]))
    return Claim(whom, chance.choice([*HOLDS]), chance.choice([*ACCESSES]),
                 random_filter(chance, True), tuple(names if whom == "anyone" else ()))


def named_in(rows):
    return {row.user for row in rows} - {None}


def is_one(rows, user, whom):
    """Whether the client of this user name, or without one, is meant."""
    kinds = {"anyone": True, "anonymous": user is None,
             "others": user is not None and user not in named_in(rows)}
    return kinds.get(whom, user == whom)


def is_claimed(rules, rows, claim, client, user, topic):
    return (is_one(rows, user, claim.whom)
            and not any(is_one(rows, user, whom) for whom in claim.left_out)
            and is_asked(rules, claim.wanted, client, user, topic))


def unnamed(rows, claim):
    """The first user that the claim means or excepts and the list doesn't name."""
    kinds = {"anyone", "anonymous", "others"} | named_in(rows)
    return next((whom for whom in (claim.whom, *claim.left_out) if whom not in kinds), None)


def is_refused(rules, claim):
    """Whether each client is to be allowed what the broker refuses by itself."""
    return HOLDS[claim.holds] == "every" and any(
        rules.refuses(claim.wanted, access) for access in ACCESSES[claim.access])


def faults_of_shown(rules, rows, claim, shown):
    """What is wrong with the client and the topic that show that the claim doesn't hold."""
    client, user, topic, access = shown["client"], shown["user"], shown["topic"], shown["access"]
    row, _ = deciding(rules, rows, client, user, topic, access)
    may = allowed(rules, rows, client, user, topic, access)
    if (not is_claimed(rules, rows, claim, client, user, topic)
            or access not in ACCESSES[claim.access] or may != (claim.holds == "not ")):
        yield f"test: {claim.line()}: {shown} is no case"
    if (shown["decided"] and shown["decided"]["line"]) != number_of(row):
        yield f"test: {claim.line()}: {shown} is decided by {row}"


def faults_of_verdict(rules, rows, claim, shown, asked_about):
    """What is wrong with what is said of a claim."""
    if (shown["kind"] == "unnamed") != (unnamed(rows, claim) is not None):
        yield f"test: {claim.line()}: {shown}"
    elif (shown["kind"] == "refused") != (
            is_refused(rules, claim) and unnamed(rows, claim) is None):
        yield f"test: {claim.line()}: {shown}"
    if shown["kind"] == "fails":
        yield from faults_of_shown(rules, rows, claim, shown)
    if shown["kind"] not in ("holds", "none may"):
        return
    cases = [case for case in asked_about if is_claimed(rules, rows, claim, *case)]
    for access in ACCESSES[claim.access]:
        if shown["kind"] == "none may" and shown["words"].split()[4] != access:
            continue
        # What the broker refuses by itself isn't asked where each is to be allowed it.
        may = {allowed(rules, rows, *case, access) for case in cases
               if HOLDS[claim.holds] != "every"
               or is_taken(rules, rows, *case[:2]) and not rules.refuses(case[2], access)}
        wrong = {"every": False, "none": True}.get(HOLDS[claim.holds])
        if (True in may if shown["kind"] == "none may" else wrong in may):
            yield f"test: {claim.line()}: {shown}, and {access} {may}"


def faults_of_claims(rules, run, folder, chance, random_filter, rows, asked_about):
    claims = [random_claim(chance, random_filter) for _ in range(3)]
    lines = "".join(claim.line() + "\n" for claim in claims)
    pathlib.Path(folder, "old.expected").write_text(lines)
    done = run(["test", *rules.words, "--json", "--junit", "old.xml", "old.expected", "old.acl"],
               folder)
    shown = [json.loads(line) for line in done.stdout.splitlines()]
    counts, limits = shown[len(claims):len(claims) + 1], shown[len(claims) + 1:]
    shown = shown[:len(claims)]
    hold = sum(each["holds"] for each in shown)
    if (counts != [{"expectations": len(claims), "hold": hold}] or done.stderr
            or limits != limits_of(rules)
            or done.returncode != (0 if hold == len(claims) else 1)):
        yield f"test: status {done.returncode}: {done.stdout}{done.stderr}{lines}"
        return
    yield from faults_of_words(
        run, folder, ["test", *rules.words, "--json", "old.expected", "old.acl"],
        tested_words(rules, [*shown, *counts], named_in(rows)))
    for claim, each in zip(claims, shown):
        yield from faults_of_verdict(rules, rows, claim, each, asked_about)
    suite = ElementTree.parse(pathlib.Path(folder, "old.xml")).find("testsuite")
    named = [{one.get("name"): one.get("value")} for one in suite.iter("property")]
    if named != limits:
        yield f"test --junit: {named}, not {limits}"
    failing = [case.get("name") for case in suite if case.find("failure") is not None]
    if failing != [each["text"] for each in shown if not each["holds"]]:
        yield f"test --junit: {failing} of {lines}"


def faults_of_any(rules, run, folder, user, wanted, rows, asked_about):
    """Of clients with any id."""
    named = [] if user is None else [f"--user={user}"]
    done = run(["reach", *rules.words, "--json", "old.acl", f"--any={wanted}", *named], folder)
    if user is not None and user not in named_in(rows):
        if (done.returncode, done.stdout) != (2, ""):
            yield f"reach --any {wanted}: user {user}: status {done.returncode}: {done.stdout}"
        return
    shown = json.loads(done.stdout)
    if done.returncode != (0 if shown["topic"] is None else 1) or shown["user"] != user:
        yield f"reach --any {wanted}: status {done.returncode}: {shown}"
    yield from faults_of_words(
        run, folder, ["reach", *rules.words, "--json", "old.acl", f"--any={wanted}", *named],
        any_words(shown, named_in(rows)))
    claim = Claim(user or "anonymous", "not ", "read", wanted, ())
    if shown["topic"] is not None:
        decided = shown | {"access": "read", "decided": shown["line"]}
        yield from faults_of_shown(rules, rows, claim, decided)
        return
    for case in asked_about:
        if is_claimed(rules, rows, claim, *case) and allowed(rules, rows, *case, "read"):
            yield f"reach --any {wanted}: {case} isn't found"
            return
