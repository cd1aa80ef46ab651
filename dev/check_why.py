#!/usr/bin/env python3
"""Asks mqroute-why about random scripts, and mends each cause that it shows until the copy comes.

usage: check_why.py [--scripts N] [--seed S]

Of a publish of each script it asks about all clients at once: those that are said to be sent a copy
have to be those that mqroute sends one. Then it asks about each client, changes the script by what
is said to be in the way (another command in front of the line, a line less in the access list, ..)
and asks again, as long as a copy doesn't come. Each cause that is shown has to come later in the
order of the definitions than the one that was mended. Where a line is named by which a client left,
or a session or a subscription ended, mqroute has to answer otherwise before it and behind it.
"""
import argparse
import copy
import json
import pathlib
import random
import sys
from collections import Counter
from dataclasses import dataclass, field

TOP = pathlib.Path(__file__).resolve().parent.parent
sys.path.insert(0, str(TOP / "tools"))

from mqroute_tools.common.exit_status import Fault  # noqa: E402
from mqroute_tools.script.access_list import AccessList  # noqa: E402
from mqroute_tools.script.oracle import Oracle  # noqa: E402
from mqroute_tools.script.topics import matches, plain_filter  # noqa: E402
from mqroute_tools.why.answering import answered  # noqa: E402
from mqroute_tools.why.lines import Question, Script  # noqa: E402

FOREVER, NO_LIMIT = 4_294_967_295, 4_294_967_295
MOST_MENDS = 40
# Those that are mended one after another have to be in this order; of one place they may repeat.
ORDER = [{"ClientId"}, {"NotConnected"}, {"TopicName"}, {"NotAuthorized"}, {"RetainedFull"},
         {"NoSession"}, {"NoSubscription"}, {"NoLocal", "Away"}, {"MayNotRead"}, {"QoS0"},
         {"QueueFull"}, {"Waits", "SessionEnded"}, {"Expired"}, {"Turn"}, {"Sent", "Waited"}]
REPEATED = {"NotAuthorized", "MayNotRead", "Turn"}  # a deny line less, a member less
RANKS = {kind: place for place, kinds in enumerate(ORDER) for kind in kinds}
LISTS = [None, "", "topic readwrite #\ntopic readwrite $x/#\n",
         "topic write #\ntopic read a/#\nuser u\ntopic readwrite #\ntopic deny a/x\n",
         "pattern read a/%c\npattern write #\npattern deny a/%u\n",
         "topic readwrite #\npattern deny a/x\npattern deny +/%c\nuser u\ntopic read #\n",
         "pattern readwrite #\ntopic deny a/#\nuser u\ntopic deny a/x\npattern deny +/%c\n"]
TOPICS = ["a", "a/x", "a/b", "b", "a/u", "$x/y"]
GROUPS = ["$share/g/a/#", "$share/g/a/#", "$share/g/+", "$share/h/#", "$share/g/a/x"]
FILTERS = ["a", "a/#", "+", "a/+", "#", "b", "+/x", "$x/#"]
# A script has filters of all kinds, groups nearly alone, or none of them.
KINDS = [FILTERS + GROUPS, FILTERS[:2] + GROUPS * 2, FILTERS]


@dataclass
class Case:
    """A script and the options that it is asked about with."""
    commands: list[dict]
    acl: str | None
    rules: str
    limits: dict = field(default_factory=dict)

    def oracle(self) -> Oracle:
        return Oracle(acl=self.acl, rules=self.rules, **self.limits)

    def blocks(self) -> list:
        with self.oracle() as oracle:
            return oracle.blocks(self.commands)

    def answers(self, number: int, client: str | None) -> list:
        """What the tool says."""
        lines = [json.dumps(command).encode() + b"\n" for command in self.commands]
        limits = {"max_retained": None, "max_queued": None} | self.limits
        options = argparse.Namespace(rules=self.rules, **limits)
        given = None
        if self.acl is not None:
            given = AccessList("list", self.rules, self.acl.encode())
        asked = Question(Script("script", lines, self.commands), number, client, "script")
        return answered(asked, given, options)

    def put(self, number: int, *commands: dict) -> int:
        """Commands before a line, which gets the number that is given."""
        self.commands[number - 1:number - 1] = commands
        return number + len(commands)

    def user(self, number: int, client: str) -> str | None:
        """Of the last connect before the line that was accepted or not."""
        connects = [command for command in self.commands[:number - 1]
                    if command["do"] == "connect" and command["client"] == client]
        return connects[-1].get("user") if connects else None

    def comes(self, number: int, client: str) -> dict:
        """A connect by which a client is back."""
        user = self.user(number, client)
        return {"do": "connect", "client": client, "clean": False,
                "session_expiry": FOREVER} | ({} if user is None else {"user": user})


# -- random scripts

class Maker:
    """Commands of few clients and topics, of which much stands in the way."""

    def __init__(self, chance: random.Random) -> None:
        self.chance = chance
        self.filters = chance.choice(KINDS)
        self.users = {client: chance.choice([None, None, "u", "v"]) for client in "abc"}

    def connect(self, client: str) -> dict:
        user = self.users.get(client)
        return {"do": "connect", "client": client, "clean": self.chance.random() < 0.25,
                "session_expiry": self.chance.choice([0, 5, FOREVER, FOREVER])} | (
                    {} if user is None else {"user": user})

    def subscribe(self, client: str) -> dict:
        chance, wanted = self.chance, self.chance.choice(self.filters)
        return {"do": "subscribe", "client": client, "filter": wanted, "qos": chance.randint(0, 2),
                "no_local": chance.random() < 0.5 and not wanted.startswith("$share/"),
                "rap": chance.random() < 0.5, "handling": chance.randint(0, 2)}

    def publish(self, client: str) -> dict:
        chance = self.chance
        topic = chance.choice(TOPICS + TOPICS[:3]) if chance.random() < 0.97 else "a/+"
        expiry = chance.choice([{}, {}, {"expiry": chance.choice([0, 5, 9])}])
        return {"do": "publish", "client": client, "topic": topic, "qos": chance.randint(0, 2),
                "retain": chance.random() < 0.4, "payload": chance.choice(["", "1", "2"])} | expiry

    def other(self, client: str) -> dict:
        chance, text = self.chance, self.chance.choice(LISTS)
        return chance.choice([
            self.connect(client), self.connect(client), {"do": "disconnect", "client": client},
            {"do": "disconnect", "client": client},
            {"do": "unsubscribe", "client": client, "filter": chance.choice(self.filters)},
            {"do": "advance", "seconds": chance.choice([1, 4, 5, 5])},
            {"do": "acl"} if text is None else {"do": "acl", "text": text}])


def random_case(chance: random.Random) -> Case:
    maker = Maker(chance)
    commands = [maker.connect(client) for client in "pabc" if chance.random() < 0.9]
    if chance.random() < 0.03:
        commands.append({"do": "publish", "client": "", "topic": "a"})
    for _ in range(chance.randint(8, 40)):
        what = chance.choice(["subscribe", "publish", "other"])
        client = chance.choice("abcppp" if what == "publish" else "abc")
        commands.append(getattr(maker, what)(client))
    limits = {"max_retained": chance.choice([None, None, 1]),
              "max_queued": chance.choice([0, 1, 2, None])}
    rules = chance.choice(["own", "mosquitto"])
    return Case(commands, chance.choice([None, None, *LISTS]), rules, limits)


# -- mending

def set_list(case: Case, number: int) -> str:
    """The list that is in force at a line, as a text."""
    accepted = [not block.refused for block in case.blocks()]
    for command, was in reversed(list(zip(case.commands[:number - 1], accepted))):
        if command["do"] == "acl" and was:
            return command["text"]
    return case.acl or ""


def other_list(case: Case, number: int, client: str, cause, access: str) -> int:
    """Without the line that denies; or with one more, that allows it."""
    text = set_list(case, number)
    deny = cause.verdict.deny
    if deny is not None:
        lines = text.split("\n")
        del lines[deny.line - 1]
        text = "\n".join(lines)
    else:
        user, topic = case.user(number, client), case.commands[number - 1]["topic"]
        line = f"topic {access} {topic}"
        text = f"{line}\n{text}" if user is None else f"{text}\nuser {user}\n{line}"
    return case.put(number, {"do": "acl", "text": text})


def subscribed(case: Case, number: int, client: str) -> int:
    """The client subscribes to the topic, alone or in a group, and is away again where it was."""
    topic = case.commands[number - 1]["topic"]
    groups = [name for name in GROUPS if matches(plain_filter(name), topic)]
    wanted = groups[0] if groups and number % 2 else topic
    one = {"do": "subscribe", "client": client, "filter": wanted, "qos": 2, "handling": 2}
    if case.answers(number, client)[0].causes[0].away:
        return case.put(number, case.comes(number, client), one,
                        {"do": "disconnect", "client": client})
    return case.put(number, one)


def mend_line(case: Case, number: int, cause) -> int:
    """What refuses the line."""
    publish = case.commands[number - 1]
    if cause.kind == "ClientId":
        publish["client"] = "p"
    elif cause.kind == "NotConnected":
        return case.put(number, case.comes(number, publish["client"]))
    elif cause.kind == "TopicName":
        publish["topic"] = "a/x"
    elif cause.kind == "NotAuthorized":
        return other_list(case, number, publish["client"], cause, "write")
    else:
        case.limits["max_retained"] = None
    return number


def mend(case: Case, number: int, client: str, cause) -> int:
    """Changes the script, or its options, by what is said to be in the way. Gives the number that
    the line has then."""
    publish, kind = case.commands[number - 1], cause.kind
    if RANKS[kind] < RANKS["NoSession"]:
        return mend_line(case, number, cause)
    if kind in ("NoSession", "Away"):
        return case.put(number, case.comes(number, client))
    if kind == "NoSubscription":
        return subscribed(case, number, client)
    if kind == "MayNotRead":
        return other_list(case, number, client, cause, "read")
    if kind == "QueueFull":
        case.limits["max_queued"] = NO_LIMIT
    elif kind == "Waits":
        case.commands.append(case.comes(len(case.commands) + 1, client))
    elif kind == "SessionEnded":
        case.put(cause.ended, case.comes(cause.ended, client))
    elif kind == "Expired":
        publish.pop("expiry")
        publish["retain"] = False
    elif kind == "NoLocal":
        for line in cause.subscribed:
            case.commands[line - 1]["no_local"] = False
    elif kind == "QoS0":
        publish["qos"] = 2
        for line in cause.subscribed:
            case.commands[line - 1]["qos"] = 2
    elif kind == "Turn":
        served = next(sent["client"] for sent in case.blocks()[number - 1].answers()[:-1]
                      if f"$share/{sent.get('share')}/{sent.get('filter')}" == cause.group)
        return case.put(number, {"do": "unsubscribe", "client": served, "filter": cause.group})
    return number


# -- what is wrong

def wrong_of_all(case: Case, number: int) -> list[str]:
    """Who is said to be sent a copy, beside who is."""
    block = case.blocks()[number - 1]
    sent = Counter(sent["client"] for sent in block.answers()[:-1])
    said = Counter(answer.client for answer in case.answers(number, None)
                   for cause in answer.causes if cause.kind == "Sent")
    return [] if sent == said else [f"sent to {dict(sent)}, and said to be to {dict(said)}"]


def wrong_of_lines(case: Case, client: str, cause) -> list[str]:
    """Of the lines at which a client left, or a subscription ended."""
    def reason(number: int, *more: dict) -> dict:
        front = Case(case.commands[:number], case.acl, case.rules, case.limits)
        front.commands = [*front.commands, *more]
        return front.blocks()[-1].answers()[-1]
    found = []
    if cause.away:
        leave = {"do": "disconnect", "client": client}
        before, after = (reason(cause.away - 1 + more, leave) for more in (0, 1))
        if before.get("reason") != 0 or after.get("refused") != "NotConnected":
            found.append(f"{client} didn't leave at line {cause.away}")
    if cause.ended and cause.subscribed and cause.kind in ("NoSession", "NoSubscription"):
        for line in cause.subscribed:
            end = {"do": "unsubscribe", "client": client,
                   "filter": case.commands[line - 1]["filter"]}
            said = [reason(cause.ended - 1, end), reason(cause.ended, end)]
            back = case.comes(cause.ended, client)  # of a client that is connected it may be an end
            said = [reason(cause.ended - 1 + place, back, end) if "refused" in one else one
                    for place, one in enumerate(said)]
            if [one["reason"] for one in said] != [0, 17]:
                found.append(f"the subscription of line {line} didn't end at line {cause.ended}")
    return found


def came(case: Case, number: int, client: str, line: int) -> bool:
    """Whether a copy of the message is sent to the client at this line."""
    publish = case.commands[number - 1]
    return any((sent["client"], sent["topic"], sent["payload"])
               == (client, publish["topic"], publish.get("payload", ""))
               for sent in case.blocks()[line - 1].answers()[:-1])


def wrong_of_one(case: Case, number: int, client: str, met: Counter) -> list[str]:
    """Mends until the copy comes."""
    kinds: list[str] = []
    for _ in range(MOST_MENDS):
        [answer] = case.answers(number, client)
        cause = next((one for one in answer.causes if one.came), answer.causes[0])
        found = wrong_of_lines(case, client, cause)
        met[cause.kind if not cause.came or cause.kind in ("Sent", "Waited") else "retained"] += 1
        if kinds:
            steps = RANKS[cause.kind] - RANKS[kinds[-1]]
            if steps < 0 or steps == 0 and cause.kind not in REPEATED:
                found.append(f"{cause.kind} is shown once {kinds} are mended")
        if cause.came and not came(case, number, client, cause.came):
            found.append(f"no copy comes at line {cause.came}")
        if cause.came or found:
            return found
        kinds.append(cause.kind)
        number = mend(case, number, client, cause)
    return [f"no copy comes when {kinds} are mended"]


def wrong_of(seed: int, met: Counter) -> list[str]:
    chance = random.Random(seed)
    case = random_case(chance)
    lines = [number for number, command in enumerate(case.commands, 1)
             if command["do"] == "publish"]
    if not lines:
        return []
    number = chance.choice(lines)
    try:
        found = wrong_of_all(case, number)
        named = {command.get("client") for command in case.commands}.intersection("abc")
        for client in () if found else sorted(named):
            found += wrong_of_one(copy.deepcopy(case), number, client, met)
        return found
    except Fault as fault:
        return [str(fault)]


def main() -> int:
    parser = argparse.ArgumentParser(description=__doc__.split("\n")[0])
    parser.add_argument("--scripts", type=int, default=1000)
    parser.add_argument("--seed", type=int, default=1, help="of the first script")
    options = parser.parse_args()
    met: Counter = Counter()
    wrong = 0
    for seed in range(options.seed, options.seed + options.scripts):
        for text in wrong_of(seed, met):
            wrong += 1
            print(f"script {seed}: {text}")
    causes = ", ".join(f"{kind} {met[kind]}" for kind in [*RANKS, "retained"])
    print(f"{options.scripts} scripts, {met.total()} causes: {causes}: {wrong} wrong")
    return 1 if wrong else 0


if __name__ == "__main__":
    sys.exit(main())
