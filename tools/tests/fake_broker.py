"""A broker that answers as mqroute, but for a planted bug: it takes some commands for others."""
from collections.abc import Callable

from worked import PROGRAM
from mqroute import Oracle
from mqroute_tools.live.broker_diff import (
    Acknowledged, copies_of, different_copies, different_order, different_reasons)
from mqroute_tools.live.line_difference import LineDifference
from mqroute_tools.live.wills import Wills
from mqroute_tools.script.sessions import Sessions
from mqroute_tools.search.finds import Script


class Fake:
    """`taken` gives what the broker takes the commands of a script for, line by line."""

    def __init__(self, taken: Callable[[Script], Script]) -> None:
        self.taken = taken
        self.oracle = Oracle(program=str(PROGRAM))
        self.scripts: list[Script] = []

    def can_run(self, script: Script) -> bool:
        return True

    def run(self, script: Script, blocks: list, until: float = 0) -> list[LineDifference]:
        """What a will does is compared where its connection ends."""
        self.scripts.append(script)
        sessions, found, answers = Sessions(), [], self.oracle.blocks(self.taken(script))
        wills = Wills(zip(range(1, len(script) + 1), script, blocks))
        for number, (command, block, theirs) in enumerate(zip(script, blocks, answers), 1):
            if number in wills.published:
                continue
            if number in wills.due:
                block, theirs = wills.due[number].block, answers[number - 2]
            present = command["do"] == "connect" and sessions.present(command)
            sessions.follow(command)
            ours, copies = copies_of(block), copies_of(theirs)
            texts = different_copies(ours, copies, sessions) + different_order(ours, copies)
            texts += different_reasons(command, block, Acknowledged(theirs.reason), present)
            if texts:
                found.append(LineDifference(
                    number, "will" if number in wills.due else command["do"], texts))
        return found


def keeps_first_options(script: Script) -> Script:
    """Subscribing again changes neither No Local nor Retain As Published."""
    first: dict[tuple[str, str], dict] = {}
    taken = []
    for command in script:
        if command["do"] == "subscribe":
            kept = first.setdefault(
                (command["client"], command["filter"]),
                {name: command[name] for name in ("no_local", "rap") if name in command})
            command = {name: value
                       for name, value in command.items() if name not in ("no_local", "rap")} | kept
        elif command["do"] in ("unsubscribe", "connect"):
            first = {key: kept for key, kept in first.items() if key[0] != command["client"]}
        taken.append(command)
    return taken


def expiry_0_is_none(script: Script) -> Script:
    return [{name: value for name, value in command.items() if (name, value) != ("expiry", 0)}
            for command in script]


def keeps_what_is_cleared(script: Script) -> Script:
    """An empty retained message of QoS 1 or 2 clears nothing."""
    return [command | {"retain": False} if command.get("retain") and not command["payload"]
            and command.get("qos") else command for command in script]


def forgets_sessions(script: Script) -> Script:
    """A client that was away for a publish begins anew."""
    away: set[str] = set()
    forgotten: set[str] = set()
    taken = []
    for command in script:
        if command["do"] == "disconnect":
            away.add(command["client"])
        if command["do"] == "publish":
            forgotten |= away
        if command["do"] == "connect":
            away.discard(command["client"])
            if command["client"] in forgotten:
                command = command | {"clean": True}
                forgotten.discard(command["client"])
        taken.append(command)
    return taken


def drops_wills(script: Script) -> Script:
    """A connection that ends without a DISCONNECT leaves no will."""
    return [{"do": "stat"} if now.get("payload") == "will" and then["do"] == "disconnect" else now
            for now, then in zip(script, [*script[1:], {"do": "stat"}])]
