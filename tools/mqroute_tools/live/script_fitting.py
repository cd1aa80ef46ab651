"""The script that a broker can run: what its CONNACK doesn't offer is replaced or left out."""
import json
from collections import Counter
from collections.abc import Iterable
from pathlib import Path

from ..script.output import Command, command_of
from ..script.sessions import FOREVER
from .offer import Offer
from .refused_lines import is_refused_by_mqtt
from .text_files import read_utf8

LEFT_OUT = "left out"
WITHOUT = "sent without"
# What MQTT 3.1.1 doesn't have, by the fields of commands.
NEW_FIELDS = {"no_local": "subscription options", "rap": "subscription options",
              "handling": "subscription options", "expiry": "message expiry"}
OLD_SESSION = "sessions that are kept for some time"


def fitting(command: Command, offer: Offer) -> tuple[Command | None, list[tuple[str, str]]]:
    """What is sent in place of a command, None for nothing; what isn't offered, what was done."""
    did: list[tuple[str, str]] = []
    name = str(command.get("filter", ""))
    if name.startswith("$share/") and not offer.shared:
        return None, [("shared subscriptions", LEFT_OUT)]
    if ("+" in name or "#" in name) and not offer.wildcards:
        return None, [("wildcards in filters", LEFT_OUT)]
    if command["do"] == "publish" and command.get("qos", 0) > offer.greatest_qos:
        command = command | {"qos": offer.greatest_qos}
        did.append((f"QoS over {offer.greatest_qos}", f"sent with QoS {offer.greatest_qos}"))
    if command["do"] == "publish" and command.get("retain") and not offer.retain:
        command = command | {"retain": False}
        did.append(("retained messages", "sent without RETAIN"))
    if command["do"] == "subscribe" and "id" in command and not offer.identifiers:
        command = {field: value for field, value in command.items() if field != "id"}
        did.append(("subscription identifiers", WITHOUT))
    return (command, did) if offer.is_5 else older(command, did)


def older(command: Command, did: list[tuple[str, str]]) -> tuple[Command, list[tuple[str, str]]]:
    """The same in MQTT 3.1.1, where a session is kept for ever or not at all."""
    new = {field for field in NEW_FIELDS if command.get(field)}
    if command["do"] == "publish" and "expiry" in command:
        new.add("expiry")
    if new:
        command = {field: value for field, value in command.items() if field not in new}
        did = did + [(what, WITHOUT) for what in sorted({NEW_FIELDS[field] for field in new})]
    if command["do"] != "connect":
        return command, did
    is_kept = not command.get("clean", True) or bool(command.get("session_expiry"))
    session = {"clean": not is_kept, "session_expiry": FOREVER if is_kept else 0}
    before = {"clean": command.get("clean", True),
              "session_expiry": command.get("session_expiry", 0)}
    if session == before:
        return command, did
    return command | session, [*did, (OLD_SESSION, "sent with one that is kept for ever")]


def fitted_script(lines: Iterable[bytes], sent: set[int],
                  offer: Offer) -> tuple[list[bytes], Counter[str]]:
    """The script that the broker can run, each line under its old number; what was done, and to
    how many. `sent` are the lines that go to the broker at all: the others stay."""
    shown: Counter[str] = Counter()
    result = []
    for number, line in enumerate(lines, 1):
        command = command_of(line) if number in sent else None
        if command is not None:
            instead, did = fitting(command, offer)
            for what, how in did:
                shown[f"{offer.without()} {what}: {{}} lines {how}"] += 1
            if did:
                line = b"\n" if instead is None else json.dumps(instead).encode() + b"\n"
        result.append(line)
    return result, shown


def fitted_commands(script: Iterable[Command],
                    offer: Offer) -> tuple[list[Command], set[str]]:
    """The commands that the broker can run, and what it doesn't offer of those that were to be. In
    place of one that is left out stands one that isn't sent. What every broker has to refuse stays
    as it is."""
    instead: list[Command] = []
    lacking: set[str] = set()
    for command in script:
        refused = offer.is_5 and is_refused_by_mqtt(command)
        now, did = (command, []) if refused else fitting(command, offer)
        instead.append({"do": "stat"} if now is None else now)
        lacking |= {what for what, _ in did}
    return instead, lacking


def read_list(name: str) -> str:
    """The text of an access list."""
    return read_utf8(Path(name))
