"""Cases of packets: what a script can't say. Each line is a packet that a client sends, with all
that every client is to get by it."""
import json
from pathlib import Path
from typing import Any

from ..common.exit_status import Fault
from ..common.files import at
from ..script.fresh_names import fresh_name
from ..script.output import Command
from .text_files import read_utf8

Step = Command
# What a line may do, with the fields that it may have beside those of EXPECTED.
MESSAGE = {"topic", "payload", "qos", "retain", "expiry", "payload_format", "content_type",
           "response_topic", "correlation", "user_properties"}
FILTER = {"filter", "qos", "no_local", "rap", "handling"}
FIELDS: dict[str, set[str]] = {
    "connect": {"clean", "session_expiry", "will", "holds"},
    "disconnect": {"reason", "session_expiry"}, "drop": set(),
    "subscribe": FILTER | {"filters", "id"}, "unsubscribe": {"filter", "filters"},
    "publish": MESSAGE | {"dup"}, "wait": {"seconds"}}
# What a line expects:
# `gets`: by client the copies that come, or a list of such lists of which any is right;
# `answered`: the reasons of the acknowledgement, each a number or a list of those that are right;
# `refused`: a reason of 128 or more, or the end of the connection;
# `present`: what CONNACK says of a session;
# `ends`: by client, the reason of the DISCONNECT by which its connection ends; in a connect of the
# same client that of the connection before.
EXPECTED = {"gets", "answered", "refused", "present", "ends"}
COPY = MESSAGE | {"ids", "dup"}


def step_fault(step: Any) -> str:
    """What is wrong with a line; empty where nothing is."""
    if not isinstance(step, dict) or step.get("do") not in FIELDS:
        return "no step of a case of packets"
    do = step["do"]
    unknown = set(step) - FIELDS[do] - EXPECTED - {"do", "client"}
    if unknown:
        return f"{do} has no field {sorted(unknown)[0]}"
    if ("client" in step) == (do == "wait"):
        return f"{do} needs a client" if do != "wait" else "wait has no client"
    copies = [copy for held in step.get("gets", {}).values() for one in choices(held)
              for copy in one]
    odd = {name for copy in copies for name in copy} - COPY
    return f"a copy has no {sorted(odd)[0]}" if odd else ""


def choices(held: list[Any]) -> list[list[Command]]:
    """What may come to a client: any of these."""
    return held if held and isinstance(held[0], list) else [held]


def read_steps(file: Path) -> list[Step]:
    steps = []
    for number, line in enumerate(read_utf8(file).removesuffix("\n").split("\n"), 1):
        try:
            step = json.loads(line)
        except ValueError as fault:
            raise Fault(f"{at(str(file), number)}: not JSON: {fault}") from fault
        wrong = step_fault(step)
        if wrong:
            raise Fault(f"{at(str(file), number)}: {wrong}")
        steps.append(step)
    return steps


def filters_of(step: Step) -> list[Command]:
    """Those of a subscribe or unsubscribe: one with its options, or many."""
    if "filters" not in step:
        return [{name: step[name] for name in FILTER if name in step}]
    return [{"filter": one} if isinstance(one, str) else one for one in step["filters"]]


def marked(step: Step, mark: str) -> Step:
    """The step with names that no other case has."""
    def named(held: Any) -> Any:
        if isinstance(held, str):
            return fresh_name(held, mark)
        new = {name: fresh_name(held[name], mark) for name in ("topic", "filter") if name in held}
        return held | new
    step = named(step) | ({"client": step["client"] + mark} if "client" in step else {})
    if "will" in step:
        step["will"] = named(step["will"])
    if "filters" in step:
        step["filters"] = [named(one) for one in step["filters"]]
    if "gets" in step:
        step["gets"] = {client + mark: [[named(copy) for copy in one] for one in choices(held)]
                        for client, held in step["gets"].items()}
    if "ends" in step:
        step["ends"] = {client + mark: reason for client, reason in step["ends"].items()}
    return step


def as_commands(steps: list[Step]) -> list[Command]:
    """Commands that ask the same of what a broker offers, and leave the same on it."""
    found: list[Command] = []
    for step in steps:
        if step["do"] in ("subscribe", "unsubscribe"):
            found += [step | one for one in filters_of(step)]
        elif step["do"] in ("publish", "connect", "disconnect"):
            found.append(step)
        if "will" in step:
            found.append(step["will"] | {"do": "publish", "client": step["client"]})
    return found
