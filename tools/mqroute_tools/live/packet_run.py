"""Runs a case of packets on a live broker."""
import time
from collections.abc import Iterator
from typing import Any

from ..common.texts import escaped, json_text
from . import packets
from .broker_diff import are_near
from .line_difference import LineDifference
from .options import BrokerOptions
from .packet_steps import COPY, Step, choices, filters_of
from .raw_client import RawClient
from .received import Received
from .run_ends import RunEnds

PAUSE = 0.1  # seconds that a broker gets to see that a connection is gone
ROUNDS = 2  # in which all clients are asked whether all has come: a copy may make others
PROPERTIES = {"expiry": "Message Expiry Interval", "payload_format": "Payload Format Indicator",
              "content_type": "Content Type", "response_topic": "Response Topic",
              "correlation": "Correlation Data", "user_properties": "User Property",
              "ids": "Subscription Identifier"}
LISTS = ("user_properties", "ids")
ANSWERS = {"subscribe": packets.SUBACK, "unsubscribe": packets.UNSUBACK}
OF_QOS = (packets.PINGRESP, packets.PUBACK, packets.PUBREC)


def as_copy(packet: Received) -> dict[str, Any]:
    """A PUBLISH by the names that a case has."""
    found: dict[str, Any] = {
        "topic": packet.topic, "payload": packet.payload.decode("utf-8", "replace"),
        "qos": packet.qos, "retain": bool(packet.flags & 1), "dup": bool(packet.flags & 8)}
    for name, held in PROPERTIES.items():
        values = packet.properties.get(held, [])
        if name in LISTS:
            found[name] = [list(one) if isinstance(one, tuple) else one for one in values]
        elif values:
            found[name] = values[0].decode() if isinstance(values[0], bytes) else values[0]
    found["ids"] = sorted(found["ids"])
    return found


def is_copy(wanted: dict[str, Any], found: dict[str, Any]) -> bool:
    """Whether the copy has all that is wanted, each as it is wanted."""
    expiry = "expiry" not in wanted or are_near(wanted["expiry"], found.get("expiry"))
    return expiry and all(found.get(name) == value for name, value in wanted.items()
                          if name != "expiry")


def shown(copies: list[dict[str, Any]]) -> str:
    named = [{name: copy[name] for name in sorted(COPY & copy.keys())
              if copy[name] not in ([], None)} for copy in copies]
    return "; ".join(map(json_text, named)) or "nothing"


def both(head: str, wanted: object, found: object) -> list[str]:
    return [escaped(text) for text in (
        f"   {head}", f"      wanted:  {wanted}", f"      broker:  {found}")]


def is_answer(wanted: list[Any], reasons: tuple[int, ...]) -> bool:
    return len(wanted) == len(reasons) and all(
        found in one if isinstance(one, list) else found == one
        for one, found in zip(wanted, reasons))


class PacketRun:
    def __init__(self, options: BrokerOptions) -> None:
        self.options = options
        self.live: dict[str, RawClient] = {}
        self.before: list[RawClient] = []  # connections that others have taken over

    def differences(self, steps: list[Step]) -> Iterator[LineDifference]:
        for number, step in enumerate(steps, 1):
            try:
                texts = self.done(step)
            except RunEnds as fault:
                yield LineDifference(number, step["do"], [f"   {fault}"], fault.what)
                return
            if texts:
                yield LineDifference(number, step["do"], texts)

    def end(self) -> None:
        for client in [*self.live.values(), *self.before]:
            client.close()

    def done(self, step: Step) -> list[str]:
        """Does a line; what differs."""
        do = step["do"]
        said = getattr(self, do)(step)
        found = [] if said is None and not step.get("refused") else self.answer(step, said)
        for _ in range(ROUNDS):
            time.sleep(self.options.settle)
            for client in self.everybody():
                client.fence()
        return [*found, *self.ends(step), *self.copies(step)]

    def everybody(self) -> list[RawClient]:
        return [*self.live.values(), *self.before]

    # -- what a line does; each gives what acknowledges it

    def connect(self, step: Step) -> Received:
        name = step["client"]
        if name in self.live:
            self.before.append(self.live.pop(name))
        client = RawClient(self.options, name)
        client.acknowledges = not step.get("holds")
        will = step.get("will")
        said = client.connect(
            clean=step.get("clean", True), session_expiry=step.get("session_expiry"), will=will)
        self.live[name] = client
        return said

    def disconnect(self, step: Step) -> None:
        client = self.live.pop(step["client"])
        more = {"session_expiry": step["session_expiry"]} if "session_expiry" in step else {}
        client.send(client.write.disconnect(step.get("reason", 0), **more))
        client.socket.close()
        time.sleep(PAUSE)

    def drop(self, step: Step) -> None:
        self.live.pop(step["client"]).drop()
        time.sleep(PAUSE)

    def wait(self, step: Step) -> None:
        time.sleep(step["seconds"])

    def subscribe(self, step: Step) -> Received | None:
        client = self.live[step["client"]]
        more = {"id": step["id"]} if "id" in step else {}
        filters = filters_of(step)
        client.filters = len(filters)
        client.send(client.write.subscribe(client.next_mid(), filters, **more))
        return client.answer(packets.SUBACK)

    def unsubscribe(self, step: Step) -> Received | None:
        client = self.live[step["client"]]
        names = [one["filter"] for one in filters_of(step)]
        client.filters = len(names)
        client.send(client.write.unsubscribe(client.next_mid(), names))
        return client.answer(packets.UNSUBACK)

    def publish(self, step: Step) -> Received | None:
        client, qos = self.live[step["client"]], step.get("qos", 0)
        more = {name: step[name] for name in PROPERTIES if name in step and name != "ids"}
        client.send(client.write.publish(
            client.next_mid(), step["topic"], step.get("payload", "").encode("utf-8"), qos,
            bool(step.get("retain")), bool(step.get("dup")), **more))
        if not qos:
            client.fence()
        return client.answer(OF_QOS[qos]) if qos else None

    # -- what differs

    def answer(self, step: Step, said: Received | None) -> list[str]:
        """A CONNACK, or the reasons."""
        if step.get("refused"):
            if said is None or all(one >= packets.FAILURE for one in said.reasons):
                return []
            return both("answered", "refused", list(said.reasons))
        if said is None:
            return []
        if "present" in step and bool(said.flags & 1) != step["present"]:
            return both("session present", step["present"], bool(said.flags & 1))
        wanted = step.get("answered")
        if wanted is not None and not is_answer(wanted, said.reasons):
            return both("answered", wanted, list(said.reasons))
        return []

    def ends(self, step: Step) -> list[str]:
        """Of connections: those that end and shouldn't, and the other way round."""
        found, wanted = [], step.get("ends", {})
        for client in self.everybody():
            reason = client.farewell()
            if client.name in wanted and (client in self.before or client.name != step["client"]
                                          or step["do"] != "connect"):
                if not client.has_left() or reason != wanted[client.name]:
                    found += both(f"the connection of {client.name} ends",
                                  f"by a DISCONNECT of reason {wanted[client.name]}",
                                  how_ended(client, reason))
            elif client.has_left() and not step.get("refused"):
                why = client.fault or how_ended(client, reason)
                raise RunEnds("closed", f"the broker closed the connection of {client.name}: {why}")
        for client in [one for one in self.everybody() if one.has_left()]:
            self.forget(client)
        return found

    def forget(self, client: RawClient) -> None:
        client.close()
        self.before = [one for one in self.before if one is not client]
        self.live = {name: one for name, one in self.live.items() if one is not client}

    def copies(self, step: Step) -> list[str]:
        found, wanted = [], step.get("gets", {})
        for client in self.everybody():
            is_old = client in self.before
            here = choices([] if is_old else wanted.get(client.name, []))
            got = [as_copy(packet) for packet in client.new_publishes()]
            if not any(self.are_as(one, got) for one in here):
                name = f"{client.name}'s connection before" if is_old else client.name
                found += both(name, " or ".join(map(shown, here)), shown(got))
        return found

    def are_as(self, wanted: list[dict[str, Any]], got: list[dict[str, Any]]) -> bool:
        """Whether each that is wanted has one of its own among those that came, in any order."""
        rest = list(got)
        for one in wanted:
            same = next((copy for copy in rest if is_copy(one, copy)), None)
            if same is None:
                return False
            rest.remove(same)
        return not rest


def how_ended(client: RawClient, reason: int | None) -> str:
    if reason is not None:
        return f"by a DISCONNECT of reason {reason}"
    return "without a DISCONNECT" if client.has_left() else "not at all"
