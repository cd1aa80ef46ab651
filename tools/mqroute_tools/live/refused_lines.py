"""Lines that mqroute refuses since MQTT does: the broker has to refuse them too.

They are sent by clients of their own, that write their packets themselves: the end of such a
connection is a right answer, after which the client of the script couldn't go on. These clients
stay to the end of the script, and nothing may come to them.
"""
from collections import Counter
from collections.abc import Iterable, Iterator

from ..common.messages import counted
from ..script.output import Block, Command
from ..script.text_faults import MOST_BYTES, filter_fault, level_fault, name_fault, text_faults
from ..script.topics import plain_filter
from . import packets
from .broker_diff import Copy
from .options import BrokerOptions
from .raw_client import RawClient
from .received import Received
from .run_ends import RunEnds

# What mqroute says of them.
REFUSED = ("TopicName", "TopicFilter", "SharedNoLocal")
NO_SUBSCRIPTION = 17  # which an UNSUBACK may say of what is no filter
SHARED = "$share/"
ANSWERS = {"subscribe": packets.SUBACK, "unsubscribe": packets.UNSUBACK}
OF_QOS = (packets.PINGRESP, packets.PUBACK, packets.PUBREC)  # what answers a PUBLISH


def is_refused(block: Block) -> bool:
    """Whether mqroute refuses the line whatever may be written and read."""
    return block.refused is not None and block.refused != "NotAuthorized"


def why_unwritten(command: Command) -> str:
    """Why a line isn't sent that mqroute refuses for its topic or filter; empty where it is."""
    name = str(command.get("topic", command.get("filter", "")))
    if len(name.encode("utf-8")) > MOST_BYTES:
        return f"a text of over {MOST_BYTES:,} bytes"
    fault = name_fault(name) if "topic" in command else filter_fault(name)
    is_deep = fault and fault == level_fault(plain_filter(name))
    return "a topic of over 200 levels, which MQTT allows" if is_deep else ""


def why_not_sent(command: Command | None, block: Block, options: BrokerOptions) -> str:
    """Of a line that mqroute refuses; empty where it is sent. None is a line that is no command."""
    if block.refused not in REFUSED or command is None:
        return f"refused as {block.refused}"
    if options.websockets is not None:
        return f"refused as {block.refused}, and not written by websockets"
    if options.protocol != packets.MQTT_5 and command.get("filter", "").startswith(SHARED):
        return "shared subscriptions, which MQTT 3.1.1 doesn't have"
    return why_unwritten(command)


def sent(script: Iterable[Command], blocks: Iterable[Block],
         options: BrokerOptions) -> Iterator[tuple[int, Command, Block]]:
    """The lines that can be sent."""
    for number, (command, block) in enumerate(zip(script, blocks), 1):
        if not is_refused(block) or not why_not_sent(command, block, options):
            yield number, command, block


def not_sent(script: Iterable[Command], blocks: Iterable[Block],
             options: BrokerOptions) -> Counter[str]:
    """Why lines aren't sent that mqroute refuses, and how many for each reason."""
    reasons = (why_not_sent(command, block, options)
               for command, block in zip(script, blocks) if is_refused(block))
    return Counter(reason for reason in reasons if reason)


def is_refused_by_mqtt(command: Command) -> bool:
    """Whether each broker has to refuse the command, whatever it offers."""
    named = {field: command[field] for field in ("topic", "filter", "no_local") if field in command}
    return any(text_faults(named)) and not why_unwritten(command)


def shown(reasons: Counter[str]) -> str:
    """`7 lines not sent: refused as NotConnected (5), a text of ..(2)`; empty of none."""
    if not reasons:
        return ""
    each = ", ".join(f"{reason} ({number})" for reason, number in sorted(reasons.items()))
    return f"{counted(reasons.total(), 'lines not sent')}: {each}"


class RefusedLines:
    """Those of one script on a broker."""

    def __init__(self, options: BrokerOptions) -> None:
        self.options = options
        self.clients: list[RawClient] = []

    def ask(self, line: int, command: Command, block: Block) -> list[str]:
        """Sends a line that mqroute refuses; what is wrong with the answer."""
        client = RawClient(self.options, f"{command['client']}-refused-{line}")
        self.clients.append(client)
        client.connect(command.get("user"))
        said = self.answer(client, command)
        if said is None or self.is_right(command, said):
            return []
        return [f"   reason: mqroute {block.refused}, broker {said.reasons[0]}"]

    def answer(self, client: RawClient, command: Command) -> Received | None:
        """What acknowledges the command; None where the connection ends."""
        mid, write, do = client.next_mid(), client.write, command["do"]
        if do == "subscribe":
            more = {"id": command["id"]} if "id" in command else {}
            client.send(write.subscribe(mid, [command], **more))
        elif do == "unsubscribe":
            client.send(write.unsubscribe(mid, [command["filter"]]))
        else:
            return self.publish(client, mid, command)
        return client.answer(ANSWERS[do])

    def publish(self, client: RawClient, mid: int, command: Command) -> Received | None:
        """Of QoS 0 nothing is said, so that no more than a closed connection is to be seen."""
        qos = command.get("qos", 0)
        more = {"expiry": command["expiry"]} if "expiry" in command else {}
        client.send(client.write.publish(
            mid, command["topic"], command.get("payload", "").encode("utf-8"), qos,
            bool(command.get("retain")), **more))
        if not qos:
            client.fence()
            return None
        return client.answer(OF_QOS[qos])

    def is_right(self, command: Command, said: Received) -> bool:
        if said.kind in (packets.PUBACK, packets.PUBREC) \
                and self.options.protocol != packets.MQTT_5:
            return True  # it can't say that it refuses
        return all(reason >= packets.FAILURE or (said.kind == packets.UNSUBACK
                                                 and reason == NO_SUBSCRIPTION)
                   for reason in said.reasons)

    def copies(self) -> list[Copy]:
        """What came to the clients of such lines: there should be none."""
        found = []
        for client in self.clients:
            client.fence()
            found += client.copies()
        return found

    def clear(self, topic: str) -> None:
        """Removes what a broker may have retained under what is no topic."""
        client = RawClient(self.options, "mqroute-cleaner-of-refused")
        self.clients.append(client)
        try:
            client.connect()
            client.send(client.write.publish(1, topic, b"", 0, True))
            client.fence()
        except RunEnds:
            pass  # it is refused, and so nothing was kept

    def close(self) -> None:
        for client in self.clients:
            client.close()
