"""What a broker offers."""
from typing import Any

from ..script.output import Command
from ..script.sessions import FOREVER
from .packets import MQTT_5


class Offer:
    """What a CONNACK says that the broker has; of MQTT 3.1.1 what its clients can ask for."""

    def __init__(self, properties: Any = None, protocol: str = MQTT_5) -> None:
        self.is_5 = protocol == MQTT_5

        def has(name: str) -> int:
            return int(getattr(properties, name, self.is_5))
        self.greatest_qos = int(getattr(properties, "MaximumQoS", 2))
        self.retain = int(getattr(properties, "RetainAvailable", 1))
        self.wildcards = int(getattr(properties, "WildcardSubscriptionAvailable", 1))
        self.shared = has("SharedSubscriptionAvailable")
        self.identifiers = has("SubscriptionIdentifierAvailable")

    def without(self) -> str:
        """How it is said that there is something that it doesn't have."""
        return "the broker doesn't offer" if self.is_5 else "MQTT 3.1.1 doesn't have"

    def lacks(self, command: Command) -> str:
        """What the command asks for and the broker doesn't offer; empty if it has all."""
        name = command.get("filter", "")
        if command["do"] == "publish" and command.get("qos", 0) > self.greatest_qos:
            return f"QoS over {self.greatest_qos}"
        if command["do"] == "publish" and command.get("retain") and not self.retain:
            return "retained messages"
        if name.startswith("$share/") and not self.shared:
            return "shared subscriptions"
        if command["do"] == "subscribe" and not self.wildcards and ("+" in name or "#" in name):
            return "wildcards in filters"
        if "id" in command and not self.identifiers:
            return "subscription identifiers"
        return "" if self.is_5 else lacks_of_old(command)


def lacks_of_old(command: Command) -> str:
    """What the command asks for and MQTT 3.1.1 doesn't have."""
    if any(command.get(field) for field in ("no_local", "rap", "handling")):
        return "subscription options"
    if command["do"] == "publish" and "expiry" in command:
        return "message expiry"
    session = command.get("clean", True), command.get("session_expiry", 0)
    if command["do"] == "connect" and session not in ((True, 0), (False, FOREVER)):
        return "sessions that are kept for some time"
    return ""
