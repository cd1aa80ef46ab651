#!/usr/bin/env python3
"""Carries each message of a broker to its other name by a topic plan, while some clients use old
names and others new ones:

    bridge.py PLAN [HOST [PORT [USER]]]

It ends when it is stopped. It needs python3-paho-mqtt, and mqroute_tools: in PYTHONPATH the folder
`tools` of a clone, or `lib/mqroute` of an installation. The broker has to speak MQTT 5, and to let
the user read and write both names.
"""
import sys

import paho.mqtt.client as mqtt
from paho.mqtt.packettypes import PacketTypes
from paho.mqtt.properties import Properties
from paho.mqtt.subscribeoptions import SubscribeOptions

from mqroute_tools.plan.bridge import both_sides, other_name, refuse_chains
from mqroute_tools.plan.filters import levels, matches
from mqroute_tools.plan.topic_plan import read_plan

CLIENT = "plan-bridge"
KEPT = 24 * 3600  # seconds in which messages wait for a bridge that is away
CARRIED = ("PayloadFormatIndicator", "MessageExpiryInterval", "ContentType", "ResponseTopic",
           "CorrelationData", "UserProperty")


def made(kind, **values):
    """Properties of a packet."""
    found = Properties(kind)
    for name, value in values.items():
        setattr(found, name, value)
    return found


class Bridge:
    def __init__(self, plan):
        refuse_chains(plan)
        self.plan, self.filters = plan, both_sides(plan)

    def subscribe(self, client, *_):
        """With No Local, so that nothing comes back; Retain As Published; and an identifier each.
        What is retained already isn't sent: it may be older than what stands under the other
        name."""
        options = SubscribeOptions(2, noLocal=True, retainAsPublished=True, retainHandling=2)
        for number, wanted in enumerate(self.filters, 1):
            client.subscribe(wanted, options=options, properties=made(
                PacketTypes.SUBSCRIBE, SubscriptionIdentifier=number))
        print("bridge: connected", flush=True)

    def carry(self, client, _, message):
        other = other_name(self.plan, message.topic)
        if other is None or not self.is_first(message):
            return
        given = message.properties
        kept = {name: getattr(given, name) for name in CARRIED if hasattr(given, name)}
        client.publish(other, message.payload, message.qos, message.retain,
                       made(PacketTypes.PUBLISH, **kept))

    def is_first(self, message):
        """A broker may send a copy for each subscription that matches: one of them counts."""
        name = levels(message.topic)
        first = next(number for number, wanted in enumerate(self.filters, 1)
                     if matches(levels(wanted), name))
        return first in getattr(message.properties, "SubscriptionIdentifier", [first])


def main(plan, host="127.0.0.1", port="1883", user=None):
    versions = getattr(mqtt, "CallbackAPIVersion", None)  # paho 2 asks for it
    client = mqtt.Client(*([versions.VERSION1] if versions else []), CLIENT, protocol=mqtt.MQTTv5)
    bridge = Bridge(read_plan(plan))
    client.on_connect, client.on_message = bridge.subscribe, bridge.carry
    if user is not None:
        client.username_pw_set(user)
    client.connect(host, int(port), clean_start=False, properties=made(
        PacketTypes.CONNECT, SessionExpiryInterval=KEPT))
    client.loop_forever()


if __name__ == "__main__":
    main(*sys.argv[1:])
