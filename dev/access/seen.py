"""What is seen of a list, of mosquitto or of mqroute."""
from dataclasses import dataclass, field

from access.lists import is_kept

PATIENCE = 20.0  # seconds that an answer may take
SEEDER = "who lays down what is retained"


class Fault(Exception):
    """What is said before status 2."""


@dataclass
class Seen:
    """By clients' and topics' places in their group."""
    refused: str = ""  # why the list is
    write: set = field(default_factory=set)  # (client, topic)
    read: set = field(default_factory=set)  # (client, topic)
    reached: set = field(default_factory=set)  # (client, topic, who wrote it)


def filters_of(group):
    """Those of shared subscriptions aren't among them: they aren't about topics that begin so."""
    return ["#", *(topic for topic in group.topics
                   if topic.startswith("$") and not topic.startswith("$share"))]


def seeded_of(group):
    """The topics on which a message can lie: those that mosquitto lets somebody write."""
    return [topic for topic in group.topics if not is_kept(topic)]
