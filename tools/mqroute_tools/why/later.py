"""What becomes of a message after the line that published it: copies that wait, and the message
that is retained."""
from dataclasses import dataclass, field

from ..common.tables import shown
from ..script.output import Block, Command, by_key, read_json
from ..script.topics import matches, plain_filter
from .causes import EXPIRED, SESSION_ENDED, WAITED, WAITS
from .disagreement import Disagreement
from .history import Ending

CLEAN = "it began a new session, by Clean Start"
EXPIRY = "its session expired"


@dataclass
class Waiting:
    """A copy that waits, and until when its session is kept for the client."""
    qos: int
    end: int | None
    kind: str = WAITS
    ending: Ending | None = None


@dataclass
class Later:
    publish: Command
    now: int
    waiting: dict[str, Waiting] = field(default_factory=dict)  # by client
    connects: dict[str, int] = field(default_factory=dict)  # where clients first connect again
    subscribes: dict[str, int] = field(default_factory=dict)  # and subscribe to the topic
    retained: dict[str, int] = field(default_factory=dict)  # and are sent it as retained

    def __post_init__(self) -> None:
        expiry = self.publish.get("expiry")
        self.deadline = None if expiry is None else self.now + expiry
        self.is_retained = bool(
            self.publish.get("retain") and self.publish.get("payload") and expiry != 0)

    def follow(self, number: int, command: Command, block: Block) -> None:
        """One line that mqroute accepted, after the one of the publish."""
        do, client = command["do"], command.get("client", "")
        if do == "connect":
            self.connects.setdefault(client, number)
            if self.waits(client):
                self.comes_back(number, client, command, block)
        elif do == "subscribe":
            self.subscribe(number, client, command, block)
        elif do == "publish":
            of_it = command.get("retain") and command["topic"] == self.publish["topic"]
            self.is_retained = self.is_retained and not of_it
        elif do == "advance":
            self.advance(number, command["seconds"])

    def waits(self, client: str) -> bool:
        return client in self.waiting and self.waiting[client].kind == WAITS

    def is_over(self, moment: int | None) -> bool:
        return moment is not None and moment <= self.now

    def comes_back(self, number: int, client: str, command: Command, block: Block) -> None:
        held = self.waiting[client]
        if command.get("clean", True):
            held.kind, held.ending = SESSION_ENDED, Ending(number, CLEAN)
        else:
            held.kind = EXPIRED if self.is_over(self.deadline) else WAITED
            held.ending = Ending(number, "")
            if held.kind == WAITED and not self.is_among(block, held.qos):
                raise Disagreement(number, f"the copy that waited for {shown(client)} isn't sent")

    def is_among(self, block: Block, qos: int) -> bool:
        wanted = self.publish["topic"], self.publish.get("payload", ""), qos
        return wanted in ((copy["topic"], copy["payload"], copy["qos"])
                          for copy in map(read_json, block.copies))

    def subscribe(self, number: int, client: str, command: Command, block: Block) -> None:
        topic = self.publish["topic"]
        if client not in self.subscribes and matches(plain_filter(command["filter"]), topic):
            self.subscribes[client] = number
        if self.is_retained and client not in self.retained and block.copies:
            if (client, topic) in by_key(block.copies):
                self.retained[client] = number

    def advance(self, number: int, seconds: int) -> None:
        self.now += seconds
        self.is_retained = self.is_retained and not self.is_over(self.deadline)
        for client, held in self.waiting.items():
            if held.kind == WAITS and self.is_over(held.end):
                held.kind, held.ending = SESSION_ENDED, Ending(number, EXPIRY)
