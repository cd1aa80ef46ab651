"""Reads a log and mqroute's output for its script by steps."""
from collections.abc import Iterable, Iterator
from typing import BinaryIO

from ..common.exit_status import Fault
from ..script.output import Answer, Block, Command, Key, blocks, misfit, odd_copy, plain_copy
from ..script.topics import plain_filter
from . import mosquitto_log as log
from .broker_state import publish
from .clients import Arrival, Session
from .conversion import placed_commands
from .difference_kinds import BROKERS_TOPIC, CUT_OFF, LOGGED_WILL, OWN_WILL, TAKEN_WILL
from .held_back import Flight
from .inference import Beginning
from .script_writer import Writer
from .steps import Copy, Event, Step, copy_of


class Watcher(Writer):
    """Converts, and keeps what the log shows of copies sent and publishes denied."""

    def __init__(self, session_expiry: int | None, form: str | None, begins: Beginning) -> None:
        super().__init__(session_expiry, form, begins)
        self.events: list[Event] = []  # that no step has yet
        self.flight = Flight()
        self.acknowledging_client = ("", 0)  # who acknowledged last, and in which turn
        self.sent_to = ("", 0)  # to whom the broker sent something last, and in which turn
        self.answer = ("", 0)  # of its last acknowledgement the text, and the turn
        self.denied: log.Publish | None = None  # by the last line
        self.renamed = False  # what this line releases was received under another user name
        self.resumed: tuple[str, list[str]] | None = None
        self.old_protocol: set[str] = set()

    def acknowledging(self, rest: str) -> bool:
        self.answer = rest, self.turn
        return True

    def releasing(self, rest: str) -> bool:
        found = log.ANSWERED.match(rest)
        if found:
            self.flight.add(found[1], int(found[2]))
            self.sent_to = found[1], self.turn
        return True

    def acknowledged(self, rest: str) -> bool:
        found = log.ACKNOWLEDGED.match(rest)
        if found:
            self.acknowledging_client = found[1], self.turn
            if self.flight.acknowledge(found[1], int(found[2])):
                self.events.append(Event(self.place, found[1]))
        return True

    def was_sent_to(self, client: str) -> bool:
        """Whether the line before shows something that was sent to the client."""
        answer, turn = self.answer
        answered = log.ANSWERED.match(answer) if turn == self.turn - 1 else None
        return self.sent_to == (client, self.turn - 1) or (
            answered is not None and answered[1] == client)

    def closed(self, client: str) -> None:
        if self.was_sent_to(client):
            self.events.append(Event(self.place - 1, client, apart=CUT_OFF))
        super().closed(client)

    def release(self, session: Session, packet: int) -> None:
        self.renamed = packet in session.renamed
        super().release(session, packet)

    def subscribed(self, client: str) -> bool:
        self.sent_to = client, self.turn
        return super().subscribed(client)

    def copied(self, sent: log.Publish) -> bool:
        client, dup, qos, retain, packet, topic, _, _ = sent
        session = self.connected.get(client)
        if session is None or retain or session.taken or session.asked or (
                self.ended is not None or topic.startswith("$SYS/")):
            counts, kind = super().copied(sent), self.apart(sent)
        else:  # as most are: the same, in less time
            counts, kind = True, ""
            if not dup:
                self.explain(client, topic)
        released = self.acknowledging_client == (client, self.turn - 1)
        if released:
            self.acknowledging_client = client, self.turn
            if self.events and self.events[-1].copy is None:
                self.events.pop()
        self.sent_to = client, self.turn
        if not (dup or qos and self.flight.again(client, packet)):
            self.events.append(Event(self.place, client, sent, released, kind))
        if qos:
            self.flight.add(client, packet, released)
        return counts

    def publishes(self, topic: str) -> None:
        """What is explained isn't asked."""

    def explain(self, client: str, topic: str) -> None:
        """mqroute's copies show it, where the two are compared."""

    def apart(self, sent: log.Publish) -> str:
        """The kind of a copy that no script gives: the broker's topics, the receiver's own will."""
        if sent.topic.startswith("$SYS/"):
            return "" if sent.topic in self.sys_topics else BROKERS_TOPIC
        session = self.connected.get(sent.client)
        if session is None:
            return LOGGED_WILL if self.of_own_will(sent) else ""
        if session.taken and is_of(sent, session.will):
            return TAKEN_WILL
        return OWN_WILL if session.asked and is_of(sent, session.asked) else ""

    def take(self, found: log.Publish, routed: bool) -> None:
        self.denied = None if routed else found
        super().take(found, routed)

    def connect(self, arrival: Arrival, client: str, user: str | None, clean: bool, protocol: int,
                present: bool) -> None:
        (self.old_protocol.add if protocol < 5 else self.old_protocol.discard)(client)
        self.flight.begin(client, present)
        super().connect(arrival, client, user, clean, protocol, present)
        groups = (f for f in self.connected[client].filters if f.startswith("$share/"))
        self.resumed = (client, [plain_filter(f) for f in groups])


def is_of(sent: log.Publish, will: Command | None) -> bool:
    """Whether a copy can be one of a will: its topic and its size."""
    if will is None:
        return False
    return publish(will["client"], sent.topic, sent.size, 0, False).items() <= will.items()


def steps(watcher: Watcher, streams: Iterable[BinaryIO]) -> Iterator[Step]:
    """What is sent belongs to the last command before it."""
    def close(step: Step | None, end: int | None) -> None:
        if step is None:
            return
        found, watcher.events = watcher.events, []
        if end is not None and found and found[-1].place >= end:
            watcher.events = [e for e in found if e.place >= end]
            found = [e for e in found if e.place < end]
        step.events = found
        step.flying = watcher.flight.flying()
        if found or step.flying:
            receivers = {event.client for event in found}
            receivers.update(step.flying)
            step.old_protocol = receivers & watcher.old_protocol
    step: Step | None = None
    for place, command in placed_commands(watcher, streams):
        if step is None or step.place != place:
            close(step, place)
            if step:
                yield step
            step = Step(place)
        step.commands.append(command)
        if watcher.denied:
            if command["do"] == "publish":
                step.broker.refused.append((watcher.denied.client, watcher.denied.topic))
                watcher.denied = None
        if watcher.renamed and command["do"] == "publish":
            step.renamed, watcher.renamed = True, False
        if watcher.resumed:
            if command["do"] == "connect":
                client, filters = watcher.resumed
                step.shared = {**step.shared, client: filters}
                watcher.resumed = None
    if step:
        close(step, None)
        yield step


def answered(found: Iterable[Step], name: str) -> Iterator[Step]:
    """The steps with what mqroute answered."""
    number, answers = 0, blocks(name)
    for step in found:
        for command in step.commands:
            number += 1
            block = next(answers, None)
            if block is None or block.line != number:
                raise Fault(f"line {number} of the script isn't answered in {name}: "
                            "it is cut short, or is of another script")
            add(step, command, block, name)
        yield step
    if next(answers, None):
        raise Fault(f"{name} has answers to lines that the script doesn't have")


def add(step: Step, command: Command, block: Block, name: str) -> None:
    copies: list[tuple[Key, Copy]] = []
    for text in block.copies:
        plain = plain_copy(text)
        if plain:
            client, message = plain
            copy = copy_of(message.qos, int(message.retain), message.shared,
                           size_of(message.payload))
            copies.append(((client, message.topic), copy))
        else:
            odd = odd_copy(text, name)
            copies.append(((odd["client"], odd["topic"]), read_copy(odd)))
    check(command, block, [key for key, _ in copies] if copies else (), name)
    for key, copy in copies:
        step.mqroute.copies[key].append(copy)
        step.of_group = step.of_group or copy.shared
    if block.refused == "NotAuthorized":
        step.mqroute.refused.append((command["client"], command["topic"]))


def read_copy(copy: Answer) -> Copy:
    """One with escapes."""
    return Copy(copy["qos"], int(copy["retain"]), "share" in copy, size_of(copy["payload"]))


def check(command: Command, block: Block, keys: Iterable[Key], name: str) -> None:
    """Refuses what mqroute can't have answered."""
    why = misfit(command, block, keys)
    if block.refused == "NotAuthorized" and command["do"] != "publish":
        why = f"{block.refused} for the command {command['do']}"
    if why:
        raise Fault(f"{name} is of another script: line {block.line} is answered with {why}")


def size_of(payload: str) -> int:
    """A script has payloads as numbers of bytes."""
    number, _, unit = payload.partition(" ")
    return int(number) if unit == "bytes" and log.is_number(number) else 0
