"""What random scripts exercised, by mqroute's answers: in how many of them it came to what."""
from collections import Counter, defaultdict
from collections.abc import Iterator

from ..live.broker_diff import Copy, copies_of
from ..live.wills import Wills
from ..script.output import Block, Command
from ..script.sessions import Sessions
from ..script.topics import matches, plain_filter

THREE = 3  # clients


def of_copies(copies: list[Copy]) -> Iterator[str]:
    if len({copy.client for copy in copies}) >= THREE:
        yield "a message to three clients and more"
    if any(len(copy.ids) > 1 for copy in copies):
        yield "a copy with two identifiers"


def of_publish(command: Command, block: Block, copies: list[Copy],
               sessions: Sessions) -> Iterator[str]:
    yield from of_copies(copies)
    if any(len(sessions.members(copy.group)) > 1 for copy in copies if copy.group):
        yield "a group with two connected members served"
    if block.refused:
        yield "a publish denied"
    if command.get("retain") and not command.get("payload"):
        yield "a retained message cleared"
    for client in sessions.away:
        if any(matches(plain_filter(name), command["topic"]) for name in sessions.filters[client]):
            yield "a publish for a client that is away"


def of_subscribe(command: Command, copies: list[Copy], sessions: Sessions) -> Iterator[str]:
    if command["filter"] in sessions.filters[command["client"]]:
        yield "a subscription replaced"
    if copies:
        yield "a retained message at a subscribe"
    if len(copies) > 1:
        yield "two retained messages and more at a subscribe"


def of_connect(command: Command, copies: list[Copy], sessions: Sessions) -> Iterator[str]:
    if command["client"] in sessions.live:
        yield "a connection taken over"
    if sessions.present(command):
        yield "a session resumed"
    if copies:
        yield "a message that waited"
    if len(copies) > 1:
        yield "two messages that waited and more"


def of_line(command: Command, block: Block, sessions: Sessions) -> Iterator[str]:
    do, copies = command["do"], copies_of(block)
    if do == "publish":
        yield from of_publish(command, block, copies, sessions)
    elif do == "subscribe":
        yield from of_subscribe(command, copies, sessions)
    elif do == "connect":
        yield from of_connect(command, copies, sessions)
    elif do == "unsubscribe" and block.reason == 0:
        yield "a subscription ended"
    elif do == "advance":
        yield "the clock moved"
    elif do == "acl":
        yield "an access list"
    if any(copy.expiry is not None for copy in copies):
        yield "a copy with an interval"


def of_script(script: list[Command], blocks: list[Block]) -> set[str]:
    sessions = Sessions()
    found: set[str] = set()
    served: defaultdict[str, set[str]] = defaultdict(set)
    lines = list(zip(range(1, len(script) + 1), script, blocks))
    for _, command, block in lines:
        found.update(of_line(command, block, sessions))
        for copy in copies_of(block):
            served[copy.group].add(copy.client)
        if not block.refused:
            sessions.follow(command)
    if any(group and len(clients) > 1 for group, clients in served.items()):
        found.add("a group's message to one member and to another")
    if any(copies_of(will.block) for will in Wills(lines).due.values()):
        found.add("a will sent")
    return found


class Exercised:
    def __init__(self) -> None:
        self.scripts = 0
        self.counts: Counter[str] = Counter()

    def add(self, script: list[Command], blocks: list[Block]) -> None:
        self.scripts += 1
        self.counts.update(of_script(script, blocks))

    def report(self) -> list[str]:
        """A line for each, the most frequent first."""
        return [f"{count} of {self.scripts} scripts: {what}"
                for what, count in self.counts.most_common()]
