"""What differs between a log's own copies and mqroute's, step by step, and of which kind it is."""
from collections import Counter, defaultdict
from collections.abc import Iterable, Iterator, Set

from ..script.output import Command, Key
from ..script.sessions import Sessions
from ..script.topics import matches, plain_filter
from .difference_kinds import (
    BROKER_REFUSED, BROKERS_TOPIC, CUT_OFF, DENIED_WILL, DIFFERENT, HELD_BACK, LOGGED_WILL,
    MEMBERS_TURN, MQROUTE_REFUSED, OWN_WILL, RETAINED_FOR_GROUP, TESTED_AGAIN, is_will, joined,
    kind, own_will)
from .held_back import Backlog, Owed
from .report import Report
from .report_line import Line, Refusal, differ, line_of
from .steps import NOBODY, Copy, Event, Step, copy_of


def is_alike(copy: Copy, other: Copy) -> bool:
    return copy.size == other.size and copy.retain == other.retain


class Comparison:
    """The lines to print, and how much was compared."""

    def __init__(self) -> None:
        self.found: Report[Line] = Report(line_of)
        self.refusals: Report[Refusal] = Report(Refusal)
        self.kinds: Counter[str] = Counter()  # of the lines so far
        self.sent = self.refused = 0
        self.delivered = 0  # copies of mqroute's
        # how many of the broker's copies of an own will may still wait, by client, topic and size
        self.own_wills: Counter[tuple[str, str, int]] = Counter()
        self.sessions = Sessions()
        self.users: dict[str, str | None] = {}  # of clients that have a session
        self.renamed: set[str] = set()  # who resumed a session with another user name
        self.backlog = Backlog()

    def add(self, step: Step) -> None:
        broker, mqroute = step.broker, step.mqroute
        resumes, again = self.follow(step.commands)
        drained, cut = self.receive(step, resumes)
        keys = broker.copies.keys() | mqroute.copies.keys()
        for key in sorted(keys) if len(keys) > 1 else keys:
            client = key[0]
            theirs, ours = broker.copies[key], mqroute.copies[key]
            self.delivered += len(ours)
            if ours and len(step.commands) > 1 and own_will(step, key):
                self.own_wills[*key, ours[0].size] = self.spread(step, key)
            waits = client in cut or (
                client not in drained and (client in step.flying or client in self.renamed))
            if waits or differ(theirs, ours):
                line = Line(step.place, key, theirs, ours)
                self.add_line(step, line, client in again, waits, client in cut)
        if broker.refused != mqroute.refused:
            self.add_refusals(step)
        self.refused += len(broker.refused)

    def add_line(self, step: Step, line: Line, again: bool, waits: bool, cut: bool) -> None:
        """One that differs, or of which more may come; `again` and `cut` are as in `owe`."""
        if line.differs():
            line.kind = self.kind(step, line.key)
            if line.kind == DIFFERENT and ((again and not line.theirs) or step.renamed):
                line.kind = TESTED_AGAIN
        if waits and self.owe(step, line, again, cut):
            line.number = self.found.number()
        elif line.kind:
            self.print(self.found.number(), line)

    def print(self, number: int, line: Line) -> None:
        """One of which nothing more comes."""
        self.found.add(number, line)
        self.kinds[line.kind] += 1

    def add_refusals(self, step: Step) -> None:
        one, other = Counter(step.broker.refused), Counter(step.mqroute.refused)
        for key in sorted((one - other) + (other - one)):
            kind = BROKER_REFUSED if one[key] else (
                DENIED_WILL if is_will(step, key) else MQROUTE_REFUSED)
            self.refusals.add(self.refusals.number(), Refusal(kind, step.place, key))
            self.kinds[kind] += 1

    def spread(self, step: Step, key: Key) -> int:
        """How many copies of a message the broker sends: with MQTT 5 one for each subscription."""
        return 1 if key[0] in step.old_protocol else self.sessions.spread(*key)

    def follow(self, commands: list[Command]) -> tuple[Set[str], Set[str]]:
        """Who resumes a session, and who of them with another user name than before."""
        if len(commands) == 1 and commands[0]["do"] == "publish":
            return NOBODY, NOBODY
        resumes: set[str] = set()
        again: set[str] = set()
        for command in commands:
            do, client = command["do"], command.get("client", "")
            if do == "connect":
                if self.sessions.present(command):
                    resumes.add(client)
                    again |= self.resume(client, command.get("user"))
                else:
                    self.settle([client], drained=False)
                    self.renamed.discard(client)
                self.users[client] = command.get("user")
            self.sessions.follow(command)
            if do == "disconnect" and not self.sessions.has(client):
                self.forget(client)
        return resumes, again

    def forget(self, client: str) -> None:
        """A session that has ended: of its filters only those of groups may still name a copy, that
        is logged all the same."""
        self.users.pop(client, None)
        groups, names = self.groups(client), self.sessions.filters.pop(client, {})
        if groups:
            self.sessions.filters[client] = {name: names[name] for name in groups}

    def resume(self, client: str, user: str | None) -> set[str]:
        """The client, if it has another user name now: what waits for it is tested again."""
        if user == self.users.get(client):
            return set()
        self.renamed.add(client)
        self.backlog.other_user(client)
        return {client}

    # -- what the broker sent

    def receive(self, step: Step, resumes: Set[str]) -> tuple[Set[str], Set[str]]:
        """Gives each copy to its step. Who has all that was held back now, and who was cut off."""
        if not step.events:
            return NOBODY, NOBODY
        drained: set[str] = set()
        cut: set[str] = set()
        apart: defaultdict[tuple[str, Key], list[Copy]] = defaultdict(list)
        for event in step.events:
            _, client, sent, _, special = event
            if sent is None:
                (cut if special else drained).add(client)
                if not special:
                    self.settle([client], drained=True)
                continue
            self.sent += 1
            key = client, sent.topic
            copy = copy_of(sent.qos, sent.retain, False, sent.size)
            found = self.kind_of(event, key, step, resumes, copy)
            if found is not None:
                (apart[found, key] if found else step.broker.copies[key]).append(copy)
        self.set_apart(step, apart)
        return drained, cut

    def set_apart(self, step: Step, apart: dict[tuple[str, Key], list[Copy]]) -> None:
        """Own wills are compared where mqroute has them too."""
        for (found, key), copies in sorted(apart.items()):
            ours, theirs = step.mqroute.copies.get(key, []), step.broker.copies.get(key, [])
            if found != BROKERS_TOPIC and ours and joined(theirs + copies) == joined(ours):
                step.broker.copies[key] = theirs + copies
            else:
                self.print(self.found.number(), Line(step.place, key, copies, [], found))

    def kind_of(self, event: Event, key: Key, step: Step, resumes: Set[str],
                copy: Copy) -> str | None:
        """The kind of a copy that mqroute hasn't; None: of an earlier step, empty: of this one."""
        if event.apart not in ("", OWN_WILL):
            return event.apart
        if event.released or event.client in resumes:
            return self.late(event, key, step, copy, event.client in resumes)
        if copy.qos and self.backlog.owed:
            self.settle([event.client], drained=True)  # what is held back would have gone first
        return ""

    def late(self, event: Event, key: Key, step: Step, copy: Copy, resumes: bool) -> str | None:
        """The same of a copy that was released, or sent to a client that comes back."""
        owed = self.backlog.take(key, copy.size, copy.retain)
        if owed:
            owed.line.theirs.append(copy)
            owed.line.last = event.place
            if not self.by_group(*key):
                self.name(self.backlog.passed(owed), drained=True)
            return None
        if resumes and self.is_due(step, key, copy.size):
            return ""
        if self.take_own_will((*key, copy.size)):
            return OWN_WILL
        if resumes:
            return "" if step.mqroute.copies.get(key) else event.apart
        if event.apart:
            return OWN_WILL
        if self.by_group(*key):
            return RETAINED_FOR_GROUP if copy.retain else MEMBERS_TURN
        return ""

    def take_own_will(self, will: tuple[str, str, int]) -> bool:
        """Whether a copy of it may still wait; then this is one."""
        left = self.own_wills.pop(will, 0)
        if left > 1:
            self.own_wills[will] = left - 1
        return left > 0

    def is_due(self, step: Step, key: Key, size: int) -> bool:
        """Whether mqroute has more copies of this size at the step than the broker has sent yet."""
        ours, theirs = (sum(copy.size == size for copy in side.copies.get(key, []))
                        for side in (step.mqroute, step.broker))
        return theirs < ours * self.spread(step, key)

    def by_group(self, client: str, topic: str) -> bool:
        """Whether a shared subscription of the client may have brought a copy."""
        return any(matches(plain_filter(name), topic) for name in self.groups(client))

    def groups(self, client: str) -> list[str]:
        names = self.sessions.filters.get(client, {})
        return [name for name in names if name.startswith("$share/")]

    # -- what it may still send

    def owe(self, step: Step, line: Line, again: bool, cut: bool) -> bool:
        """Whether more may come of this step."""
        client = line.key[0]
        if line.kind in (OWN_WILL, LOGGED_WILL) or not (cut or any(copy.qos for copy in line.ours)):
            return False
        did = {command["do"] for command in step.commands}
        spread = 1 if "subscribe" in did else self.spread(step, line.key)
        ours = line.ours[:1] if client in step.old_protocol and "publish" in did else line.ours
        if spread == 1 and len(ours) == 1 and any(is_alike(copy, ours[0]) for copy in line.theirs):
            return False
        room = Counter((copy.size, copy.retain) for copy in ours
                       for _ in range(1 if copy.shared else spread))
        room -= Counter((copy.size, copy.retain) for copy in line.theirs)
        if room:
            # what was dropped at a return under another name still counts as in flight
            full = cut or step.flying.get(client, False) or client in self.renamed
            late = CUT_OFF if cut else HELD_BACK
            self.backlog.add(Owed(step.about(line.key), line.key, line, room, full, late, again))
        return bool(room)

    def settle(self, clients: Iterable[str] | None, drained: bool) -> None:
        """Nothing more comes of what is owed; `drained`: nothing is held back any more."""
        if self.backlog.owed:
            self.name(self.backlog.settle(clients), drained)

    def name(self, found: Iterable[Owed], drained: bool) -> None:
        """Names the kinds of what came late, or didn't come."""
        for owed in found:
            line = owed.line
            same = not line.differs() or joined(line.theirs) == joined(line.ours)
            if owed.late and same:
                line.kind = owed.kind
            elif line.differs():
                line.kind = self.kind(owed.step, owed.key)
                if line.kind == DIFFERENT and owed.again and not owed.since:
                    line.kind = TESTED_AGAIN
                elif line.kind == DIFFERENT and owed.full and not drained:
                    line.kind = owed.kind
            if line.kind:
                self.print(line.number, line)

    # -- the result

    def kind(self, step: Step, key: Key) -> str:
        """As `kind`, with what waits since an earlier step."""
        found = kind(step, key)
        broker, mqroute = step.broker.copies.get(key), step.mqroute.copies.get(key)
        if found == DIFFERENT and mqroute and not broker and own_will(step, key):
            return OWN_WILL
        return found

    def lines(self) -> Iterator[Line | Refusal]:
        """All that differs, behind the last step."""
        self.settle(None, drained=False)
        yield from self.found
        yield from self.refusals

    def by_kind(self) -> list[tuple[str, int]]:
        """How many of these there are of each kind, most first."""
        return sorted(self.kinds.items(), key=lambda each: (-each[1], each[0]))
