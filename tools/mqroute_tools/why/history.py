"""What the script has made by a line: sessions, subscriptions, turns in groups, the list that is
set. The commands are those that mqroute accepted, and whose turn it was is what it wrote."""
import heapq
from dataclasses import dataclass, field

from ..common.tables import shown
from ..script.output import Block, Command, read_json
from ..script.sessions import FOREVER
from ..script.topics import matches, plain_filter
from .disagreement import Disagreement
from .references import ref

GROUP = '"share":'  # what the copy of a group has
NOT_KEPT = "and its session isn't kept: Session Expiry Interval 0"


@dataclass
class Subscription:
    filter: str  # as it was subscribed, with $share/NAME/
    line: int  # of its last subscribe
    turn: int  # the line by which it joined its group, or was last served
    qos: int
    no_local: bool
    rap: bool

    def is_shared(self) -> bool:
        return self.filter.startswith("$share/")

    def matches(self, topic: str) -> bool:
        return matches(plain_filter(self.filter), topic)

    def in_words(self) -> str:
        return f"{ref(self.line)} {shown(self.filter)}"


@dataclass
class Session:
    user: str | None
    interval: int
    left: int = 0  # the line at which its client left; 0 while it is connected
    end: int | None = None  # the moment at which it ends, if its client stays away
    subscriptions: dict[str, Subscription] = field(default_factory=dict)

    def matching(self, topic: str, shared: bool) -> list[Subscription]:
        return [one for one in self.subscriptions.values()
                if one.is_shared() == shared and one.matches(topic)]


@dataclass
class Ending:
    """The line at which a session or a subscription ended, and how."""
    line: int
    how: str

    def in_words(self) -> str:
        return f"{ref(self.line)}: {self.how}"


Lost = tuple[Subscription, Ending]


class History:
    def __init__(self) -> None:
        self.now = 0
        self.sessions: dict[str, Session] = {}
        self.known: dict[str, None] = {}  # clients that have connected, in the order of that
        self.ended: dict[str, Ending] = {}  # the last session of a client that has none
        # by client and filter, the last subscription that ended
        self.gone: dict[str, dict[str, Lost]] = {}
        self.ends: list[tuple[int, str]] = []  # of sessions of clients that are away: a heap
        self.list_line = 0  # the last line that set a list, or none; 0: no line did
        self.list_text: str | None = None

    def follow(self, number: int, command: Command, block: Block) -> None:
        """One line that mqroute accepted."""
        do, client = command["do"], command.get("client", "")
        if do == "connect":
            self.connect(number, client, command)
        elif do == "disconnect":
            self.leave(number, client, self.session(number, client), f"it left, {NOT_KEPT}")
        elif do == "subscribe":
            self.subscribe(number, client, command)
        elif do == "unsubscribe":
            gone = self.session(number, client).subscriptions.pop(command["filter"], None)
            if gone:
                self.lose(client, gone, Ending(number, "it unsubscribed"))
        elif do == "publish":
            self.turn(number, block)
        elif do == "advance":
            self.advance(number, command["seconds"])
        elif do == "acl":
            self.list_line, self.list_text = number, command.get("text")

    def session(self, number: int, client: str) -> Session:
        """Of a client that is connected, as mqroute says."""
        found = self.sessions.get(client)
        if found is None or found.left:
            raise Disagreement(number, f"{shown(client)} isn't connected")
        return found

    def connect(self, number: int, client: str, command: Command) -> None:
        older = self.sessions.get(client)
        if older and not older.left:
            self.leave(number, client, older, f"it connected again, {NOT_KEPT}")
        if command.get("clean", True) and client in self.sessions:
            self.finish(client, Ending(number, "it began a new session, by Clean Start"))
        self.known.setdefault(client)
        self.ended.pop(client, None)
        kept = self.sessions.get(client)
        self.sessions[client] = Session(
            command.get("user"), command.get("session_expiry", 0),
            subscriptions=kept.subscriptions if kept else {})

    def leave(self, number: int, client: str, session: Session, how: str) -> None:
        if session.interval == 0:
            self.finish(client, Ending(number, how))
            return
        session.left = number
        if session.interval != FOREVER:
            session.end = self.now + session.interval
            heapq.heappush(self.ends, (session.end, client))

    def finish(self, client: str, ending: Ending) -> None:
        session = self.sessions.pop(client)
        self.ended[client] = ending
        for one in session.subscriptions.values():
            self.lose(client, one, ending)

    def lose(self, client: str, gone: Subscription, ending: Ending) -> None:
        self.gone.setdefault(client, {})[gone.filter] = gone, ending

    def subscribe(self, number: int, client: str, command: Command) -> None:
        name, held = command["filter"], self.session(number, client).subscriptions
        turn = held[name].turn if name in held else number
        held[name] = Subscription(name, number, turn, command.get("qos", 0),
                                  command.get("no_local", False), command.get("rap", False))

    def turn(self, number: int, block: Block) -> None:
        for text in block.copies:
            copy = read_json(text) if GROUP in text else {}
            if "share" in copy:  # and not in another text alone
                self.serve(number, copy["client"], f"$share/{copy['share']}/{copy['filter']}")

    def serve(self, number: int, client: str, group: str) -> None:
        member = self.session(number, client).subscriptions.get(group)
        if member is None:
            raise Disagreement(number, f"{shown(client)} is not a member of {shown(group)}")
        member.turn = number

    def advance(self, number: int, seconds: int) -> None:
        self.now += seconds
        while self.ends and self.ends[0][0] <= self.now:
            end, client = heapq.heappop(self.ends)
            session = self.sessions.get(client)
            if session and session.end == end:
                how = f"it had been away since {ref(session.left)}, and its session expired"
                self.finish(client, Ending(number, how))
