"""Why copies are lost, gained or changed: the causes, and the words for them."""
from array import array
from typing import NamedTuple

KEPT = 20  # of so many copies of one cause the lines are kept
BEFORE, AFTER = 0, 1


class Cause(NamedTuple):
    """`kind` is one of WORDS, or `waited`, which `Queues` makes one of them
    when all has been read."""
    kind: str
    refused: str = ""  # the name of the refusal,
    newly: bool = True  # and whether the second run alone has it, or the first
    user: str | None = None  # of the publisher
    did: str = ""  # what was refused, where it isn't a publish
    run: int = BEFORE  # of `waited`: where the copy is missing,
    least: int = 0  # and how many copies waited there, from
    most: int = 0  # to


WORDS = {"reader": {"lost": "may no longer read", "gained": "may now read"},
         "queue": {"lost": "queue full", "gained": "queue no longer full"}}
READER, QUEUE, TURN, UNKNOWN = (Cause(kind) for kind in ("reader", "queue", "turn", "unknown"))


class Found(NamedTuple):
    """One copy that differs. `publish` is the line of the publish that it is of,
    where that is another line."""
    what: str  # lost, gained or changed
    cause: Cause
    publish: int = 0


def words(cause: Cause, what: str, user: str) -> str:
    """What a table says of a cause; `user` is the publisher's user name as it is shown."""
    refusal = ("refused ({})" if cause.newly else "no longer refused ({})").format(cause.refused)
    if cause.kind in ("publisher", "retained"):
        return (("retained message: " if cause.kind == "retained" else "")
                + f"publish by {user} {refusal}")
    if cause.kind == "session":
        return f"{cause.did} {refusal}"
    return ("another member's turn" if cause.kind == "turn"
            else WORDS.get(cause.kind, {}).get(what, "unknown"))


class Queues:
    """What is known of how many copies may wait for a client, in each run: at least
    so many, at most so many."""

    def __init__(self) -> None:
        self.least = [0, 0]
        self.most: list[int | None] = [None, None]

    def holds(self, run: int, count: int) -> None:
        self.least[run] = max(self.least[run], count)

    def full_at(self, run: int, count: int) -> None:
        most = self.most[run]
        self.most[run] = count if most is None else min(most, count)

    def resolved(self, cause: Cause) -> Cause:
        """Of a copy that is missing though its publish was accepted: whether the queue was full,
        or the client may not read."""
        if cause.kind != "waited":
            return cause
        most = self.most[cause.run]
        if cause.most < self.least[cause.run]:
            return READER
        return QUEUE if most is not None and cause.least >= most else UNKNOWN


class Names:
    """Texts that stand for themselves as numbers."""

    def __init__(self) -> None:
        self.texts: list[str] = []
        self.numbers: dict[str, int] = {}

    def number(self, text: str) -> int:
        if text not in self.numbers:
            self.numbers[text] = len(self.texts)
            self.texts.append(text)
        return self.numbers[text]


class Tally:
    """The copies (or refused lines) of one row and one cause: how many, whose, and the
    first lines of the script."""

    def __init__(self) -> None:
        self.count = 0
        self.clients: set[str] = set()
        # four numbers each: the line, that of the publish or 0, the client, the topic
        self.places = array("I")

    def add(self, line: int, publish: int, client: str, topic: str, names: Names) -> None:
        self.count += 1
        self.clients.add(client)
        if len(self.places) < 4 * KEPT:
            self.places.extend((line, publish, names.number(client), names.number(topic)))

    def merge(self, other: "Tally") -> None:
        self.count += other.count
        self.clients |= other.clients
        both = sorted({*self.quads(), *other.quads()})[:KEPT]
        self.places = array("I", [number for quad in both for number in quad])

    def quads(self) -> list[tuple[int, int, int, int]]:
        at = self.places
        return [(at[i], at[i + 1], at[i + 2], at[i + 3]) for i in range(0, len(at), 4)]
