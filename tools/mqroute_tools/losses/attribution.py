"""The cause of each copy that only one of two runs of a script has, or that
differs between them."""
from collections import Counter
from collections.abc import Callable, Iterable, Mapping

from ..script.output import Block, Command, Key, read_json
from .causes import AFTER, BEFORE, READER, TURN, UNKNOWN, Found, Queues
from .history import History
from .queued_copies import QueuedCopies

Grouped = Mapping[Key, list[str]]
Slot = tuple[str, str] | None  # share name and filter of a group's copy
Teller = Callable[[Key, list[str], list[str]], list[Found]]
NONE: list[str] = []
WHAT = ("lost", "gained", "changed")


def difference(old: list[str], new: list[str]) -> tuple[int, int, int]:
    """How many copies of one client, topic and line are lost, gained and changed."""
    if old == new or not (old and new):
        return (0, 0, 0) if old == new else (len(old), len(new), 0)
    same = (Counter(old) & Counter(new)).total()
    return max(0, len(old) - len(new)), max(0, len(new) - len(old)), min(len(old), len(new)) - same


def rest(these: list[str], those: list[str]) -> list[str]:
    return list((Counter(these) - Counter(those)).elements()) if those else these


def slot(text: str) -> Slot:
    if '"share":' not in text:
        return None
    copy = read_json(text)
    return (copy["share"], copy["filter"]) if "share" in copy else None


def groups(copies: Iterable[str]) -> set[Slot]:
    return set(map(slot, copies)) - {None}


class Attribution:
    """Goes through the script line by line, with both answers to each."""

    def __init__(self) -> None:
        self.history, self.queues = History(), Queues()

    def user(self, client: str) -> str | None:
        return self.history.users.get(client)

    def begin(self, command: Command, before: Block, after: Block) -> None:
        self.history.begin(command, before, after)

    def end(self, command: Command, before: Block, after: Block, was: Grouped) -> None:
        do = command.get("do")
        for run, block in enumerate((before, after)):
            if do == "connect":
                self.queues.holds(run, len(block.copies))
            elif do == "publish" and block.reason == 0 and not block.copies:
                self.queues.holds(run, 1)
        if do == "publish" and self.history.kept and was and before.copies == after.copies:
            for client, topic in was:
                if client in self.history.kept:
                    self.history.rights.learn(client, topic, (True, True))
        self.history.end(before.line, command, before, after)

    def differing(self, command: Command, blocks: tuple[Block, Block], was: Grouped,
                  now: Grouped) -> dict[Key, list[Found]]:
        """What is lost, gained and changed of each client and topic, copy by copy."""
        shown: dict[Key, list[Found]] = {}
        refused = self.history.refusal(command, *blocks)
        of_others = None if refused else self.sayer(command, blocks)
        for key in sorted(was.keys() | now.keys()):
            old, new = was.get(key, NONE), now.get(key, NONE)
            counts = difference(old, new)
            if counts == (0, 0, 0):
                continue
            one = Found("", refused) if refused else self.history.sessions.get(key[0])
            if one or not of_others:
                shown[key] = everything(counts, one or Found("", UNKNOWN))
            else:
                found = of_others(key, old, new)
                agrees = tuple(sum(f.what == what for f in found) for what in WHAT) == counts
                shown[key] = found if agrees else everything(counts, Found("", UNKNOWN))
        return shown

    def sayer(self, command: Command, blocks: tuple[Block, Block]) -> Teller | None:
        """What shows the causes, where both runs accepted the line."""
        do = command.get("do")
        if do == "publish":
            shared = [groups(block.copies) for block in blocks]
            return lambda key, old, new: self.live(key, old, new, shared)
        if do == "subscribe":
            return lambda key, old, new: self.retained(command, key, difference(old, new))
        if do == "connect":
            waited = QueuedCopies(self.history, self.queues, str(command.get("client")), blocks)
            return lambda key, old, new: waited.of(key[1])
        return None

    def live(self, key: Key, old: list[str], new: list[str],
             shared: list[set[Slot]]) -> list[Found]:
        """Of a publish that both runs accepted. Where the other run has a copy of the
        group, another member got it."""
        gone, come = [sorted(map(slot, texts), key=lambda s: s is None)
                      for texts in (rest(old, new), rest(new, old))]
        pairs = min(len(gone), len(come))
        found = [Found("changed", TURN if a and b and a != b else UNKNOWN)
                 for a, b in zip(gone, come)]
        for what, left, other in (("lost", gone[pairs:], AFTER), ("gained", come[pairs:], BEFORE)):
            for one in left:
                found.append(Found(what, TURN if one and one in shared[other] else READER))
                if one is None and key[0] in self.history.kept and not pairs:
                    self.history.rights.learn(*key, (what == "lost", what == "gained"))
        return found

    def retained(self, command: Command, key: Key,
                 counts: tuple[int, int, int]) -> list[Found]:
        """Of a retained message at a subscribe."""
        runs, cause, line = self.history.retained(key[1])
        if self.history.clocks_differ or sum(counts) != 1:
            return []
        if counts[2]:
            return [Found("changed", cause._replace(kind="retained"), line)] if cause else []
        what, has, lacks = ("lost", BEFORE, AFTER) if counts[0] else ("gained", AFTER, BEFORE)
        if not runs[has]:
            return []
        other = runs[lacks]
        if (other and not self.history.over(other.deadline)
                and not (command.get("no_local") and other.client == key[0])):
            return [Found(what, READER, other.line)]  # it is retained, and was not sent
        return [Found(what, cause._replace(kind="retained"), line)] if cause else []


def everything(counts: tuple[int, int, int], found: Found) -> list[Found]:
    """One cause for all."""
    return [found._replace(what=what) for what, count in zip(WHAT, counts) for _ in range(count)]
