"""What mqroute-acl answers about both lists: rights, remarks, and subscriptions that can receive
nothing."""
import json
from collections import Counter
from collections.abc import Callable, Iterator

from ..common.messages import named
from ..common.programs import output_of
from ..common.texts import lines as lines_of
from ..script.access_list import AccessList, Line
from .findings import Client, Deciding, Json, Remark, Right, Subscription
from .not_taken import KINDS, ListsNotTaken, NotTaken


class Lists:
    """The list that is in force and the one that is proposed, and by whose rules they are read."""

    def __init__(self, current: str, proposed: str, rules: str) -> None:
        self.current = AccessList(current, rules)
        self.proposed = AccessList(proposed, rules)
        self.rules = rules
        self.plan: list[str] = []  # the option for it, if topics are renamed
        self.plan_name = ""
        self.names = {one.path: named(one.name) for one in (self.current, self.proposed)}

    def rename(self, plan: str, name: str) -> None:
        """From here on the proposed list has new names by the plan, a file of another name."""
        self.plan, self.plan_name, self.names[plan] = [f"--plan={plan}"], name, named(name)

    def asked(self, subcommand: str, words: list[str]) -> list[Json]:
        """Raises Fault where mqroute-acl ends with another status than 0 and 1."""
        given = [self.current.program, subcommand, "--json", f"--rules={self.rules}", *words]
        done = output_of(given, self.named)
        return [json.loads(line) for line in lines_of(done.stdout.decode("utf-8"))]

    def refuse_not_taken(self) -> None:
        """Raises ListsNotTaken where mosquitto doesn't take a line, whatever the rules are. Of a
        list without such a line nothing is looked for that takes long, nor is a fault said that
        `rights` meets."""
        lines = []
        for one in (self.current, self.proposed):
            words = ["lint", "--json", "--rules=mosquitto", "--steps=1", "--", one.path]
            done = output_of([one.program, *words], self.named, (0, 1, 2))
            rows = map(json.loads, lines_of(done.stdout.decode("utf-8")))
            lines += [NotTaken(Line(one.name, row["line"], row["text"]), row["words"])
                      for row in rows if row.get("kind") in KINDS]
        if lines:
            raise ListsNotTaken(lines)

    def named(self, text: str) -> str:
        """With the names of the files, where the programs read copies."""
        for path, name in self.names.items():
            text = text.replace(path, name) if path != name else text
        return text

    def rights(self) -> list[Right]:
        """The differences that `mqroute-acl compare` shows, each with all whom it concerns."""
        known: dict[tuple[str, str, str, int, int], Right] = {}
        for row in self.asked("compare", [*self.plan, "--", self.current.path, self.proposed.path]):
            old, new = self.current.line(row["old"]), self.proposed.line(row["new"])
            key = row["change"], row["access"], row["topic"], number(old), number(new)
            right = known.setdefault(key, Right(
                *key[:3], Deciding(old, new), [], row.get("new_topic"), self.rule(row)))
            right.clients.append(Client(row["user"], row["client"], row["placeholders"]))
        return list(known.values())

    def rule(self, row: Json) -> Line | None:
        """The line of the plan that decides about the topic."""
        found = row.get("rule")
        return Line(self.plan_name, found["line"], found["text"]) if found else None

    def newly_receiving_nothing(self, scripts: tuple[str, str],
                                own: Callable[[int], int]) -> list[Subscription]:
        """Those that can receive something under the current list, and nothing under the proposed
        one: once for each client, user name and filter. Each list has a script; `own` gives the
        lines by which both are compared."""
        before = {own(one.line) for one in self.receiving_nothing(self.current, scripts[0])}
        found = {(one.client, one.user, one.filter): one
                 for one in reversed(self.receiving_nothing(self.proposed, scripts[1]))
                 if own(one.line) not in before}
        for one in found.values():
            one.line = own(one.line)
        return sorted(found.values(), key=lambda one: (one.client, one.filter, one.line))

    def receiving_nothing(self, one: AccessList, script: str) -> list[Subscription]:
        rows = self.asked("reach", [f"--script={script}", "--", one.path])
        return [Subscription(row["line"], row["client"], row["user"], row["filter"])
                for row in rows if "filter" in row]

    def new_remarks(self) -> Iterator[Remark]:
        """The remarks of `mqroute-acl lint` on the proposed list: those on texts of lines on which
        it remarks the same in the current list are left out, as often as there."""
        known = Counter((one.kind, one.text) for one in self.remarks(self.current))
        for one in self.remarks(self.proposed):
            if known[one.kind, one.text]:
                known[one.kind, one.text] -= 1
            else:
                yield one

    def remarks(self, one: AccessList) -> list[Remark]:
        rows = self.asked("lint", ["--", one.path])
        return [Remark(row["kind"], row["line"], row["text"], row["words"]) for row in rows]


def number(line: Line | None) -> int:
    return line.line if line else 0
