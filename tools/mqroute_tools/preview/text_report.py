"""What a preview finds, as text for a terminal or a file."""
from collections.abc import Callable, Iterable, Iterator
from typing import TypeVar

from ..common.files import at
from ..common.messages import named
from ..common.tables import shown
from ..common.terminal import BOLD, DIM, GREEN, RED, YELLOW, Terminal
from ..common.texts import escaped, quoted
from ..plan.kept import AWAY as STAYS_AWAY, STAYS, Move, OldSession
from ..script.access_list import Line
from .findings import (
    Carried, Cause, Deciding, Preview, RefusedRow, Remark, Right, Subscription, UserRow)
from .gathered_topics import Topics
from .words import (
    AWAY, CARRIED, NO_LINE, NO_RULE, NO_TOPIC, NO_USE, RETAINED, changes,
    client_of, concerned, may, refusals, scope_of, summary, topic_count, tried, unused, used, verb,
    waits, whom)

ROWS = 20  # of each section
CAUSES, TOPICS = 6, 4  # of each row
Row = TypeVar("Row")
PAINT = {"lost": RED, "refused": RED, "gained": GREEN, "accepted": GREEN}
COUNTED = {"lost": "lost", "gained": "gained", "changed": "changed", "refused": "refused",
           "accepted": "no longer refused"}
KEEP_HINT = ("with --save FOLDER the script stays, and each cause has a command that shows more "
             "of its first line")


def report(found: Preview, out: Terminal) -> str:
    return Report(found, out).text()


class Report:
    def __init__(self, found: Preview, out: Terminal) -> None:
        self.found, self.out = found, out
        self.current, self.proposed = (
            shown(named(name)) for name in (found.current, found.proposed))

    def text(self) -> str:
        found = self.found
        parts = [self.check(), self.head()] if found.check or found.said else [self.head()]
        sections: list[tuple[str, Iterator[str]]] = [
            ("Who loses, who gains, of the messages delivered",
             self.first(found.users, self.user)),
            ("Whose publishes are refused, whose no longer",
             self.first(found.refused, self.refused)),
            ("Newly allowed, whether or not anybody tried",
             self.first(used(found.granted), self.right)),
            ("No longer allowed, whether or not anybody tried",
             self.first(used(found.taken), self.right)),
            (f"Newly allowed, {NO_TOPIC}", self.first(unused(found.granted), self.right)),
            (f"No longer allowed, {NO_TOPIC}", self.first(unused(found.taken), self.right)),
            ("Subscriptions that can receive nothing any more",
             self.first(found.subscriptions, self.subscription)),
            (CARRIED, self.first(found.carried, self.carried)),
            (RETAINED, self.retained()), (AWAY, self.away()),
            (f"New remarks on {self.proposed}", self.first(found.remarks, self.remark))]
        for title, lines in sections:
            body = list(lines)
            parts += ["\n".join([self.out.painted(BOLD, title), *body])] if body else []
        if found.could_keep and found.causes():
            parts.append("\n".join(self.dim(KEEP_HINT, "", "")))
        parts += ["\n".join(self.out.wrapped(found.reload.words())), summary(found)]
        return "\n\n".join(parts) + "\n"

    def head(self) -> str:
        found = self.found
        sources = ", ".join(shown(named(name)) for name in found.sources)
        return "\n".join(self.out.wrapped(
            f"{self.proposed} in place of {self.current}{renamed(found)}, tried on {sources}: "
            f"{tried(found)}"))

    def check(self) -> str:
        """Whether the current list was in force, and of what the answer is."""
        lines = self.found.check.lines() if self.found.check else []
        lines += self.found.said
        return "\n".join(part for line in lines for part in self.out.wrapped(line))

    def first(self, rows: list[Row], shows: Callable[[Row], Iterable[str]]) -> Iterator[str]:
        for row in rows[:ROWS]:
            yield from shows(row)
        if len(rows) > ROWS:
            yield f"  and {len(rows) - ROWS:,} more: --json has all"

    def dim(self, text: str, indent: str, later: str | None = None) -> list[str]:
        return [self.out.painted(DIM, line) for line in self.out.wrapped(text, indent, later)]

    # -- rows

    def user(self, row: UserRow) -> Iterator[str]:
        colour = RED if row.lost else GREEN if row.gained else ""
        yield from self.head_of(f"{whom(row.user)} {', '.join(changes(row))}", colour)
        for topics, word in ((row.topics_lost, "loses"), (row.topics_gained, "gains")):
            if topics:
                both = bool(row.topics_lost and row.topics_gained)
                yield from self.topics(topics, f"{verb(row.user, word)} " if both else "")
        yield from self.causes(row.causes)

    def refused(self, row: RefusedRow) -> Iterator[str]:
        colour = RED if row.refused else GREEN
        yield from self.head_of(f"{whom(row.user)} {refusals(row)}", colour)
        yield from self.topics(row.topics, "")
        yield from self.causes(row.causes)

    def head_of(self, text: str, colour: str) -> list[str]:
        lines = self.out.wrapped(text, "  ", "      ")
        return [self.out.painted(colour, line) if colour else line for line in lines]

    def topics(self, topics: list[Topics], what: str) -> list[str]:
        names = ", ".join(f"{listed(row.filter)}{arrow(row.new)}{topic_count(row)}"
                          for row in topics[:TOPICS])
        more = f" and {len(topics) - TOPICS:,} more" if len(topics) > TOPICS else ""
        return self.out.wrapped(f"{what}{names}{more}", "      ", "        ")

    def causes(self, causes: list[Cause]) -> Iterator[str]:
        for cause in causes[:CAUSES]:
            yield from self.cause(cause)
        if len(causes) > CAUSES:
            yield f"    and {len(causes) - CAUSES:,} more causes"

    def cause(self, cause: Cause) -> Iterator[str]:
        count = self.out.painted(PAINT.get(cause.what, ""), f"{cause.count:,}")
        words = f"{COUNTED[cause.what]}: {cause.because}"
        first, *others = self.out.wrapped(f"{cause.count:,} {words}", "    ", "        ")
        yield first.replace(f"{cause.count:,}", count, 1)
        yield from others
        if cause.deciding:
            yield from self.deciding(cause.deciding, "        ")
        if cause.command:
            yield self.out.painted(DIM, f"        {cause.command}")  # whole, to be pasted
        else:
            place = cause.lines[0]
            client = f", client {listed(place.client)}" if place.client else ""
            where = cause.log or f"line {place.line} of the script"
            yield from self.dim(f"first at {where}{client}", "        ")

    def deciding(self, lines: Deciding, indent: str,
                 more: Iterable[tuple[str, str]] = ()) -> list[str]:
        """The line of each list, or that none allows it; and what else decides."""
        found = self.found
        sides = [side(found.current, lines.current), side(found.proposed, lines.proposed), *more]
        width = max(len(place) for place, _ in sides)
        return [line for place, words in sides for line in
                self.dim(f"{place.ljust(width)}  {words}", indent, indent + "    ")]

    def right(self, right: Right) -> Iterator[str]:
        colour = YELLOW if right.is_new_write() else PAINT[right.change]
        yield from self.out.fitted([concerned(right)], "  ")
        topics, *such_as = scope_of(right)
        parts = [f"{may(right)}  {topics}", *such_as, client_of(right)]
        for line in self.out.fitted(parts, "    "):
            yield self.out.painted(colour, line)
        plan = self.found.plan
        rules = [side(plan, right.rule, NO_RULE)] if plan else []
        yield from self.deciding(right.deciding, "      ", rules)
        if right.proposal:
            yield from self.out.wrapped(f"{NO_USE} {escaped(right.proposal.in_words())}", "      ")

    def subscription(self, one: Subscription) -> list[str]:
        user = user_of(one.user)
        script = self.found.script
        place = at(shown(script), one.line) if script else f"line {one.line} of the script"
        wanted = shown(one.filter)
        if one.was not in (None, one.filter):
            wanted = f"{shown(one.was or '')} -> {wanted}"
        return self.out.fitted([place, f"{shown(one.client)}  {user}", wanted], "  ")

    def carried(self, one: Carried) -> Iterator[str]:
        place = at(shown(named(self.name())), one.line)
        yield from self.out.fitted([place, shown(one.was or one.words)], "  ")
        if one.was is not None:
            becomes = ", ".join(map(listed, one.becomes))
            yield from self.out.wrapped(f"-> {becomes}" if becomes else "-> nothing", "      ",
                                        "         ")
            yield from self.dim(one.words, "      ")

    def retained(self) -> Iterator[str]:
        """What is retained under old names, and how that is moved."""
        names = self.found.kept
        if names is None or not names.kept.moves:
            return
        yield from self.out.wrapped(names.kept.of_retained(), "  ")
        yield from self.first(names.kept.moves, self.move)
        yield from self.out.wrapped(f"{STAYS} {names.hint()}".strip(), "  ")
        yield from self.dim(names.kept.unknown(), "  ")

    def move(self, one: Move) -> Iterator[str]:
        place, message = at(shown(named(self.name())), one.message.line), one.message
        new = "(no new name)" if one.new is None else listed(one.new)
        yield from self.out.fitted(
            [place, shown(message.client), f"{listed(message.topic)} -> {new}"], "  ")
        if one.why:
            yield from self.dim(one.why, "      ")

    def away(self) -> Iterator[str]:
        names = self.found.kept
        if names is None or not names.kept.sessions:
            return
        yield from self.out.wrapped(names.kept.of_sessions(), "  ")
        yield from self.first(names.kept.sessions, self.session)
        yield from self.out.wrapped(STAYS_AWAY, "  ")
        yield from self.dim(names.kept.unknown(), "  ")

    def session(self, one: OldSession) -> Iterator[str]:
        place = at(shown(named(self.name())), one.away.line)
        client = f"{shown(one.away.client)}  {user_of(one.away.user)}"
        yield from self.out.fitted([place, client, waits(one.waiting)], "  ")
        for was, new in one.becomes.items():
            becomes = ", ".join(map(listed, new)) or "nothing"
            yield from self.out.wrapped(f"{shown(was)} -> {becomes}", "      ", "         ")

    def name(self) -> str:
        """Of the script."""
        found = self.found
        return found.script or "the script of " + ", ".join(found.sources)

    def remark(self, one: Remark) -> Iterator[str]:
        if one.line is None:
            yield from self.out.wrapped(one.words, "  ", "      ")
            return
        place = at(self.proposed, one.line)
        yield from self.out.fitted([place, shown((one.text or "").strip())], "  ")
        yield from self.dim(one.words, "      ")


def user_of(user: str | None) -> str:
    return "no user name" if user is None else f"user {shown(user)}"


def listed(name: str) -> str:
    """In quotes too where it could be taken for several."""
    return quoted(name) if ", " in name else shown(name)


def renamed(found: Preview) -> str:
    return f", topics renamed by {shown(named(found.plan))}" if found.plan else ""


def arrow(new: str | None) -> str:
    """What a plan makes of a topic, unless it stays."""
    return f" -> {listed(new)}" if new else ""


def side(name: str, line: Line | None, none: str = NO_LINE) -> tuple[str, str]:
    if line is None:
        return shown(named(name)), none
    place = shown(named(line.file))
    return at(place, line.line) if line.line else place, shown(line.text.strip())
