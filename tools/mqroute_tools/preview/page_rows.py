"""The rows of a preview's page."""
from collections.abc import Iterable, Iterator

from ..common.files import at
from ..common.messages import counted, named, typed
from ..losses.html_escape import escaped, visible
from ..losses.script_lines import script_lines
from ..plan.kept import Kept, Move, OldSession
from ..script.access_list import Line
from .findings import (
    Carried, Cause, Deciding, Preview, RefusedRow, Remark, Right, Subscription, UserRow)
from .gathered_topics import Topics
from .page_tables import Column, cell, head_cell, number, row, table
from .words import (
    NO_LINE, NO_RULE, NO_TOPIC, NO_USE, OTHERWISE, but_for, client_of, concerned, example_of, may,
    publishes_of, share, topic_count, topic_of, whom)

USERS = (Column("User"), Column("Clients", True), Column("Before", True), Column("After", True),
         Column("Lost", True), Column("Gained", True), Column("Topics"))
REFUSED = (Column("User"), Column("Clients", True), Column("Refused", True),
           Column("No longer", True), Column("Topics"))
RIGHTS = (Column("Who"), Column("What"), Column("Topics"), Column("Line that decides"))
MOST_ON_PAGE = 40  # user names that a right is of
COUNTED = {"lost": "messages lost", "gained": "messages gained", "refused": "publishes refused",
           "accepted": "publishes no longer refused", "changed": f"messages with {OTHERWISE}"}


class Rows:
    def __init__(self, found: Preview) -> None:
        self.found = found

    def users(self) -> str:
        rows = (part for one in self.found.users for part in self.user(one))
        return table("users", "Messages delivered, by user name; of those for whom something "
                     "changes", USERS, rows)

    def user(self, one: UserRow) -> Iterator[str]:
        lost = f" ({share(one.lost, one.before)})" if one.lost else ""
        topics = topic_list(one.topics_lost, "") + topic_list(
            one.topics_gained, "gained: " if one.topics_lost else "")
        yield row((head_cell(f"<bdi>{escaped(whom(one.user))}</bdi>"),
                   number(one.clients, "clients", "clients"),
                   number(one.before, "before", "before"), number(one.after, "after", "after"),
                   number(one.lost, "lost share" if one.lost else "none share", "lost", lost),
                   number(one.gained, "gained" if one.gained else "none", "gained"),
                   cell(topics, "of-topics")), "above")
        yield self.opens(one.user, one.causes, len(USERS))

    def refused(self) -> str:
        rows = (part for one in self.found.refused for part in self.refused_user(one))
        return table("refused", "Publishes that one list alone refuses, by the publisher's user "
                     "name", REFUSED, rows)

    def refused_user(self, one: RefusedRow) -> Iterator[str]:
        yield row((head_cell(f"<bdi>{escaped(whom(one.user))}</bdi>"),
                   number(one.clients, "clients", "clients"),
                   number(one.refused, "lost" if one.refused else "none", "refused"),
                   number(one.accepted, "gained" if one.accepted else "none", "no longer"),
                   cell(topic_list(one.topics, ""), "of-topics")), "above")
        yield self.opens(one.user, one.causes, len(REFUSED))

    def opens(self, user: str | None, causes: list[Cause], columns: int) -> str:
        """A row below, which opens to the causes."""
        inside = "".join(self.cause(cause) for cause in causes)
        summary = (f"{counted(len(causes), 'causes', ',')}<span class='hidden'> for "
                   f"<bdi>{escaped(whom(user))}</bdi></span>")
        details = f"<details><summary>{summary}</summary>{inside}</details>"
        return row([cell(details, across=columns)], "opens")

    def cause(self, cause: Cause) -> str:
        words = (f"<p><b class='{paint(cause.what)} count'>{cause.count:,}</b> "
                 f"{COUNTED[cause.what]}: <bdi class='because'>{escaped(cause.because)}</bdi></p>")
        deciding = self.deciding(cause.deciding) if cause.deciding else ""
        command = (f"<p class='command'>Ask about the first: <code>{escaped(cause.command)}</code>"
                   "</p>" if cause.command else "")
        log = f"<p class='log'>First at <bdi>{escaped(cause.log)}</bdi></p>" if cause.log else ""
        of = "publishes" if cause.what in ("refused", "accepted") else "messages"
        lines = script_lines(cause.lines, cause.count, of, self.found.facts.texts)
        return f"<div class='cause'>{words}{deciding}{log}{command}{lines}</div>"

    def deciding(self, lines: Deciding, rule: str = "") -> str:
        """The line of each list, or that none allows it; and of a plan."""
        sides = ((self.found.current, lines.current), (self.found.proposed, lines.proposed))
        items = "".join(decider(name, line) for name, line in sides)
        return f"<dl class='decides'>{items}{rule}</dl>"

    def rule(self, right: Right) -> str:
        """The line of the plan that is about the topic."""
        plan = self.found.plan
        return decider(plan, right.rule, NO_RULE) if plan else ""

    def rights(self, name: str, rights: list[Right], caption: str) -> str:
        return table(name, caption, RIGHTS, map(self.right, rights))

    def right(self, one: Right) -> str:
        notes = client_of(one)
        more = f"<div class='placeholders'>{escaped(notes)}</div>" if notes else ""
        return row((head_cell(f"<bdi>{escaped(concerned(one, MOST_ON_PAGE))}</bdi>"),
                    cell(may(one), f"may {warning(one)}"),
                    cell(topics_of(one) + more + nobody(one), "topic"),
                    cell(self.deciding(one.deciding, self.rule(one)), "lines")))

    def subscriptions(self) -> str:
        columns = Column("Client"), Column("User"), Column("Filter"), Column("Line of the script")
        return table("receive-nothing", "By the proposed list these clients may read no topic "
                     "that the filter matches", columns,
                     map(self.subscription, self.found.subscriptions))

    def subscription(self, one: Subscription) -> str:
        return row((head_cell(f"<bdi>{visible(one.client)}</bdi>"),
                    cell(user_of(one.user), name="user"),
                    cell(renamed(one.was, one.filter)), cell(f"{one.line:,}", "line", "line")))

    def carried(self) -> str:
        columns = (Column("Line of the script"), Column("Subscription"), Column("Becomes"),
                   Column("Remark"))
        return table("carried", f"As <code>{typed('plan')} check</code> shows it", columns,
                     map(self.carried_row, self.found.carried))

    def carried_row(self, one: Carried) -> str:
        becomes = "".join(f"<li>{code(name)}</li>" for name in one.becomes)
        return row((head_cell(f"{one.line:,}"), cell(code(one.was) if one.was else ""),
                    cell(f"<ul class='topics'>{becomes}</ul>" if becomes else ""),
                    cell(escaped(one.words))))

    def retained(self, kept: Kept) -> str:
        columns = (Column("Line of the script"), Column("Client"), Column("Retained"),
                   Column("Becomes"), Column("Remark"))
        return table("retained", escaped(kept.of_retained()), columns, map(move_row, kept.moves))

    def away(self, kept: Kept) -> str:
        columns = (Column("Client"), Column("User"), Column("Line of the script"),
                   Column("Messages that wait", True), Column("Subscribed to"))
        return table("away", escaped(kept.of_sessions()), columns, map(session_row, kept.sessions))

    def remarks(self) -> str:
        columns = Column("Line"), Column("Text"), Column("Remark")
        lint = typed("acl lint")
        return table("remarks", f"What <code>{lint}</code> says of the proposed list, and not of "
                     "the current one", columns, map(self.remark, self.found.remarks))

    def remark(self, one: Remark) -> str:
        where = "the list" if one.line is None else escaped(at(self.found.proposed, one.line))
        text = f"<code><bdi>{escaped((one.text or '').strip())}</bdi></code>" if one.text else ""
        return row((head_cell(f"<bdi>{where}</bdi>"), cell(text), cell(escaped(one.words))))


def move_row(one: Move) -> str:
    found = one.message
    return row((head_cell(f"{found.line:,}"), cell(f"<bdi>{visible(found.client)}</bdi>"),
                cell(code(found.topic)), cell("none" if one.new is None else code(one.new)),
                cell(escaped(one.why))))


def session_row(one: OldSession) -> str:
    away = one.away
    items = "".join(f"<li>{code(was)} → {', '.join(map(code, new)) or 'nothing'}</li>"
                    for was, new in one.becomes.items())
    return row((head_cell(f"<bdi>{visible(away.client)}</bdi>"), cell(user_of(away.user)),
                cell(f"{away.line:,}", "line", "line"), number(one.waiting, "waiting", "waiting"),
                cell(f"<ul class='topics'>{items}</ul>", "of-topics")))


def user_of(user: str | None) -> str:
    return "none" if user is None else f"<bdi>{visible(user)}</bdi>"


def topics_of(right: Right) -> str:
    """Those that the right is of, and below them one."""
    scope = right.scope
    if scope is None:
        return example_of(right) + code(topic_of(right))
    words = f"{'some of ' if scope.in_part else ''}{code(scope.filter)}{but_for(scope, code)}"
    if not scope.topic:
        return words
    number = publishes_of(scope).strip().replace(" ", "\u00a0")  # in one line
    return f"{words}<div class='such-as'>such as {code(scope.topic)} {number}</div>"


def nobody(right: Right) -> str:
    """That no topic of the script has such a name."""
    if not right.unused:
        return ""
    found = right.proposal
    says = f"; {NO_USE} {escaped(found.in_words())}" if found else ""
    return f"<div class='unused'>{NO_TOPIC}{says}</div>"


def warning(right: Right) -> str:
    """A new right to write is no gain to be glad of."""
    return "warning" if right.is_new_write() else right.change


def paint(what: str) -> str:
    return {"refused": "lost", "accepted": "gained"}.get(what, what)


def topic_list(topics: Iterable[Topics], before: str) -> str:
    items = "".join(f"<li>{before}{renamed(one.filter, one.new or one.filter)}"
                    f"<span>{topic_count(one)}</span></li>" for one in topics)
    return f"<ul class='topics'>{items}</ul>" if items else ""


def code(name: str) -> str:
    return f"<code><bdi>{visible(name)}</bdi></code>"


def renamed(old: str | None, new: str) -> str:
    """Both names, where they differ."""
    return code(new) if old in (None, new) else f"{code(old or '')} → {code(new)}"


def decider(name: str, line: Line | None, none: str = NO_LINE) -> str:
    return f"<dt>{place(name, line)}</dt><dd>{line_text(line, none)}</dd>"


def place(name: str, line: Line | None) -> str:
    if line is None:
        return f"<bdi>{escaped(named(name))}</bdi>"
    return f"<bdi>{escaped(at(line.file, line.line) if line.line else line.file)}</bdi>"


def line_text(line: Line | None, none: str) -> str:
    if line is None:
        return none
    return f"<code><bdi>{escaped(line.text.strip())}</bdi></code>"
