"""What a preview comes to, in a few sentences for somebody who reads no further."""
from dataclasses import dataclass

from ..common.messages import counted
from ..common.tables import shown
from .findings import Preview, Right, UserRow
from .list_rows import ACCESSES
from .words import NO_NAME, concerned, share, topic_of, verb, whom

NAMED = 5  # users that lose, of each kind
WRITES = 3  # new rights to write
NOTHING = "Nothing would change for anybody."


@dataclass
class Sentence:
    """`strong` begins it, and is empty where it has no user."""
    strong: str
    rest: str
    is_loss: bool


def verdict(found: Preview) -> list[Sentence]:
    if not found.changes():
        return [Sentence("", NOTHING, False)]
    losing = found.losing()
    silent = [row for row in losing if row.after == 0]
    others = [row for row in losing if row.after > 0]
    gaining = [row for row in found.gaining() if not row.lost]
    return [*newly_writing(found.granted), *silenced(silent), *losers(others),
            *gainers(gaining), *refused(found), *rights(found),
            *receiving_nothing(found), *otherwise(found)]


def newly_writing(granted: list[Right]) -> list[Sentence]:
    """First of all: who may command what nobody gave them to before."""
    rights = [one for one in granted if one.access == "write"]
    found = [Sentence(who(one), f"may newly write topics of {filter_of(one)}.", True)
             for one in rights[:WRITES]]
    rest = len(rights) - WRITES
    more = "1 more right" if rest == 1 else f"{rest:,} more rights"
    return found + ([Sentence("", f"So may others, by {more}.", True)] if rest > 0 else [])


def who(right: Right) -> str:
    """At the beginning of a sentence."""
    words = concerned(right).replace("no user name", NO_NAME, 1)
    return words if words.startswith("user") else words[0].upper() + words[1:]


def filter_of(right: Right) -> str:
    """That of the line that grants it, or of the topic where none does."""
    if right.scope:
        return shown(right.scope.filter)
    line = right.deciding.proposed
    words = line.text.split() if line else []
    if len(words) > 2 and words[1] in ACCESSES:
        words = words[1:]
    return shown(" ".join(words[1:])) if len(words) > 1 else shown(topic_of(right))


def silenced(rows: list[UserRow]) -> list[Sentence]:
    found = [Sentence(begun(row), "would get nothing any more.", True) for row in rows[:NAMED]]
    return found + more(rows, "would get nothing any more.")


def losers(rows: list[UserRow]) -> list[Sentence]:
    found = [Sentence(begun(row), f"would lose {part_of(row)}{and_gain(row)}.", True)
             for row in rows[:NAMED]]
    return found + more(rows, "would lose some of what they get.")


def and_gain(row: UserRow) -> str:
    return f" and gain {counted(row.gained, 'messages', ',')}" if row.gained else ""


def part_of(row: UserRow) -> str:
    gets = verb(row.user, "gets")
    what = "what it gets" if row.user is not None else f"what they {gets}"
    if row.lost == row.before:
        return f"all of {what} now"
    return f"{share(row.lost, row.before)} of {what}"


def more(rows: list[UserRow], words: str) -> list[Sentence]:
    rest = len(rows) - NAMED
    return [Sentence(counted(rest, "other users", ","), words, True)] if rest > 0 else []


def gainers(rows: list[UserRow]) -> list[Sentence]:
    found = [Sentence(begun(row), f"would gain {counted(row.gained, 'messages', ',')}.", False)
             for row in rows[:NAMED]]
    rest = len(rows) - NAMED
    return found + ([Sentence(counted(rest, "other users", ","), "would gain some.", False)]
                    if rest > 0 else [])


def begun(row: UserRow) -> str:
    """At the beginning of a sentence, where a user name stays as it is."""
    name = whom(row.user)
    return name if row.user is not None else name[0].upper() + name[1:]


def refused(found: Preview) -> list[Sentence]:
    newly = sum(row.refused for row in found.refused)
    no_longer = sum(row.accepted for row in found.refused)
    return [Sentence("", f"{counted(number, 'publishes', ',')} would {word}.", is_loss)
            for number, word, is_loss in ((newly, "newly be refused", True),
                                          (no_longer, "no longer be refused", False)) if number]


def rights(found: Preview) -> list[Sentence]:
    granted, taken = len(found.granted), len(found.taken)
    new = f"{granted:,} new {'right' if granted == 1 else 'rights'} would be granted"
    if granted and taken:
        return [Sentence("", f"{new}, {taken:,} taken away.", True)]
    if granted:
        return [Sentence("", f"{new}.", False)]
    return [Sentence("", counted(taken, "rights would be taken away.", ","), True)] if taken else []


def receiving_nothing(found: Preview) -> list[Sentence]:
    number = len(found.subscriptions)
    words = counted(number, "subscriptions would get nothing any more.", ",")
    return [Sentence("", words, True)] if number else []


def otherwise(found: Preview) -> list[Sentence]:
    number = found.copies.changed
    words = f"{counted(number, 'messages', ',')} would come otherwise than now."
    return [Sentence("", words, False)] if number else []
