"""What a list under new names allows otherwise than one under old names, line by line, as
mqroute-acl finds it."""
from collections import defaultdict
from dataclasses import dataclass
from functools import cached_property
from typing import NamedTuple

from ..script.access_list import Line, Question
from .asking import GAINED, Difference, differences
from .list_lines import lines_of_list
from .topic_plan import Plan
from .unused import About, DayNames, Proposal


class Note(NamedTuple):
    """What is to be said of a line of the old list, or of another file. `unused`: it is about no
    topic of the day, and by these lines the plan says that there are none."""
    line: int
    words: str
    is_difference: bool = False  # by mqroute-acl
    file: str | None = None
    unused: bool = False
    proposals: tuple[Proposal, ...] = ()


class Key(NamedTuple):
    """Differences that are shown as one."""
    file: str | None
    line: int
    change: str
    access: str
    unused: bool


@dataclass(frozen=True)
class ListText:
    """An access list, and the name under which it is shown."""
    name: str
    text: str

    @cached_property
    def rows(self) -> dict[int, str]:
        return {row.number: row.text for row in lines_of_list(self.text, self.name)}

    def line(self, number: int | None) -> Line | None:
        return None if number is None else Line(self.name, number, self.rows[number])


def judged(plan: Plan, old: ListText, new: ListText, olds: list[int] | None,
           names: DayNames | None) -> list[Note]:
    """A note for each line by which somebody may more or less than by the old list. `olds` has the
    lines of the old one for those of the new, where that was made of it."""
    groups: defaultdict[Key, list[tuple[Difference, About]]] = defaultdict(list)
    for one in differences(plan, old.text, new.text, (old.name, new.name)):
        about = about_of(one, old, new)
        unused = names is not None and names.is_unused(about) is True
        groups[key_of(one, new, olds, unused)].append((one, about))
    return [note_of(key, group, new if key.file else old, names)
            for key, group in sorted(groups.items(), key=lambda item: item[0][1:])]


def key_of(one: Difference, new: ListText, olds: list[int] | None, unused: bool) -> Key:
    """What is gained is shown at the line of the old list that was translated, or of the new
    list."""
    file, line = None, one.old or 0
    if one.change == GAINED and olds is not None:
        line = olds[(one.new or 1) - 1]
    elif one.change == GAINED:
        file, line = new.name, one.new or 0
    return Key(file, line, one.change, one.access, unused)


def about_of(one: Difference, old: ListText, new: ListText) -> About:
    asked = Question(one.client, one.user, "", one.access)
    named = {one.client, one.user} & set(one.placeholders)
    return About(one.rule, (old.line(one.old), new.line(one.new)), (asked,),
                 frozenset(text for text in named if text is not None))


def note_of(key: Key, group: list[tuple[Difference, About]], shown: ListText,
            names: DayNames | None) -> Note:
    words = f"{shown.rows.get(key.line, '')}: {difference_words([one for one, _ in group])}"
    found = [] if names is None or not key.unused else [
        names.proposal(about) for _, about in group]
    proposals = tuple(dict.fromkeys(one for one in found if one is not None))
    return Note(key.line, words, True, key.file, key.unused, proposals)


def difference_words(group: list[Difference]) -> str:
    one, count = group[0], len(group) - 1
    verb = "may now" if one.change == GAINED else "may no longer"
    topic = one.topic if one.topic == one.new_topic else f"{one.topic} -> {one.new_topic}"
    more = f", and {count} more" if count else ""
    return f"{who(one)} {verb} {one.access} {topic}{more}"


def who(one: Difference) -> str:
    if one.user is None:
        whom = "a client without a user name"
    else:
        whom = "another user" if one.user in one.placeholders else f"user {one.user}"
    return whom if one.client in one.placeholders else f"{whom}, client id {one.client},"
