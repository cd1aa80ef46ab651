"""An access list under a plan, and what is to be said of its lines."""
from collections.abc import Iterator
from dataclasses import dataclass, field

from .filters import Levels, is_wild
from .list_differences import ListText, Note, judged
from .list_lines import Line, lines_of_list, opened
from .plan_lines import MARKS
from .topic_plan import Plan
from .translator import Translator
from .unused import DayNames

CLIENT, USER = MARKS


@dataclass
class NewList:
    """The list's new lines; of each the number of the old one, and how many have other filters."""
    lines: list[str] = field(default_factory=list)
    olds: list[int] = field(default_factory=list)
    notes: list[Note] = field(default_factory=list)
    rows: int = 0
    changed: int = 0

    @property
    def text(self) -> str:
        return "\n".join(self.lines)

    def add(self, number: int, lines: list[str]) -> None:
        self.lines += lines
        self.olds += [number] * len(lines)


def translated(translator: Translator, text: str, name: str, both: bool = False) -> NewList:
    """The list with each line translated in its place; with `both` behind the old line."""
    rows = {row.number: row for row in lines_of_list(text, name)}
    made = NewList(rows=len(rows))
    for number, line in enumerate(text.split("\n"), 1):
        row = rows.get(number)
        if row is None:
            made.add(number, [line])
            continue
        new = translator.translation(row.wanted).new
        made.changed += new != (row.wanted,)
        made.add(number, new_lines(row, line, new, both))
        if not new:
            stays = "it stays as it is" if both else "left out"
            made.notes.append(Note(number, f"{row.text}: none of its topics has a new name: "
                                           f"{stays}"))
        made.notes += notes_on_marks(translator.plan, row, new)
    return made


def new_lines(row: Line, line: str, new: tuple[Levels, ...], both: bool) -> list[str]:
    made = [line if wanted == row.wanted else row.with_filter(wanted) for wanted in new]
    if both:
        return list(dict.fromkeys([line, *made]))
    return made or [f"# no new name: {row.text}{row.end}"]


def notes_on_marks(plan: Plan, row: Line, new: tuple[Levels, ...]) -> Iterator[Note]:
    """Where a mark meets a level of a left side the line is for one client id or user name alone,
    and no line of a list says that. A line that stays says it of topics that keep their names."""
    if not row.is_pattern or not set(MARKS) & set(row.wanted):
        return
    for rule in plan.rules:
        met = rule.within(opened(row.wanted))
        if rule.right is None or rule.within(row.wanted) is not None or met is None:
            continue
        if rule.is_keep and row.wanted in new:
            continue
        bound = [f"{'client id' if level == CLIENT else 'user name'} {met[place]}"
                 for place, level in enumerate(row.wanted)
                 if level in MARKS and met[place:place + 1] and not is_wild(met[place])]
        yield Note(row.number, f"{row.text}: by line {rule.line} of the plan it is for the "
                               f"{' and the '.join(bound)} alone: left out of this rule")


def notes_on(plan: Plan, made: NewList, text: str, name: str,
             names: DayNames | None = None) -> list[Note]:
    """All that is to be said, line by line; with the names of a day, which differences are about
    none of them."""
    old, new = ListText(name, text), ListText(f"the new {name}", made.text)
    return sorted([*made.notes, *judged(plan, old, new, made.olds, names)],
                  key=lambda note: note.line)
