"""What `mqroute-acl compare --plan` says: of two access lists, and of filters, which are asked as
lists too: a user name for each question, and a `topic read` line for each filter.

The program is $MQROUTE_ACL_PROGRAM, or the one that stands in the same clone or installation, or
`mqroute-acl` on the PATH.
"""
import json
from collections.abc import Iterable
from dataclasses import dataclass, field
from pathlib import Path
from typing import Any

from ..common import temporary
from ..common.programs import find_program, output_of
from ..common.texts import lines
from .filters import Levels, text_of
from .plan_lines import BLANKS, LONGEST, MARKS
from .topic_plan import Plan
from .translator import Filters

GAINED, LOST = "gained", "lost"
SUBSCRIPTIONS = "the subscriptions"  # in the place of a list's name


@dataclass(frozen=True)
class Difference:
    """What one list allows of a topic, and the other of its new name not. `rule` is the line of the
    plan that decides about the topic, `old` and `new` are the lines of the lists, or None."""
    access: str
    change: str
    client: str
    user: str | None
    topic: str
    new_topic: str
    rule: int | None
    old: int | None
    new: int | None
    placeholders: tuple[str, ...]


@dataclass(frozen=True)
class Witness:
    """A topic that the old filters match and the new ones don't by its new name, or the other
    way round."""
    topic: str
    new_topic: str


@dataclass
class Verdict:
    """What new filters match more, and fewer, than old ones; and by which rules more."""
    asked: bool = True  # whether a list can have the filters
    more: Witness | None = None
    fewer: Witness | None = None
    rules: list[int | None] = field(default_factory=list)

    @property
    def is_exact(self) -> bool:
        return self.asked and self.more is None and self.fewer is None


Question = tuple[Filters, Filters]


def differences(plan: Plan, old: str, new: str,
                names: tuple[str, str] = (SUBSCRIPTIONS, SUBSCRIPTIONS)) -> list[Difference]:
    """Between lists with these texts, which a fault says by these names."""
    program = find_program("MQROUTE_ACL_PROGRAM", "mqroute-acl")
    with temporary.folder() as folder:
        paths = [Path(folder, name) for name in ("plan", "old", "new")]
        for path, text in zip(paths, (plan.text, old, new)):
            path.write_bytes(text.encode())

        def named(said: str) -> str:
            for path, name in zip(paths, (plan.name, *names)):
                said = said.replace(str(path), name)
            return said
        words = [program, "compare", "--json", "--rules=own", f"--plan={paths[0]}", "--",
                 str(paths[1]), str(paths[2])]
        done = output_of(words, named)
    return [difference_of(json.loads(line)) for line in lines(done.stdout.decode())]


def difference_of(row: dict[str, Any]) -> Difference:
    rule, old, new = (row[name]["line"] if row[name] else None for name in ("rule", "old", "new"))
    return Difference(row["access"], row["change"], row["client"], row["user"], row["topic"],
                      row["new_topic"], rule, old, new, tuple(row["placeholders"]))


def verdicts(plan: Plan, questions: Iterable[Question]) -> list[Verdict]:
    """Whether new filters match by new names what old ones do: of each pair of both."""
    asked = list(questions)
    found = [Verdict() for _ in asked]
    sides: tuple[list[str], list[str]] = ([], [])
    for number, (question, verdict) in enumerate(zip(asked, found)):
        verdict.asked = all(can_be_line(wanted) for side in question for wanted in side)
        for side, filters in zip(sides, question if verdict.asked else ()):
            side.append(f"user {number}\n" if filters else "")
            side += [f"topic read {text_of(wanted)}\n" for wanted in filters]
    if sides == ([], []):
        return found
    for row in differences(plan, "".join(sides[0]), "".join(sides[1])):
        add(found[int(row.user or 0)], row)
    return found


def add(verdict: Verdict, row: Difference) -> None:
    witness = Witness(row.topic, row.new_topic)
    if row.change == LOST:
        verdict.fewer = verdict.fewer or witness
    else:
        verdict.more = verdict.more or witness
        verdict.rules += [] if row.rule in verdict.rules else [row.rule]


def can_be_line(wanted: Levels) -> bool:
    """Whether a `topic` line of a list can have the filter, and be compared through a plan."""
    text = text_of(wanted)
    if "\n" in text or text != text.lstrip(BLANKS).rstrip(BLANKS + "\r"):
        return False
    return not any(level in MARKS or len(level.encode("utf-8", "surrogatepass")) > LONGEST
                   or has_half(level) for level in wanted)


def has_half(level: str) -> bool:
    """Whether it has half of a surrogate pair, which UTF-8 has not."""
    return any("\ud800" <= c <= "\udfff" for c in level)
