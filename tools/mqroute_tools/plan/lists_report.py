"""What becomes of an access list under a plan, and what a proposed one allows otherwise."""
from dataclasses import dataclass

from ..common.messages import counted, named
from ..common.texts import escaped
from ..script.access_list import AccessList
from ..script.rules import OWN
from .list_differences import ListText, Note, judged
from .list_translation import notes_on, translated
from .report import Report
from .topic_plan import Plan
from .translator import Translator
from .unused import DayNames


@dataclass(frozen=True)
class Day:
    """A script, and the names that somebody uses there."""
    script: str
    names: list[str]


def names_of(day: Day | None, plan: Plan, old: ListText, new: ListText) -> DayNames | None:
    if day is None:
        return None
    first, second = (AccessList(one.name, OWN, one.text.encode()) for one in (old, new))
    return DayNames(plan, day.names, (first, second))


def report_lists(report: Report, translator: Translator, old: ListText, new: ListText | None,
                 day: Day | None) -> None:
    report_list(report, translator, old, day)
    if new is not None:
        report_new_list(report, translator.plan, old, new, day)


def report_list(report: Report, translator: Translator, old: ListText, day: Day | None) -> None:
    made = translated(translator, old.text, old.name)
    new = ListText(f"the new {old.name}", made.text)
    names = names_of(day, translator.plan, old, new)
    found = notes_on(translator.plan, made, old.text, old.name, names)
    report.blank()
    exact = "" if any(note.is_difference for note in found) else (
        "; it allows the same under the new names")
    report.lines.append(f"Access list {old.name}: {made.changed} of {counted(made.rows, 'lines')} "
                        f"{'changes' if made.changed == 1 else 'change'}{exact}")
    report.objects.append({"kind": "list", "file": old.name, "lines": made.rows,
                           "changed": made.changed, "exact": bool(exact)})
    report_notes(report, translator.plan, old.name, found, day)


def report_new_list(report: Report, plan: Plan, old: ListText, new: ListText,
                    day: Day | None) -> None:
    """A list that somebody proposes, which need not be the translated one."""
    found = judged(plan, old, new, None, names_of(day, plan, old, new))
    report.blank()
    same = "something else" if found else "the same"
    report.lines.append(f"Access list {named(new.name)} in place of {named(old.name)}: it allows "
                        f"{same} under the new names")
    report.objects.append({"kind": "list", "file": new.name, "in_place_of": old.name,
                           "lines": len(new.rows), "exact": not found})
    report_notes(report, plan, old.name, found, day)


def report_notes(report: Report, plan: Plan, name: str, notes: list[Note],
                 day: Day | None) -> None:
    """Those behind the others that are about names which no topic of the day has."""
    for note in notes:
        if not note.unused:
            report.remark(note.file or name, note.line, note.words)
    unused = [note for note in notes if note.unused]
    if not unused or day is None:
        return
    report.blank()
    report.lines.append(f"On names that no topic of {escaped(day.script)} has")
    for note in unused:
        report.remark(note.file or name, note.line, note.words, unused=True,
                      none=[one.json() for one in note.proposals])
        report.lines += [f"    if nobody uses them: {escaped(one.in_words())}"
                         for one in note.proposals]
