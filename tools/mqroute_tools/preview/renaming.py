"""A script under a plan, as `mqroute-plan script --old` writes it: under old names and under new
ones, with as many lines."""
from collections.abc import Iterator
from pathlib import Path
from typing import Any

from ..common.exit_status import Fault
from ..plan.check import report_script
from ..plan.day_end import Answered, day_end
from ..plan.kept import Kept, kept_of
from ..plan.report import Report
from ..plan.script_translation import new_filters, new_topic, read_lines, rewritten
from ..plan.topic_plan import Plan
from ..plan.translator import Translator
from ..script.output import command_of
from .findings import Carried
from .gathered_topics import Topics
from .kept_folder import NEW, OLD
from .sources import Script

NO_NAME = "no new name"
PLAN = "plan"


def plan_file(plan: Plan, folder: Path) -> str:
    """The plan where mqroute-acl can read it, which may have come from standard input."""
    path = folder / PLAN
    path.write_bytes(plan.text.encode("utf-8"))
    return str(path)


class Renaming:
    """The lines of the script have numbers of their own; both files have blank lines where one
    becomes several, and share their numbers."""

    def __init__(self, plan: Plan, script: Script, folder: Path) -> None:
        self.plan, self.name, self.translator = plan, script.name, Translator(plan)
        try:
            self.made = rewritten(self.translator, read_lines(script.path))
        except Fault as fault:
            raise Fault(str(fault).replace(script.path, script.name)) from fault
        self.old, self.new = str(folder / OLD), str(folder / NEW)
        Path(self.old).write_bytes(self.made.old_text())
        Path(self.new).write_bytes(self.made.new_text())
        self.own = [0]  # by a line of the files the script's own
        self.starts = [0]  # and by the script's own the first of the files
        for number, new in enumerate(self.made.lines, 1):
            self.starts.append(len(self.own))
            self.own += [number] * max(1, len(new))

    def is_gone(self, number: int) -> bool:
        """Whether nothing stands for a line of the script."""
        return not self.made.lines[number - 1]

    def field(self, number: int, name: str) -> Any:
        """Of the command on a line of the script."""
        return (command_of(self.made.old[number - 1]) or {}).get(name)

    def publishes(self, wanted: set[int]) -> dict[int, int]:
        """Where those of the script's lines stand in the new file that are publishes there."""
        return {number: self.starts[number] for number in wanted if not self.is_gone(number)}

    def becomes(self, text: str) -> str:
        """What becomes of a topic, or of a filter that stands for several; empty: it stays."""
        if "+" not in text and "#" not in text:
            new = new_topic(self.plan, text)
            return NO_NAME if new is None else new if new != text else ""
        first, *others = new_filters(self.translator, text) or [NO_NAME]
        if others:
            return f"{first} and {len(others)} more"
        return first if first != text else ""

    def name_new(self, topics: list[Topics]) -> None:
        for one in topics:
            one.new = self.becomes(one.filter)

    def kept(self, answered: Answered) -> Kept:
        """What the broker has under old names at the end of the script, which `answered` runs under
        the list in force."""
        return kept_of(self.translator, day_end(self.made.old, answered), True)

    def carried(self) -> Iterator[Carried]:
        """What `mqroute-plan check --script` lists."""
        found = Report()
        report_script(found, self.translator, self.name, self.made)
        for one in found.objects:
            if one["kind"] == "subscription" and one["words"]:
                yield Carried(one["line"], one["words"], one["was"], one["becomes"],
                              one["clients"])
            elif one["kind"] == "remark":
                yield Carried(one["line"], one["words"], None, [], one.get("clients", []))
