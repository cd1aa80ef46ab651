"""What a search says: its finds as it goes, and what was done at the end."""
import argparse
import re
import time
from pathlib import Path
from typing import Any

from ..common.exit_status import Fault
from ..common.files import whole
from ..common.messages import counted, say
from ..common.test_results import Outcome, Result, write_junit
from ..common.texts import escaped, json_text
from .difference_kinds import Difference
from .finds import Find, Search, Unrepeated, report

# A text in JSON that is long, but for its beginning.
LONG = re.compile(r'("(?:[^"\\]|\\.){60})((?:[^"\\]|\\.){60,})"')
CUT_OFF = "cut off: it may not be the smallest"
SUITE = "mqroute-search"


def saved(folder: Path | None) -> int:
    """The greatest number of a find that an earlier search saved there."""
    names = [file.name for file in folder.iterdir()] if folder else []
    found = (re.fullmatch(r"find-(\d+)\.(?:jsonl|out|diff)", name) for name in names)
    return max((int(name[1]) for name in found if name), default=0)


def save(find: Find, number: int, folder: Path) -> None:
    for end, lines in (
            (".jsonl", find.lines()), (".out", find.output()), (".diff", find.report())):
        with whole(str(folder / f"find-{number}{end}")) as out:
            out.writelines((line + "\n").encode("utf-8") for line in lines)


def shortened(line: str) -> str:
    """A line of a script to be read: --save and --json have it whole."""
    return LONG.sub(lambda found: f'{found[1]}" and {len(found[2]):,} characters more', line)


def as_object(difference: Difference) -> dict[str, Any]:
    return {"line": difference.line, "what": difference.what,
            "texts": [text.strip() for text in difference.texts]}


class Report:
    def __init__(self, search: Search, options: argparse.Namespace) -> None:
        self.search, self.options = search, options
        self.start = time.monotonic()
        self.before = saved(options.save)
        self.finds: list[Find] = []

    # -- a find

    def origin(self, number: int) -> str:
        return f"seed {self.options.seed}, script {number}" if number else "a known script"

    def head(self, find: Find, number: int) -> str:
        cut = f"; {CUT_OFF}" if find.is_cut_off else ""
        return f"find {number}: {find.kind.what}; {self.origin(find.number)}{cut}"

    def add(self, find: Find) -> None:
        self.finds.append(find)
        number = self.before + len(self.finds)
        if self.options.json:
            print(json_text(self.find_object(find, number)), flush=True)
        else:
            uses = escaped(f"with {', '.join(sorted(find.kind.uses))}")
            lines = [*find.lines(), "", *find.report(), ""]
            print("\n".join([self.head(find, number), uses, *map(shortened, lines)]), flush=True)
        if self.options.save:
            save(find, number, self.options.save)

    def find_object(self, find: Find, number: int) -> dict[str, Any]:
        return {"find": number, "what": find.kind.what, "uses": sorted(find.kind.uses),
                "seed": self.options.seed, "number": find.number, "cut_off": find.is_cut_off,
                "script": find.script,
                "differences": [as_object(one) for one in find.differences]}

    # -- the end

    def sums(self) -> str:
        search, found = self.search, len(self.finds)
        runs, kinds = counted(search.runs, "runs"), "kind" if found == 1 else "kinds"
        return (f"{counted(search.scripts, 'scripts')} of seed {self.options.seed}, {runs} in "
                f"{time.monotonic() - self.start:.0f} s; {found} new {kinds} of differences; "
                f"{len(search.passing)} not seen again")

    def interrupted(self) -> None:
        for number, find in enumerate(self.finds, self.before + 1):
            say(self.head(find, number))
        say(self.sums())

    def end(self) -> None:
        search = self.search
        for one in search.known:
            say(f"known: {one.name}: {one.state()}")
        for line in search.exercised.report():
            say(f"exercised: {line}")
        if self.options.verbose and not self.options.json:
            for passing in search.passing:
                lines = [*self.passing_lines(passing), ""]
                print("\n".join(map(shortened, lines)), flush=True)
        if self.options.json:
            print(json_text(self.summary()), flush=True)
        if self.options.junit:
            write_junit(self.options.junit, self.results())
        say(self.sums())

    def passing_lines(self, passing: Unrepeated) -> list[str]:
        return [f"not seen again: {passing.difference.what}; {self.origin(passing.number)}",
                *(json_text(line) for line in passing.script), "",
                *report(passing.script, [passing.difference])]

    def summary(self) -> dict[str, Any]:
        search = self.search
        return {"scripts": search.scripts, "runs": search.runs, "seed": self.options.seed,
                "finds": len(self.finds), "not_seen_again": len(search.passing),
                "time_is_up": search.time_is_up,
                "known": {one.name: one.state() for one in search.known},
                "exercised": dict(search.exercised.counts)}

    def results(self) -> list[Result]:
        """A failure for each find, and one case for all scripts."""
        found = [Result(SUITE, self.head(find, number), Outcome.FAILED,
                        "\n".join([*find.lines(), "", *find.report()]))
                 for number, find in enumerate(self.finds, self.before + 1)]
        known = [Result(SUITE, one.name, Outcome.SKIPPED, f"known: {one.state()}")
                 for one in self.search.known]
        done = Outcome.PASSED if self.search.scripts else Outcome.ERROR
        all_of = Result(SUITE, f"seed {self.options.seed}", done,
                        "\n".join([self.sums(), *self.search.exercised.report()]),
                        time.monotonic() - self.start)
        return [all_of, *found, *known]

    def status(self) -> int:
        """Nothing was found is known only where what was asked for was run."""
        search, wanted = self.search, self.options.count
        if self.finds:
            return 1
        if not search.scripts:
            why = "the time was up" if search.time_is_up else "the broker can't run it"
            raise Fault(f"no script was run to its end: {why}")
        if search.scripts < self.options.at_least and not self.options.number:
            raise Fault(f"{counted(search.scripts, 'scripts')} run to the end, where --at-least "
                        f"asks for {self.options.at_least}: give --minutes")
        if wanted and search.scripts < wanted and search.time_is_up:
            raise Fault(f"the time was up after {search.scripts} of {wanted} scripts: "
                        "give --minutes")
        return 0
