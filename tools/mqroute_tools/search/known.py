"""Differences that are known: scripts in folders of the user's own, with what they showed."""
from collections.abc import Iterator
from dataclasses import dataclass, field
from pathlib import Path

from ..common.exit_status import Fault
from ..common.files import open_input
from ..live.cases import read_commands
from ..live.stored_diff import read_differences
from ..script.output import Command
from .difference_kinds import Difference, Kind, kind, separate


@dataclass
class Known:
    """A script with the differences that it showed when it was stored."""
    name: str
    script: list[Command]
    stored: list[Difference]
    left_out: str = ""  # why it isn't run
    kinds: list[Kind] = field(default_factory=list)  # of those stored that are seen
    unseen: list[Difference] = field(default_factory=list)
    seen_in: set[int] = field(default_factory=set)  # the random scripts, by number

    def covers(self, other: Kind) -> bool:
        return any(one.covers(other) for one in self.kinds)

    def is_seen_in(self, differences: list[Difference]) -> bool:
        """Whether all that is stored is among these."""
        return all(any(one.is_as(seen) for seen in differences) for one in self.stored)

    def compare(self, differences: list[Difference]) -> list[Difference]:
        """What of these isn't stored. What is stored and seen is of a known kind from then on."""
        for one in self.stored:
            if any(one.is_as(seen) for seen in differences):
                self.kinds.append(kind(self.script, one))
            else:
                self.unseen.append(one)
        return [one for one in differences if not any(one.is_as(it) for it in self.stored)]

    def state(self) -> str:
        if self.left_out:
            return f"left out: {self.left_out}"
        if self.unseen:
            lines = sorted({one.line for one in self.unseen})
            what = "" if not self.kinds else f" at line {', '.join(map(str, lines))}"
            return f"no longer seen as stored{what}"
        return f"seen, and in {len(self.seen_in)} of the random scripts"


def stored_differences(file: Path, script: list[Command]) -> list[Difference]:
    return [one for line in read_differences(file, script)
            for one in separate(line.line, line.did, line.texts, line.ended)]


def with_list(script: list[Command], stored: list[Difference],
              file: Path) -> tuple[list[Command], list[Difference]]:
    """Where an access list stands beside it, the script sets it first."""
    if not file.exists():
        return script, stored
    with open_input(str(file)) as stream:
        text = stream.read().decode("utf-8", "replace")
    return ([{"do": "acl", "text": text}, *script],
            [one._replace(line=one.line + 1) for one in stored])


def known_differences(folder: Path, has_lists: bool, has_clock: bool) -> Iterator[Known]:
    """Each script of a folder that has a .diff that isn't empty."""
    if not folder.is_dir():
        raise Fault(f"there is no folder {folder}")
    for file in sorted(folder.glob("*.jsonl")):
        shown = file.with_suffix(".diff")
        if not shown.exists() or not shown.read_bytes().strip():
            continue
        script = read_commands(file)
        script, stored = with_list(script, stored_differences(shown, script),
                                   file.with_suffix(".acl"))
        yield Known(str(file), script, stored, why_left_out(file, script, has_lists, has_clock))


def why_left_out(file: Path, script: list[Command], has_lists: bool, has_clock: bool) -> str:
    does = {command["do"] for command in script}
    if file.with_suffix(".options").exists() or file.with_suffix(".conf").exists():
        return "it needs a broker with options of its own"
    if "acl" in does and not has_lists:
        return "it has an access list: give --on-acl"
    return "it moves the clock: give --clock" if "advance" in does and not has_clock else ""
