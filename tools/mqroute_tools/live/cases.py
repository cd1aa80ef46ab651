"""Cases in folders: scripts with what is expected, by section."""
import json
from collections.abc import Iterator
from dataclasses import dataclass, field
from pathlib import Path
from typing import Any

from ..common.exit_status import Fault
from ..common.files import at, open_input
from ..common.texts import escaped
from ..script.commands import faults
from ..script.output import Block, Command, blocks
from .line_difference import LineDifference
from .packet_steps import read_steps
from .text_files import read_utf8

INDEX = "cases.json"  # of a section
PACKETS = ".packets"
TO_CLOSE = "closed: "  # how a reason begins for which a connection may be closed, and no more


@dataclass(frozen=True)
class Case:
    section: str
    name: str
    script: list[Command]
    expected: list[Block]
    acl: str | None = None  # the text of the list that it begins with
    has_limits: bool = False  # of which the broker would have to have the same
    says: str = ""
    sections: tuple[str, ...] = ()  # of the standard
    any_member: bool = False
    free: dict[int, str] = field(default_factory=dict)  # by line: why the answer is
    is_of_packets: bool = False  # steps are its script, and say themselves what is expected

    @property
    def path(self) -> str:
        return f"{self.section}/{self.name}"

    def is_free(self, one: LineDifference) -> bool:
        """Whether the standard leaves the line open; some alone to brokers that close."""
        why = self.free.get(one.line, "")
        return bool(why) and (one.ended == "closed" or not why.startswith(TO_CLOSE))

    def has_lists(self) -> bool:
        return self.acl is not None or any(command["do"] == "acl" for command in self.script)

    def about(self) -> str:
        """What it shows, and by which sections."""
        where = f" ({', '.join(self.sections)})" if self.sections else ""
        return escaped(f"{self.path}: {self.says or 'as mqroute answers'}{where}")


@dataclass(frozen=True)
class Section:
    name: str
    title: str
    cases: list[Case]


def read_commands(file: Path) -> list[Command]:
    """The commands of a script in which no line is blank."""
    with open_input(str(file)) as lines:
        for number, fault in faults(lines):
            raise Fault(f"{at(str(file), number)}: {fault}")
    lines_of = read_utf8(file).removesuffix("\n").split("\n")
    for number, line in enumerate(lines_of, 1):
        if not line.strip():
            raise Fault(f"{at(str(file), number)}: blank")
    return [json.loads(line) for line in lines_of]


# of a case in the index, and what they have to be
WORDS = {"says": "a text", "sections": "a list", "any_member": "a text", "free": "an object"}
KINDS: dict[str, tuple[type, ...]] = {
    "says": (str,), "sections": (list,), "any_member": (str, bool), "free": (dict,)}


def read_index(folder: Path) -> dict[str, Any]:
    file = folder / INDEX
    if not file.exists():
        return {}
    try:
        index = json.loads(read_utf8(file))
    except (ValueError, RecursionError) as fault:
        why = "nested too deep" if isinstance(fault, RecursionError) else fault
        raise Fault(f"{file}: not JSON: {why}") from fault
    if not isinstance(index, dict) or not isinstance(index.get("cases", {}), dict):
        raise Fault(f'{file}: must be an object with "title" and "cases"')
    for name, about in index.get("cases", {}).items():
        look_at_case(f"{file}: {name}", about)
    return index


def look_at_case(place: str, about: Any) -> None:
    """What an index says of a case."""
    if not isinstance(about, dict):
        raise Fault(f"{place}: must be an object")
    for name, wanted in KINDS.items():
        if name in about and not isinstance(about[name], wanted):
            raise Fault(f'{place}: "{name}" must be {WORDS[name]}')


def free_lines(file: Path, about: dict[str, Any]) -> dict[int, str]:
    try:
        return {int(line): str(why) for line, why in about.get("free", {}).items()}
    except ValueError as fault:
        raise Fault(f'{file.parent / INDEX}: {file.stem}: "free" must have lines') from fault


def read_case(file: Path, section: str, about: dict[str, Any]) -> Case:
    output, acl = file.with_suffix(".out"), file.with_suffix(".acl")
    if not output.exists():
        raise Fault(f"{file}: there is no {output.name} beside it")
    script, expected = read_commands(file), list(blocks(str(output)))
    if [block.line for block in expected] != list(range(1, len(script) + 1)):
        raise Fault(f"{output}: not of {file.name}: another number of lines")
    text = read_utf8(acl) if acl.exists() else None
    return Case(section, file.stem, script, expected, text, file.with_suffix(".options").exists(),
                about.get("says", ""), tuple(map(str, about.get("sections", []))),
                bool(about.get("any_member")), free_lines(file, about))


def read_packets(file: Path, section: str, about: dict[str, Any]) -> Case:
    return Case(section, file.stem, read_steps(file), [], says=about.get("says", ""),
                sections=tuple(map(str, about.get("sections", []))),
                free=free_lines(file, about), is_of_packets=True)


def read_section(folder: Path) -> Section:
    index = read_index(folder)
    files, of_packets = sorted(folder.glob("*.jsonl")), sorted(folder.glob(f"*{PACKETS}"))
    about = index.get("cases", {})
    for name in about:
        if not {folder / f"{name}.jsonl", folder / f"{name}{PACKETS}"} & {*files, *of_packets}:
            raise Fault(f"{folder / INDEX}: there is no {name}.jsonl")
    cases = [read_case(file, folder.name, about.get(file.stem, {})) for file in files]
    cases += [read_packets(file, folder.name, about.get(file.stem, {})) for file in of_packets]
    return Section(folder.name, str(index.get("title", folder.name)), cases)


def read_sections(folder: Path) -> Iterator[Section]:
    """The folder itself and those in it, as far as they have scripts."""
    if not folder.is_dir():
        raise Fault(f"there is no folder {folder}")
    folder = folder.resolve()
    held = (read_section(one) for one in (folder, *sorted(folder.glob("*/"))))
    found = [section for section in held if section.cases]
    if not found:
        raise Fault(f"{folder}: there is no script NAME.jsonl in it")
    yield from found
