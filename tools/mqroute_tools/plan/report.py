"""What the tool shows: lines, or objects for --json; and whether something is to be looked at."""
import sys
from typing import Any

from ..common.files import at
from ..common.texts import escaped, json_text

Json = dict[str, Any]


class Report:
    def __init__(self) -> None:
        self.lines: list[str] = []
        self.objects: list[Json] = []
        self.odd = False

    def remark(self, where: str, number: int, words: str, **more: Any) -> None:
        self.lines.append(f"{at(where, number)}: {escaped(words)}")
        said = {"kind": "remark", "file": where, "line": number, "words": words}
        self.objects.append(said | more)
        self.odd = True

    def blank(self) -> None:
        """A blank line between what is shown, and never two."""
        if self.lines and self.lines[-1]:
            self.lines.append("")

    def text(self, as_json: bool) -> str:
        if as_json:
            return "".join(json_text(one, sort_keys=True) + "\n" for one in self.objects)
        lines = self.lines[:-1] if self.lines[-1:] == [""] else self.lines
        return "".join(line + "\n" for line in lines)


def write(text: str) -> None:
    sys.stdout.buffer.write(text.encode("utf-8", "backslashreplace"))
