"""What is listed beside the script."""
import re
from collections.abc import Callable, Iterator

from ..common.messages import one_of, own_name

SHOWN = 5  # examples of each kind
PLACE = re.compile(r"\Aline (\d+)(?=: )")
FEW = re.compile(r"((?:QoS 2|MQTT 5) )?(\w+s)\b( were| are| have)?")
VERBS = {" were": " was", " are": " is", " have": " has"}
PRONOUNS = (("they are", "it is"), ("they were", "it was"), (" them", " it"), ("their ", "its "),
            (", are ", ", is "))


def of_one(what: str) -> str:
    """The words for one thing, of those for several."""
    if what.startswith("of them have "):
        return what.replace("have", "has", 1)
    for several, one in PRONOUNS:
        what = what.replace(several, one)
    found = FEW.match(what)
    if not found:
        return what
    kind, noun, verb = found.groups(default="")
    return kind + one_of(noun) + VERBS.get(verb, "") + what[found.end():]


class Notes:
    """What isn't in the script, or may be wrong in it: counts, and the first few examples."""

    def __init__(self) -> None:
        self.counts: dict[str, int] = {}
        self.examples: dict[str, list[str]] = {}

    def add(self, what: str, example: str) -> None:
        self.counts[what] = self.counts.get(what, 0) + 1
        shown = self.examples.setdefault(what, [])
        if len(shown) < SHOWN:
            shown.append(example if len(example) <= 160 else example[:160] + "...")

    def lines(self, where: Callable[[int], str] = "line {}".format) -> Iterator[str]:
        """`where` gives the file and its line for a line of all files."""
        for what, count in self.counts.items():
            yield f"{own_name()}: {count} {of_one(what) if count == 1 else what}"
            for example in self.examples[what]:
                yield f"    {PLACE.sub(lambda line: where(int(line[1])), example, 1)}"
            if count > SHOWN:
                yield f"    and {count - SHOWN} more"
