"""The fields of each command are shown in four places; each is as the table that check.py goes by,
which test_schemas.py tries on the program."""
import re
import unittest

from worked import TOP
from mqroute_tools.script.commands import COMMANDS, Field

# what stands for the value of an optional field that is left out
ABSENT = {"no user name", "none", "no access list"}
NAME = re.compile(r"`(\w+)`")


def rows(text: str, head: str) -> list[list[str]]:
    """The cells of the table that begins with this line."""
    table = text.split(head, 1)[1].split("\n\n")[0].splitlines()
    return [[cell.strip() for cell in row.strip("|").split("|")]
            for row in table if row.startswith("|") and not row.startswith("|---")]


def shown(kind: str, absent: str) -> Field:
    if kind in ("text", "true or false"):
        return Field("text" if kind == "text" else "flag", absent == "`BadField`")
    low, high = (int(number.replace(",", "")) for number in kind.split(" to "))
    return Field("number", absent == "`BadField`", low, high)


class Fields(unittest.TestCase):
    def test_definitions(self):
        """Their kinds, ranges, and which may be left out."""
        text = (TOP / "docs/definitions/lines-and-runs.md").read_text("utf-8")
        found: dict[str, dict[str, Field]] = {}
        command: dict[str, Field] = {}
        for do, fields, kind, absent in rows(
                text, "| `do` | Field | Kind and range | If absent |\n"):
            command = found.setdefault(NAME.findall(do)[0], {}) if do else command
            command.update({name: shown(kind, absent) for name in NAME.findall(fields)})
        self.assertEqual(found, COMMANDS)

    def test_reference(self):
        text = (TOP / "docs/reference/script.md").read_text("utf-8")
        defaults = {name: default for _, _, name, _, default in self.definitions()}
        found = {}
        for do, required, optional in rows(
                text, "| `do` | Fields | Fields that may be left out, with their defaults |\n"):
            left_out = dict(re.findall(r"`(\w+)`: ([^;]+)", optional))
            found[NAME.findall(do)[0]] = ({name: True for name in NAME.findall(required)}
                                          | {name: False for name in left_out})
            for name, default in left_out.items():
                wanted = defaults[name]
                self.assertTrue(
                    default == wanted or wanted in ABSENT and default.startswith(("none", "no "))
                    or wanted == "the empty text" and default == "empty",
                    (do, name, default, wanted))
        self.assertEqual(found, self.required())

    def test_manual_page(self):
        text = (TOP / "docs/mqroute.1").read_text("utf-8").split(".SH SCRIPT")[1].split(".SH")[0]
        found = {}
        for do, words in re.findall(r'^\.BR? (\w+)(?: "([^"]*)")?$', text, re.M):
            found[do] = {word.strip("[]"): not word.startswith("[") for word in words.split()}
        self.assertEqual(found, self.required())

    def definitions(self) -> list[tuple[str, str, str, str, str]]:
        text = (TOP / "docs/definitions/lines-and-runs.md").read_text("utf-8")
        return [(do, fields, name, kind, absent)
                for do, fields, kind, absent in rows(text, "| `do` | Field | Kind and range | If "
                                                     "absent |\n") for name in NAME.findall(fields)]

    def required(self) -> dict[str, dict[str, bool]]:
        return {do: {name: field.required for name, field in fields.items()}
                for do, fields in COMMANDS.items()}


if __name__ == "__main__":
    unittest.main()
