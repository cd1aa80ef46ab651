"""Who imports whom in mqroute_tools: each folder those below it, and no modules in a circle."""
import ast
import graphlib
import unittest
from collections.abc import Iterator
from pathlib import Path

from worked import HERE

PACKAGE = HERE / "mqroute_tools"
# each folder, with those that it may import from
BELOW = {"common": set(), "conf": {"common"}, "plain": set(), "script": {"common", "conf", "plain"},
         "log": {"common", "conf", "script"},
         "plan": {"common", "script"},
         "losses": {"common", "script", "plan"}, "why": {"common", "conf", "script", "log"},
         "preview": {"common", "script", "conf", "log", "plan", "losses"},
         "live": {"common", "script", "conf", "log"}, "search": {"common", "script", "live"}}


def imported(path: Path) -> Iterator[Path]:
    """The modules of the package that a module imports, wherever it does."""
    for node in ast.walk(ast.parse(path.read_text("utf-8"))):
        if isinstance(node, ast.ImportFrom) and node.level:
            folder = path.parents[node.level - 1].joinpath(*(node.module or "").split("."))
            names = [folder.with_suffix(".py"), *(folder / f"{a.name}.py" for a in node.names)]
            yield from (name for name in names if name.exists())


class Layers(unittest.TestCase):
    def test_folders_look_down(self):
        self.assertEqual({path.parent.name for path in PACKAGE.glob("*/*.py")}, set(BELOW))
        for path in PACKAGE.glob("*/*.py"):
            folder = path.parent.name
            for other in imported(path):
                with self.subTest(path=path, other=other):
                    self.assertIn(other.parent.name, BELOW[folder] | {folder})

    def test_no_circle(self):
        graph = {path: set(imported(path)) for path in PACKAGE.rglob("*.py")}
        self.assertGreater(sum(map(len, graph.values())), 100)
        graphlib.TopologicalSorter(graph).prepare()  # it raises where there is one


if __name__ == "__main__":
    unittest.main()
