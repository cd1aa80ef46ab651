"""The differences that are shipped, as searches take them for known."""
import unittest
from pathlib import Path

import worked  # noqa: F401  it knows where the tools are
from mqroute_tools.search.difference_kinds import uses
from mqroute_tools.search.known import known_differences

SHIPPED = Path(__file__).resolve().parents[2] / "brokers/differences"


class Shipped(unittest.TestCase):
    def test_each_folder_is_read(self):
        """With its kinds: among the scripts are filters that are none."""
        folders = [SHIPPED, *(path for path in SHIPPED.rglob("*")
                              if path.is_dir() and list(path.glob("*.jsonl")))]
        self.assertGreater(len(folders), 5)
        for folder in folders:
            with self.subTest(folder.name):
                held = list(known_differences(folder, True, True))
                self.assertEqual(len(held), sum(path.stat().st_size > 0
                                                for path in folder.glob("*.diff")))
                for one in held:
                    self.assertTrue(uses(one.script))


if __name__ == "__main__":
    unittest.main()
