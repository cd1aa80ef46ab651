"""tests/plain.py finds a wrong answer of the plain reader, and says where."""
import os
import unittest
from unittest import mock

import plain
from plain import LINES


@unittest.skipUnless(os.path.exists(plain.PROGRAM), f"there is no {plain.PROGRAM}")
class Compared(unittest.TestCase):
    def test_right(self):
        """On as many lines as the tools say that both are compared on."""
        lines, faults = plain.compared(LINES, 1)
        self.assertGreaterEqual(lines, LINES)
        self.assertEqual(faults, [])

    def test_wrong(self):
        """What is planted differs in some script of 2,000 lines, each by itself."""
        world = "mqroute_tools.plain.world"
        for place, instead in ((f"{world}.matches", lambda wanted, name: wanted == name),
                               (f"{world}.is_over", lambda deadline, moment: False),
                               ("mqroute_tools.plain.lines.DEEPEST", 126),
                               (f"{world}.LAST_MOMENT", 10**13)):
            with self.subTest(place), mock.patch(place, instead):
                _, faults = plain.compared(2000, 3)
                self.assertTrue(faults)
                self.assertRegex(faults[0], r"(?s)script line \d+: b.*plain reader: .*mqroute: ")


if __name__ == "__main__":
    unittest.main()
