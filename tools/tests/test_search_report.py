"""What a search says at its end, and how it prints long texts."""
import argparse
import unittest
from types import SimpleNamespace

import worked  # noqa: F401  it knows where the tools are
from mqroute_tools.common.exit_status import Fault
from mqroute_tools.search.search_report import Report, shortened


class Status(unittest.TestCase):
    def report(self, scripts: int, **more: object) -> Report:
        options = {"save": None, "seed": 1, "count": 0, "number": 0, "at_least": 1} | more
        search = SimpleNamespace(scripts=scripts, time_is_up=True)
        return Report(search, argparse.Namespace(**options))

    def test_at_least(self):
        self.assertEqual(self.report(3).status(), 0)
        self.assertEqual(self.report(3, at_least=3).status(), 0)
        with self.assertRaisesRegex(Fault, "^3 scripts run to the end, where --at-least asks"):
            self.report(3, at_least=4).status()
        self.assertEqual(self.report(1, at_least=4, number=46).status(), 0)

    def test_a_find_comes_first(self):
        report = self.report(1, at_least=4)
        report.finds.append(object())
        self.assertEqual(report.status(), 1)

    def test_none(self):
        with self.assertRaisesRegex(Fault, "no script was run to its end: the time was up"):
            self.report(0, at_least=4).status()


class Printed(unittest.TestCase):
    def test_long_texts(self):
        line = '{"do":"publish","topic":"x","payload":"%s"}'
        self.assertEqual(shortened(line % ("p" * 70_000)),
                         line[:-2] % ("p" * 60) + '" and 69,940 characters more}')
        for text in ("p" * 100, "", 'a\\"b'):
            self.assertEqual(shortened(line % text), line % text)


if __name__ == "__main__":
    unittest.main()
