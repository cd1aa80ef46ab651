"""Which topics a filter matches, one by one and in a tree of them."""
import unittest

import worked  # noqa: F401  it knows where the tools are
from mqroute_tools.script.topics import TopicTree, matches


class Filters(unittest.TestCase):
    def test_matches(self):
        for name, topic, wanted in (
                ("a", "a", 1), ("a", "b", 0), ("+", "a", 1), ("+", "a/b", 0), ("a/#", "a", 1),
                ("a/#", "a/b/c", 1), ("a/#", "b", 0), ("#", "a/b", 1), ("#", "$x", 0),
                ("+/a", "$x/a", 0), ("$x/#", "$x/a", 1), ("a/+", "a/", 1), ("+/+", "/", 1),
                ("+", "", 1), ("a/+/#", "a", 0)):
            self.assertEqual(matches(name, topic), bool(wanted), (name, topic))
            tree = TopicTree()
            for each in (topic, "zz/top", "$zz"):
                tree.add(each)
            self.assertEqual(sorted(tree.matching(name)),
                             sorted(t for t in (topic, "zz/top", "$zz") if matches(name, t)), name)


if __name__ == "__main__":
    unittest.main()
