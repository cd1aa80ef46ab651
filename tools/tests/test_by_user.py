"""The rows by user name, with a row for each cause."""
import json
import unittest

from two_runs import ALL, NO_READING, Compared, P, R, connect, publish, subscribe
from worked import wants_program


@wants_program
class ByUser(Compared):
    SCRIPT = [P, connect("p2", "meter"), R, connect("r2", "ops"), connect("n"),
              connect("w", "(none)"), *(subscribe(c, "x/#") for c in ("r", "r2", "n", "w")),
              publish("p", "x/1"), publish("p2", "x/2"), publish("p", "x/1")]
    LIST = "pattern readwrite x/#\nuser ops\ntopic deny x/2\nuser meter\ntopic deny x/1\n"

    def test_rows(self):
        done = self.compared(self.SCRIPT, ALL, self.LIST, "--by", "user", "--depth", "1")
        self.assertEqual((done.returncode, done.stdout), (1, """\
Copies
user      clients  topic  what  copies  because                                   first line
(none)          1  x/#    lost       2  publish by meter refused (NotAuthorized)          11
"(none)"        1  x/#    lost       2  publish by meter refused (NotAuthorized)          11
ops             2  x/#    lost       4  publish by meter refused (NotAuthorized)          11
ops             2  x/#    lost       2  may no longer read                                12

Refused
user   clients  topic  before  after  why
meter        1  x/#         0      2  NotAuthorized 2

In all 12 copies before and 2 after: 10 lost, 0 gained, 0 changed. 0 lines refused before, 2 after.
"""))

    def test_json(self):
        found = json.loads(self.compared(self.SCRIPT, ALL, self.LIST, "--by", "user", "--depth",
                                         "1", "--json").stdout)
        row = found["copies"][2]
        self.assertEqual({k: v for k, v in row.items() if k != "causes"},
                         {"user": "ops", "topic": "x/#", "clients": 2, "before": 6, "after": 0,
                          "lost": 6, "gained": 0, "changed": 0})
        self.assertEqual(
            row["causes"][1], {"what": "lost", "copies": 2, "clients": 2, "cause": "reader",
                               "because": "may no longer read",
                               "lines": [{"line": 12, "client": "r", "topic": "x/2"},
                                         {"line": 12, "client": "r2", "topic": "x/2"}]})
        self.assertEqual(row["causes"][0] | {"lines": []},
                         {"what": "lost", "copies": 4, "clients": 2, "cause": "publisher",
                          "refused": "NotAuthorized", "newly": True,
                          "publisher": "meter",
                          "because": "publish by meter refused (NotAuthorized)", "lines": []})
        self.assertEqual([found["copies"][i]["user"] for i in (0, 1)], [None, "(none)"])
        self.assertEqual(found["refused"], [
            {"user": "meter", "topic": "x/#", "clients": 1, "before": 0, "after": 2,
             "newly": {"NotAuthorized": 2}, "no_longer": {},
             "lines_in_all": 2,
             "lines": [{"line": n, "client": "p", "topic": "x/1"} for n in (11, 13)]}])
        self.assertEqual([c["lost"] for c in found["causes"]], [8, 2])

    def test_why(self):
        done = self.compared(self.SCRIPT, ALL, self.LIST, "--why", "--depth", "1")
        self.assertIn("r       x/#         3      0     3       0        0  publish by meter "
                      "refused (NotAuthorized) 2, may no longer read 1\n", done.stdout)

    def test_the_first_lines(self):
        found = json.loads(self.compared([P, R, subscribe("r"), *[publish("p")] * 50], ALL,
                                         NO_READING, "--by", "user", "--json").stdout)
        self.assertEqual(
            [at["line"] for at in found["copies"][0]["causes"][0]["lines"]], list(range(4, 24)))


if __name__ == "__main__":
    unittest.main()
