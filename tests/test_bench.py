"""What bench/ counts and gives: a dump in which nothing was counted is no number, rows name their
worlds, and hard scripts are what they say."""
import shutil
import sys
import unittest
from pathlib import Path

TOP = Path(__file__).resolve().parent.parent
sys.path[:0] = [str(TOP / "bench"), str(TOP / "tools")]

import curves  # noqa: E402
import hostile  # noqa: E402
import instructions as rows  # noqa: E402
from mqroute_tools.plain.reader import Reader  # noqa: E402
from program import NothingCounted, Program, instructions  # noqa: E402

DUMP = "events: Ir\nfn=(1) main\n7 5\n\ntotals: {}\n"
SMALL = 4  # of a hard script
REFUSED = {hostile.nested_arrays: SMALL, hostile.unknown_members: 20}  # lines


class Dumping(Program):
    """A program that callgrind doesn't run: these are its dumps, one at each count."""

    def __init__(self, dumps):
        super().__init__(["cat"])
        self.left = list(dumps)

    def control(self, *what):
        if what == ("-d",):
            for text in self.left.pop(0):
                Path(self.folder.name, f"counts.{len(self.dumps()) + 1}").write_text(text)


class Counted(unittest.TestCase):
    def counted(self, *dumps):
        program = Dumping(dumps)
        self.addCleanup(program.finish)
        return program.count([b"x\n"])

    def test_a_number(self):
        self.assertEqual(instructions(DUMP.format("12345")), 12_345)
        self.assertEqual(self.counted([DUMP.format("12345")]), 12_345)

    def test_nothing_counted(self):
        for dump in (DUMP.format("0"), "events: Ir\n", ""):
            with self.assertRaisesRegex(NothingCounted, "nothing was counted"):
                self.counted([dump])

    def test_no_dump_of_this_count(self):
        """An older one isn't taken for it."""
        program = Dumping([[DUMP.format("9")], [], [DUMP.format("3")]])
        self.addCleanup(program.finish)
        self.assertEqual(program.count([b"x\n"]), 9)
        with self.assertRaisesRegex(NothingCounted, "callgrind wrote 0 dumps"):
            program.count([b"x\n"])
        self.assertEqual(program.count([b"x\n"]), 3)

    @unittest.skipUnless(shutil.which("valgrind"), "there is no valgrind")
    def test_a_program(self):
        program = Program(["cat"], counted=True)
        self.addCleanup(program.finish)
        program.give([b"first\n"])
        self.assertGreater(program.count([b"second\n"]), 0)
        self.assertGreater(program.count([b"third\n"]), 0)


class Worlds(unittest.TestCase):
    def test_named(self):
        """Each row has a small world and a larger one, and no name comes twice."""
        names = [f"{row.command} ({world.name})" for row in rows.ROWS for world in row.worlds]
        self.assertEqual(len(set(names)), len(names))
        for row in rows.ROWS:
            with self.subTest(row.command):
                self.assertGreater(len(row.worlds), 1)
                self.assertEqual(len(set(row.worlds)), len(row.worlds))

    def test_what_is_counted(self):
        """Lines of one command, where not all lines of a script are counted."""
        for row in rows.ROWS:
            world = row.worlds[0]
            with self.subTest(row.command):
                lines, first = rows.lines_of(world)
                counted = {line.split(b",")[0] for line in lines[first:]}
                self.assertTrue(first == 0 or len(counted) == 1, counted)

    def test_beside(self):
        """What stands beside comes first, and isn't counted."""
        alone = rows.World("", "scripts.py refused 30", 21)
        lines, first = rows.lines_of(rows.World("", alone.script, alone.first, beside=50))
        there, alone_first = rows.lines_of(alone)
        self.assertEqual(lines[first:], there[alone_first:])
        self.assertEqual(len(lines) - len(there), 51)

    def test_shown(self):
        row = rows.Row("a connect", rows.World("500 clients", "", 0), rows.World("", "", 0))
        self.assertEqual(rows.shown(row, row.worlds[0], [300, 200]),
                         "a connect (500 clients): 300, the yardstick 200: ratio 1.50")


class Hard(unittest.TestCase):
    def answers(self, script):
        acl = (b"".join(hostile.LISTS[script](SMALL)).decode() if script in hostile.LISTS
               else None)
        return b"".join(Reader(acl).answers(script(SMALL)))

    def test_each_is_a_script(self):
        """Nothing of it is refused, but for lines that are no command."""
        for script in hostile.SCRIPTS:
            with self.subTest(script.__name__):
                said = self.answers(script)
                self.assertEqual(said.count(b'"refused"'), REFUSED.get(script, 0))

    def test_what_they_do(self):
        for script, copies in ((hostile.combs, 0), (hostile.overlapping_ids, 3),
                               (hostile.group_connected, 200), (hostile.group_away, 20),
                               (hostile.large_message, SMALL), (hostile.long_names, 3 * SMALL),
                               (hostile.deep_searches, 0), (hostile.queues, 1_000),
                               (hostile.deep_rows, 100)):
            with self.subTest(script.__name__):
                self.assertEqual(self.answers(script).count(b'{"client"'), copies)

    def test_each_has_two_sizes(self):
        for script, (small, large) in hostile.SCRIPTS.items():
            self.assertLess(small, large, script.__name__)

    def test_curve(self):
        few = curves.Taken(1_000, 0.5, 10_000_000)
        for seconds, wanted in ((1.0, "1.0"), (2.0, "2.0"), (0.5, "0.0")):
            many = curves.Taken(2_000, seconds, 14_000_000)
            self.assertEqual(curves.curve(few, many), wanted)
        self.assertEqual(curves.curve(curves.Taken(1_000, 0.01, 0), many), "-")

    def test_each(self):
        """A site of 80,000 devices more."""
        small = curves.Taken(20_000, 1.9, 129_000_000)
        self.assertEqual(curves.each(small, curves.Taken(100_000, 8.78, 641_000_000)),
                         ("86.0", "6,400"))
        self.assertEqual(curves.each(small, curves.Taken(100_000, 8.78, 129_000_500)),
                         ("86.0", "-"))

    def test_a_program(self):
        found = curves.taken("cat", hostile.comings, 100)
        self.assertEqual((found.size, found.peak > 100_000), (100, True))


if __name__ == "__main__":
    unittest.main()
