"""Numbers as bodies would give them that take more than is promised, and as the program gives them:
what costs_judge says of each."""
import unittest

from costs_counter import Cost
from costs_judge import FEW, MANY, at_most, for_each, middle, more_beside, no_more

# A connect as the program was once measured beside few things and beside many.
CONNECT = Cost(instructions=12_000, blocks=20, bytes=1_500, room=1_000, held=0, long_blocks=0)
BESIDE = CONNECT._replace(instructions=13_100, bytes=1_620, blocks=21)


def over(checks):
    return [check.what for check in checks if check.is_over()]


class MoreBeside(unittest.TestCase):
    def assert_over(self, words, **more):
        counts = {name: getattr(BESIDE, name) + count for name, count in more.items()}
        found = over(more_beside("a connect", "things", CONNECT, BESIDE._replace(**counts)))
        self.assertEqual(found, [f"a connect beside {MANY:,} things, {words} more than beside "
                                 f"{FEW}"])

    def test_longer_look_ups_pass(self):
        self.assertEqual(over(more_beside("a connect", "things", CONNECT, BESIDE)), [])

    def test_walk_of_one_instruction_for_each(self):
        self.assert_over("instructions", instructions=MANY - FEW)

    def test_index_made_anew(self):
        """Of an end for each session, with room for three times as many: one block more."""
        self.assert_over("bytes asked for", bytes=3 * 16 * (MANY - FEW), blocks=1)

    def test_block_for_each(self):
        self.assert_over("blocks of memory", blocks=MANY - FEW)


class Middle(unittest.TestCase):
    def test_one_of_three_may_find_a_table_full(self):
        costs = [CONNECT, CONNECT._replace(instructions=500_000, bytes=480_000), CONNECT]
        self.assertEqual(middle(costs), CONNECT)

    def test_two_of_three_may_not(self):
        grown = CONNECT._replace(instructions=500_000)
        self.assertEqual(middle([grown, CONNECT, grown]).instructions, 500_000)


class ForEach(unittest.TestCase):
    def each(self, kind, of_each, of_all=10_000):
        few, many = (CONNECT._replace(**{kind: of_all + round(of_each * n)}) for n in (500, 1_000))
        return for_each("a publish", kind, few, many, 500, 600).is_over()

    def test_within(self):
        self.assertFalse(self.each("room", 345))

    def test_what_all_share_does_not_count(self):
        self.assertFalse(self.each("room", 345, of_all=10_000_000))

    def test_thousand_times_the_room(self):
        self.assertTrue(self.each("room", 345 + 999 * 104))

    def test_payload_of_each_copy(self):
        few, many = (CONNECT._replace(long_blocks=3 + n) for n in (20, 40))
        self.assertTrue(for_each("a publish", "long_blocks", few, many, 20, 0.5).is_over())


class Others(unittest.TestCase):
    def test_memory_where_none_is_due(self):
        self.assertFalse(no_more("a disconnect", CONNECT, CONNECT).is_over())
        self.assertTrue(no_more("a disconnect", CONNECT, CONNECT._replace(blocks=21)).is_over())

    def test_piece_of_a_gigabyte(self):
        start = CONNECT._replace(room=2**30)
        self.assertTrue(at_most("before the first line", "room", start, 400_000).is_over())


if __name__ == "__main__":
    unittest.main()
