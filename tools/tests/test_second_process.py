"""What a second process makes is taken as if this one had made it."""
import os
import signal
import unittest
import unittest.mock
from collections.abc import Iterator

import worked  # noqa: F401  it knows where the tools are
from mqroute_tools.common.exit_status import Fault
from mqroute_tools.common.second_process import BATCH, ahead, meanwhile


def made(count: int, fault: Exception | None = None) -> Iterator[tuple[int, int]]:
    for number in range(count):
        yield number, os.getpid()
    if fault:
        raise fault


@unittest.skipUnless(len(os.sched_getaffinity(0)) > 1, "there is one processor")
class Ahead(unittest.TestCase):
    def taken(self, items: Iterator[tuple[int, int]]) -> tuple[list[int], Exception | None]:
        """What is taken before the end or a fault, and that; all of it made by another process."""
        numbers, makers = [], set()
        try:
            for number, maker in ahead(items):
                numbers.append(number)
                makers.add(maker)
        except Exception as fault:
            return numbers, fault
        finally:
            self.assertNotIn(os.getpid(), makers)
            self.assertRaises(ChildProcessError, os.waitpid, -1, 0)
        return numbers, None

    def test_in_order(self):
        for count in (0, 1, BATCH, 3 * BATCH + 1):
            self.assertEqual(self.taken(made(count)), (list(range(count)), None))

    def test_what_is_raised(self):
        """It comes behind what was made before it."""
        numbers, fault = self.taken(made(BATCH + 5, FileNotFoundError(2, "No such file", "x")))
        self.assertEqual(numbers, list(range(BATCH + 5)))
        self.assertIsInstance(fault, FileNotFoundError)
        self.assertEqual(fault.filename, "x")

    def test_a_process_that_is_stopped(self):
        def stopped() -> Iterator[tuple[int, int]]:
            yield from made(BATCH)
            os.kill(os.getpid(), signal.SIGKILL)
        self.assertIsInstance(self.taken(stopped())[1], Fault)

    def test_no_more_is_taken(self):
        items = ahead(made(100 * BATCH))
        next(items)
        items.close()
        self.assertRaises(ChildProcessError, os.waitpid, -1, 0)


class OneProcessor(unittest.TestCase):
    def test_it_makes_them_itself(self):
        with unittest.mock.patch("os.fork", side_effect=AssertionError), \
                unittest.mock.patch("os.sched_getaffinity", return_value={0}):
            self.assertEqual(list(ahead(made(3))), list(made(3)))


class Meanwhile(unittest.TestCase):
    @unittest.skipUnless(len(os.sched_getaffinity(0)) > 1, "there is one processor")
    def test_by_a_second_process(self):
        with meanwhile(os.getpid) as result:
            self.assertNotEqual(result(), os.getpid())
        self.assertRaises(ChildProcessError, os.waitpid, -1, 0)

    def test_by_one_alone(self):
        with unittest.mock.patch("os.sched_getaffinity", return_value={0}):
            with meanwhile(os.getpid) as result:
                self.assertEqual(result(), os.getpid())

    def test_what_is_raised(self):
        def work() -> int:
            raise Fault("no")
        with meanwhile(work) as result, self.assertRaisesRegex(Fault, "no"):
            result()

    def test_nobody_asks(self):
        """The second process is ended."""
        with meanwhile(lambda: signal.pause()):
            pass
        self.assertRaises(ChildProcessError, os.waitpid, -1, 0)


if __name__ == "__main__":
    unittest.main()
