"""Parts of one piece of work in processes side by side."""
import os
import signal
import time
import unittest

from bwtools._errors import Refused
from bwtools.loader import encode

from tests.support import in_fork


def refuse(part):
    if part == 2:
        raise Refused("part 2 is refused")
    return part


class Parts(unittest.TestCase):
    def test_results_come_in_order(self):
        self.assertEqual(encode.do_parts(4, lambda part: part * part), [0, 1, 4, 9])
        self.assertEqual(encode.do_parts(1, lambda part: "alone"), ["alone"])

    def test_what_a_process_raises_is_raised(self):
        with self.assertRaisesRegex(Refused, "part 2 is refused"):
            encode.do_parts(4, refuse)

    def test_a_process_that_ends_without_a_word(self):
        with self.assertRaises(ChildProcessError):
            encode.do_parts(2, lambda part: part and os.kill(os.getpid(), signal.SIGKILL))

    def test_no_process_is_left(self):
        """In a fork, which has no processes of other tests."""
        def interrupt(part):
            if part == 0:
                raise KeyboardInterrupt
            time.sleep(60)

        def act():
            begun = time.monotonic()
            with self.assertRaises(KeyboardInterrupt):
                encode.do_parts(3, interrupt)
            self.assertLess(time.monotonic() - begun, 30)
            with self.assertRaises(ChildProcessError):
                os.waitpid(-1, os.WNOHANG)

        self.assertEqual(os.waitpid(in_fork(act), 0)[1], 0)


class Aside(unittest.TestCase):
    def test_aside(self):
        self.assertEqual(encode.Aside(lambda: 5).result(), 5)
        refused = encode.Aside(lambda: refuse(2))
        with self.assertRaisesRegex(Refused, "part 2 is refused"):
            refused.result()
