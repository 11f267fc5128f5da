"""Limits: how times are written, and what a signal or the end of the time does."""
import signal
import subprocess
import unittest
from unittest import mock

from nickelmouse import limits
from nickelmouse.limits import Limits, seconds_in
from nickelmouse.processes import Interrupted, Processes
from nickelmouse.running import Ended


class SecondsTest(unittest.TestCase):
    """Times."""

    def test_times(self):
        for text, seconds in (('90', 90), ('1.5', 1.5), ('2s', 2), ('10m', 600), ('1.5h', 5400)):
            self.assertEqual(seconds_in(text), seconds)

    def test_left(self):
        """A time limit is one for the command, from its start."""
        for now, seconds, left in ((2, 5, 3), (2, 2, 0), (9, 5, 0)):
            with mock.patch.object(limits, 'BEGIN', 0), mock.patch.object(limits, 'time', mock.Mock(monotonic=lambda: now)):
                self.assertEqual(limits.left_of(seconds), left)

    def test_no_times(self):
        for text in ('', '0', '-1', 'm', '1d', '1 m', '10M', 'nan', '1e3', '999999999h', '1.', '.5'):
            with self.assertRaises(ValueError):
                seconds_in(text)


class LimitsTest(unittest.TestCase):
    """Signals, one after the other, at given times."""

    def setUp(self):
        self.cuts, self.now = 0, 0
        self.processes = Processes()
        for name, other in (('PROCESSES', self.processes), ('time', mock.Mock(monotonic=lambda: self.now))):
            patch = mock.patch.object(limits, name, other)
            patch.start()
            self.addCleanup(patch.stop)

    def cut(self):
        self.cuts += 1

    def test_before_the_search(self):
        Limits().came(signal.SIGTERM, None)
        self.assertIsInstance(self.processes.ended_for, Interrupted)
        self.assertEqual(self.processes.ended_for.status, 143)

    def test_in_the_search(self):
        limit = Limits()
        limit.cut = self.cut
        for self.now, is_over in ((5, False), (5.9, False), (6.1, True)):
            limit.came(signal.SIGINT, None)
            self.assertEqual((self.cuts, self.processes.ended_for is not None), (1, is_over))

    def test_time(self):
        limit = Limits(9)
        limit.late()
        self.assertIsInstance(self.processes.ended_for, Ended)
        self.processes.ended_for, limit.cut = None, self.cut
        limit.late()
        self.assertEqual((self.cuts, self.processes.ended_for), (1, None))


class ProcessesTest(unittest.TestCase):
    """Programs that are ended."""

    def test_ended(self):
        """A program that goes on, and one that is started later."""
        processes = Processes()
        first = processes.start(['sleep', '60'])
        processes.end(Interrupted(signal.SIGINT))
        second = processes.start(['sleep', '60'])
        for process in (first, second):
            with self.assertRaises(Interrupted):
                processes.wait(process)
        self.assertEqual((first.returncode, second.returncode, processes.going), (-9, -9, {}))

    def test_heard(self):
        processes = Processes()
        told = processes.heard(processes.start(['sh', '-c', 'echo a; echo b >&2'], stdout=subprocess.PIPE, stderr=subprocess.PIPE))
        self.assertEqual(told, (b'a\n', b'b\n'))

    def test_cleared(self):
        processes = Processes()
        process = processes.start(['sleep', '60'])
        processes.cleared()
        self.assertEqual((process.returncode, processes.going), (-9, {}))

    def test_signals_are_ours(self):
        """A signal to the whole group does not reach a program that we have started."""
        processes = Processes()
        process = processes.start(['sh', '-c', 'kill -INT $$; kill -TERM $$; echo still'], stdout=subprocess.PIPE)
        self.assertEqual(processes.heard(process)[0], b'still\n')


if __name__ == '__main__':
    unittest.main()
