"""The file of a joined certificate, and the words of a search by cubes."""
import os
import tempfile
import unittest

from nickelmouse.machines import Machines
from nickelmouse.searching import Full, Sink, without
from nickelmouse.words import asked


class SearchingTest(unittest.TestCase):
    """Around a search by cubes."""

    def test_sink(self):
        with tempfile.TemporaryDirectory() as folder:
            path = os.path.join(folder, 'file')
            sink = Sink(path)
            for _ in range(3):
                sink.write(b'x' * 600_000)
            self.assertEqual(sink.bytes, 1_200_000)
            sink.flush()
            sink.close()
            self.assertEqual((sink.bytes, os.path.getsize(path)), (1_800_000, 1_800_000))

    def test_full(self):
        sink = Sink('/dev/full')
        sink.write(b'x')
        with self.assertRaises(Full) as fault:
            sink.flush()
        self.assertEqual(str(fault.exception), '/dev/full: No space left on device')
        sink.flush()
        sink.close()

    def test_without(self):
        cases = [
            (['-a', '-n', '3', '-f'], '-n', (['-a', '-f'], '3')),
            (['-a'], '-n', (['-a'], None)),
        ]
        for words, option, wanted in cases:
            self.assertEqual(without(words, option), wanted)

    def test_words(self):
        cases = [
            ([], Machines()),
            (['--through', 'nice -n 5'], Machines(('nice', '-n', '5'))),
            (['--cubes', '8', '--cube-nodes', '50'], Machines((), 8, budget=50)),
            (['--hosts', 'h', '--folder', 'f'], Machines((), None, 'h', 'f')),
        ]
        for words, wanted in cases:
            machines = asked([*words, 'model.fzn']).machines
            self.assertEqual((machines, machines.has_cubes), (wanted, wanted.cubes is not None or wanted.hosts is not None))

    def test_folder(self):
        cases = [(Machines(), None), (Machines(('nice',)), '.'), (Machines(('nice',), folder='f'), 'f'), (Machines(folder='f'), 'f')]
        for machines, wanted in cases:
            self.assertEqual(machines.temporary(), wanted)
