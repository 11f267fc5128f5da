"""Workers: one run of a script that stands for fznsolve."""
import os
import tempfile
import unittest

from nickelmouse.workers import Told, Worker


class WorkerTest(unittest.TestCase):
    """How a run is started and ended."""

    def setUp(self):
        self.folder = tempfile.TemporaryDirectory()

    def tearDown(self):
        self.folder.cleanup()

    def worker(self, script, **options):
        """A worker of a script, over a file that is not there."""
        path = os.path.join(self.folder.name, 'solve')
        with open(path, 'w', encoding='utf-8') as file:
            file.write('#!/bin/sh\n' + script)
        os.chmod(path, 0o755)
        return Worker(path, ['-f'], 'model.fzn', os.path.join(self.folder.name, 'model.fzc'), **options)

    def test_words(self):
        self.assertEqual(Worker('solve', ['-f'], 'a.fzn', 'a.fzc', ('nice', '-n5')).command,
                         ['nice', '-n5', 'solve', '-f', '--cert', 'a.fzc', 'a.fzn'])

    def test_run(self):
        self.assertEqual(self.worker('echo "$1 $2 $4" >&2; exit 4\n').run(), Told(4, '-f --cert model.fzn'))
        self.assertEqual(self.worker('cat /proc/self/oom_score_adj >&2\n', is_spare=True).run(), Told(0, '1000'))
        self.assertEqual(self.worker('echo never\n', before=('sh', '-c', 'echo "$2" >&2', 'sh')).run(), Told(0, '-f'))

    def test_cut(self):
        """One that is cut before it is started ends at once."""
        worker = self.worker('exec sleep 60\n')
        worker.cut()
        self.assertEqual(worker.run().status, -9)

    def test_told(self):
        line = 'in all 0.1 s, 7 nodes, 6 conflicts, 5 inferences, 4 solutions, best -3, 2 bytes of certificate'
        for told, last, is_faulty in ((Told(0, ''), 'status 0', False), (Told(-9, line), 'killed by signal 9', False),
                                      (Told(2, 'one\ntwo'), 'two', True), (Told(5, f'{line}\nfault 19 Memory'), 'fault 19 Memory', False),
                                      (Told(3, 'fault 23 CommandLine'), 'fault 23 CommandLine', True)):
            self.assertEqual((told.last(), told.is_faulty()), (last, is_faulty))


if __name__ == '__main__':
    unittest.main()
