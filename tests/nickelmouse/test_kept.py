"""Folders that are kept."""
import contextlib
import io
import os
import tempfile
import unittest

from nickelmouse.files import Files
from nickelmouse.kept import Record, check_again, empty_folder, record_of, tidy, write_record
from nickelmouse.running import Ended, Programs, Refused


class KeptTest(unittest.TestCase):
    """What is made, written and read again."""

    def setUp(self):
        self.folder = tempfile.TemporaryDirectory()
        self.path = os.path.join(self.folder.name, 'kept')

    def tearDown(self):
        self.folder.cleanup()

    def test_nothing_is_written_over(self):
        self.assertEqual(empty_folder(self.path), os.path.realpath(self.path))
        self.assertEqual(empty_folder(self.path), os.path.realpath(self.path))
        Files(self.path).write('plan.txt', b'mine')
        for path in (self.path, os.path.join(self.path, 'plan.txt')):
            with self.assertRaises(Refused) as end:
                empty_folder(path)
            self.assertEqual((end.exception.status, str(end.exception).count('\n')), (4, 0))

    def test_record(self):
        files = Files(empty_folder(self.path))
        for record, words in ((Record(True, None, False), ['-a']), (Record(False, 99, True), ['--bound'])):
            write_record(files, record)
            self.assertEqual((record_of(files), record.checking()), (record, words))

    def test_record_of_yesterday(self):
        files = Files(empty_folder(self.path))
        files.write('kept.json', b'{"every": true, "bounds": null}')
        self.assertEqual(record_of(files), Record(True, None, False))

    def test_tidy(self):
        """What is left, by the status, of files of a run."""
        whole, early = ['answer.pipe', 'model.fzc', 'model.fzn'], ['compiled.pipe', 'model.fzn']
        for status, names, left in ((0, whole, whole[1:]), (0, early, early[1:]), (1, whole, whole[1:]), (1, early, []), (None, whole, [])):
            files = Files(empty_folder(self.path))
            for name in names:
                files.write(name, b'')
            tidy(files, status)
            self.assertEqual(sorted(os.listdir(self.path)), left, (status, names))
            files.remove(*left)

    def test_no_record(self):
        files = Files(empty_folder(self.path))
        for text in (None, b'', b'[]', b'{}', b'{"every": 1, "bounds": null, "bound": true}',
                     b'{"every": true, "bounds": "x", "bound": true}', b'{"every": true, "bounds": null, "bound": 1}', b'\xff'):
            if text is not None:
                files.write('kept.json', text)
            with self.assertRaises(Refused):
                record_of(files)

    def test_checked_again(self):
        files = Files(empty_folder(self.path))
        files.write('check', b'#!/bin/sh\nwhile [ $# -gt 1 ]; do shift; done; cat "$1"\n')
        os.chmod(files.path('check'), 0o755)
        cases = [
            # whether the bound is told, what stands in the certificate, the answer that was kept, the end
            (False, b'x = 3;\n', b'x = 3;\n', (0, ('checked',))),
            (False, b'x = 3;\n', b'x = 4;\n', (1, ('the certificate shows another answer',))),
            (True, b'x = 3;\nx = 3, at least 0\n', b'x = 3;\n', (0, ('x = 3, at least 0 (100.0 % apart)', 'checked'))),
            (True, b'x = 3;\nx = 3, the best\n', b'x = 3;\n', (0, ('checked',))),
        ]
        for bound, cert, answer, wanted in cases:
            write_record(files, Record(False, None, bound))
            files.write('model.fzc', cert)
            files.write('model.answer', answer)
            with self.assertRaises(Ended) as end:
                self.checked(files)
            self.assertEqual((end.exception.status, end.exception.lines), wanted)

    def test_another_bound(self):
        """A second certificate has a better bound, which is checked with the first."""
        files = Files(empty_folder(self.path))
        files.write('check', b'#!/bin/sh\nwhile [ $# -gt 1 ]; do shift; done; grep wrong "$1" >&2 && exit 1; cat "$1"\n')
        os.chmod(files.path('check'), 0o755)
        write_record(files, Record(False, None, True))
        files.write('model.fzc', b'x = 3;\nx = 3, at least 0\n')
        files.write('model.answer', b'x = 3;\n')
        for second, wanted in ((b'x = 5;\nx = 5, at least 2\n', ('x = 3, at least 2 (33.4 % apart)', 'checked')),
                               (b'wrong\n', ('the certificate is rejected',))):
            files.write('bound.fzc', second)
            with self.assertRaises(Ended) as end, contextlib.redirect_stderr(io.StringIO()):
                self.checked(files)
            self.assertEqual(end.exception.lines, wanted)

    def checked(self, files):
        """Checks again, and shows nothing."""
        with contextlib.redirect_stdout(io.TextIOWrapper(io.BytesIO())):
            check_again(Programs('', files.path('check')), files)


if __name__ == '__main__':
    unittest.main()
