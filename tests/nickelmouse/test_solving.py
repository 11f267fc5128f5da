"""Solving: small scripts stand for the two programs, one writes a certificate and the other says what it read."""
import contextlib
import io
import os
import tempfile
import unittest

from nickelmouse.bound import Bound
from nickelmouse.files import Files
from nickelmouse.printing import begins_with
from nickelmouse.running import Ended, Programs, Refused
from nickelmouse.solving import Search

ITEMS = 'var 1 x int 0..9 bytes 1..2\\ngoal satisfy bytes 3..4\\nend parameters 0 variables 1 arrays 0 constraints 0 mended 0\\n'
CHECK = f"""if [ "$1" = --items ]; then printf '{ITEMS}'; exit 0; fi
cat "$2"
"""


class SearchTest(unittest.TestCase):
    """What the checker is handed, and what is left."""

    def setUp(self):
        self.folder = tempfile.TemporaryDirectory()
        self.files = Files(self.folder.name)
        self.files.write('model.fzn', b'')

    def tearDown(self):
        self.folder.cleanup()

    def script(self, name, text):
        """Writes a program."""
        self.files.write(name, b'#!/bin/sh\n' + text.encode())
        os.chmod(self.files.path(name), 0o755)
        return self.files.path(name)

    def searched(self, solve, check=CHECK, **options):
        """Searches with two scripts: what stands in the answer, in the certificate, and what was said."""
        programs = Programs(self.script('solve', 'cert="$2"\n' + solve), self.script('check', check))
        said = io.StringIO()
        with contextlib.redirect_stderr(said):
            self.search = Search(programs, self.files, [], options.pop('checking', []), True, **options)
            self.search.run()
        return self.files.read('model.answer').decode(), self.files.read('model.fzc').decode(), said.getvalue()

    def test_whole(self):
        whole = 'fzc 2\nvars 1 cons 0\ns 3\ne closed\n'
        self.assertEqual(self.searched("printf 'fzc 2\\nvars 1 cons 0\\n' >$cert; sleep 0.1; printf 's 3\\ne closed\\n' >>$cert"), (whole, whole, ''))

    def test_ended_early(self):
        cases = [
            # what stands when the search is killed, what is read and kept
            ('', 'fzc 2\nvars 1 cons 0\ne open\n'),
            ('fz', 'fzc 2\nvars 1 cons 0\ne open\n'),
            ('fzc 2\\nvars 1 co', 'fzc 2\nvars 1 cons 0\ne open\n'),
            ('fzc 2\\nvars 1 cons 0\\n', 'fzc 2\nvars 1 cons 0\ne open\n'),
            ('fzc 2\\nvars 1 cons 0\\ns 3\\nr 1>=', 'fzc 2\nvars 1 cons 0\ns 3\ne open\n'),
            ('fzc 2\\nvars 1 cons 0\\ns 3\\ne clos', 'fzc 2\nvars 1 cons 0\ns 3\ne open\n'),
            ('fzc 2\\nvars 1 cons 0\\ns 3\\ne closed\\n', 'fzc 2\nvars 1 cons 0\ns 3\ne closed\n'),
            ('fzc 3\\nvars 1 c', 'fzc 3\nvars 1 cons 0 new 0\ne open\n'),
            ('fzc 3\\nvars 1 cons 0 new 3\\nc lin ; 1 1\\nc lin ; 1', 'fzc 3\nvars 1 cons 0 new 3\nc lin ; 1 1\nc lin ;\nc lin ;\ne open\n'),
        ]
        for stands, wanted in cases:
            told = self.searched(f"printf '{stands}' >$cert; kill -9 $$")
            self.assertEqual(told, (wanted, wanted, 'the search ended early: killed by signal 9\n'), stands)

    def test_without_memory(self):
        told = self.searched("printf 'fzc 2\\nvars 1 cons 0\\ns 3\\n' >$cert; echo fault 19 Memory >&2; exit 5")
        self.assertEqual(told[1:], ('fzc 2\nvars 1 cons 0\ns 3\ne open\n', 'the search ended early: fault 19 Memory\n'))

    def test_refused_model(self):
        with self.assertRaises(Refused) as end:
            self.searched('echo line 1 column 1: fault 9 Syntax >&2; exit 2', 'exit 2')
        self.assertEqual((end.exception.status, str(end.exception)), (2, 'line 1 column 1: fault 9 Syntax'))
        self.assertEqual(self.files.read('model.answer'), b'')

    def test_rejected_certificate(self):
        """A search whose certificate is rejected does not go on."""
        with self.assertRaises(Ended) as end:
            self.searched("while :; do echo wrong; sleep 0.01; done >$cert", 'echo certificate line 1: fault 30 Header >&2; exit 1')
        self.assertEqual((end.exception.status, end.exception.lines), (1, ('the certificate is rejected',)))
        self.assertFalse(os.path.exists(self.files.path('model.answer')))

    def test_checker_that_fails(self):
        cases = [
            # how fzncheck ends, what is raised
            ('echo fault 19 Memory >&2; exit 5', Ended(1, 'not checked: fault 19 Memory')),
            ('kill -9 $$', Ended(1, 'not checked: killed by signal 9')),
            ('echo fault 21 WriteOutput >&2; exit 4', Refused(4, 'fault 21 WriteOutput')),
        ]
        for ends, wanted in cases:
            with self.assertRaises(type(wanted)) as end:
                self.searched("printf 'fzc 2\\nvars 1 cons 1\\ne open\\n' >$cert", 'cat "$2" >/dev/null; ' + ends)
            self.assertEqual((end.exception.status, str(end.exception)), (wanted.status, str(wanted)))

    def test_shown(self):
        shown = io.BytesIO()
        self.searched("printf 'fzc 2\\nvars 1 cons 0\\ns 3\\ne open\\n' >$cert; echo x = 3", shown=shown)
        self.assertEqual((shown.getvalue(), self.files.read('model.shown')), (b'x = 3\n', b'x = 3\n'))
        self.assertFalse(begins_with(self.files, 'model.answer', 'model.shown'))

    def test_bound(self):
        """What --bound prints behind the answer is no part of it."""
        check = 'shift; cat "$2" >/dev/null; printf "x = 3;\\n----------\\nx = 3, at least 2\\n"'
        told = self.searched("printf 'fzc 2\\nvars 1 cons 0\\ns 3\\ne open\\n' >$cert", check, checking=['--bound'])
        self.assertEqual((told[0], self.search.bound), ('x = 3;\n----------\n', Bound('x', 3, 'at least', 2)))


if __name__ == '__main__':
    unittest.main()
