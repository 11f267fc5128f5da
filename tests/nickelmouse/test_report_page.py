"""Pages: their files, their pieces, their pictures, what stands at their foot, and models with marked lines."""
import contextlib
import hashlib
import io
import os
import stat
import sys
import tempfile
import unittest
from types import SimpleNamespace
from unittest import mock

from nickelmouse.report import foot, html, listing, pictures, target
from nickelmouse.report.reporting import Reporting
from nickelmouse.running import Ended, Refused

CHARTS = [
    {'kind': 'course', 'name': 'end <$x$>', 'best': [[0.1, 30], [2, 20]], 'proved': [[0.5, 10]], 'seconds': 3, 'minimized': True},
    {'kind': 'tasks', 'rows': ['a&b', '<c>'], 'bars': [[0, 0, 5, 1, '$1$'], [1, 5, 9, 10, '']], 'begin': 0, 'end': 9, 'load': [[0, 1], [9, 0]],
     'capacity': 2, 'merged': False},
    {'kind': 'tour', 'places': ['1', '3', '2']},
]


class TargetTest(unittest.TestCase):
    """Which file may be written."""

    def setUp(self):
        self.folder = tempfile.TemporaryDirectory()
        self.addCleanup(self.folder.cleanup)

    def path(self, name, text=None):
        """A path in the folder, of a file that is written where there is a text."""
        path = os.path.join(self.folder.name, name)
        if text is not None:
            with open(path, 'wb') as file:
                file.write(text)
        return path

    def test_wrong(self):
        model = self.path('model.html', b'x')
        os.symlink(model, self.path('link.html'))
        read = target.read_by(['m.mzn'], ['-d', model, '-I', 'there', 'm.mzn'], None)
        self.assertEqual(read, ['m.mzn', model])
        self.assertIsNone(target.wrong_with(self.path('page.html'), read))
        for path in (model, self.path('link.html'), self.path('page')):
            self.assertIn(path, target.wrong_with(path, read))
        self.assertIn('never written', target.wrong_with('s.html', target.read_by([], [], './s.html')))

    def test_claim(self):
        target.claim(self.path('new.html'))
        target.claim(self.path('empty.html', b''))
        target.claim(self.path('ours.html', html.page('title', 'body')))
        for path in (self.path('mine.html', b'<html>'), self.folder.name, self.path('none/page.html'), '/dev/null'):
            with self.assertRaises(Refused) as caught:
                target.claim(path)
            self.assertEqual(caught.exception.status, 4)
        self.assertEqual(sorted(os.listdir(self.folder.name)), ['empty.html', 'mine.html', 'ours.html'])

    def test_put(self):
        path = self.path('page.html', b'old')
        os.symlink(path, self.path('link.html'))
        target.put(self.path('link.html'), b'new')
        with open(path, 'rb') as file:
            self.assertEqual(file.read(), b'new')
        self.assertEqual(stat.S_IMODE(os.stat(path).st_mode), 0o666 & ~target.umask())
        with self.assertRaises(Refused):
            target.put(self.path('none/page.html'), b'new')
        self.assertEqual(sorted(os.listdir(self.folder.name)), ['link.html', 'page.html'])


class HtmlTest(unittest.TestCase):
    """Pieces of a page."""

    def test_escaped(self):
        self.assertEqual(html.said('p', '<b>"&\0', class_='"'), '<p class="&quot;">&lt;b&gt;&quot;&amp;\N{REPLACEMENT CHARACTER}</p>')
        self.assertEqual(html.table(['<'], [['>']], [0]).count('class="number"'), 2)

    def test_page(self):
        page = html.page('</title>\udcff', html.said('p', 'text'))
        self.assertTrue(page.startswith(target.MARK))
        self.assertIn(b'<title>&lt;/title&gt;', page)
        self.assertNotIn(b'<script', page)

    def test_plural(self):
        self.assertEqual([html.plural(count, 'task', 'tasks') for count in (1, 1000)], ['1 task', '1,000 tasks'])


class ListingTest(unittest.TestCase):
    """A model with marked lines."""

    def test_marks(self):
        marks = [listing.Marked((2, 3), (3, 2), False, ['d = <1>', 'd = 2']), listing.Marked((2, 1), (2, 2), True, ['given'])]
        rows = listing.listing(['one', 'ab<cd', ' ef', ''], marks).split('\n')
        self.assertEqual(len(rows), 3)
        self.assertIn('class="clash"', rows[1])
        self.assertIn('ab<mark>&lt;cd</mark>', rows[1])
        self.assertIn('<li>d = &lt;1&gt;</li><li>d = 2</li><li>given</li>', rows[1])
        self.assertIn(' <mark>e</mark>f', rows[2])

    def test_overlapping(self):
        marks = [listing.Marked((1, 2), (1, 4), False), listing.Marked((1, 3), (1, 5), False), listing.Marked((1, 9), (1, 99), False)]
        self.assertEqual(listing.underlined('abcdefgh', marks, 1), 'a<mark>bcd</mark><mark>e</mark>fgh')

    def test_long(self):
        self.assertEqual(listing.shown_lines(1000, [listing.Marked((2, 1), (2, 1), False), listing.Marked((500, 1), (501, 1), False)]),
                         [1, 2, 3, 4, 5, *range(497, 505)])
        rows = listing.listing(['x'] * 1000, [listing.Marked((500, 1), (500, 1), False, [str(case) for case in range(30)])])
        self.assertIn('and 6 more', rows)
        self.assertEqual(rows.count('class="gap"'), 1)


class FootTest(unittest.TestCase):
    """What was checked."""

    def test_sums(self):
        with tempfile.NamedTemporaryFile() as file:
            file.write(b'model')
            file.flush()
            self.assertEqual(foot.sum_of(file.name), (hashlib.sha256(b'model').hexdigest(), 5))
            checked = foot.Checked([file.name, '/none'], [('certificate', file.name)], None, ['nickelmouse', 'my model.mzn'])
            self.assertEqual([row[:3] for row in checked.files()], [('read', file.name, '5'), ('certificate', 'not kept', '5')])
        self.assertIn('not kept', checked.how())
        self.assertIn('nickelmouse &#x27;my model.mzn&#x27;', checked.how())
        self.assertIn('nickelmouse check &#x27;my plan&#x27;', foot.Checked([], [], 'my plan', []).how())


class PicturesTest(unittest.TestCase):
    """Pictures by a Python that has matplotlib."""

    def python(self, text):
        """The path of a program in the place of Python."""
        handle, path = tempfile.mkstemp()
        os.close(handle)
        self.addCleanup(os.remove, path)
        with open(path, 'w', encoding='utf-8') as file:
            file.write('#!/bin/sh\n' + text)
        os.chmod(path, 0o755)
        return path

    def test_pythons(self):
        self.assertEqual(pictures.pythons()[0], sys.executable)
        self.assertEqual(pictures.pictures_of([]), ([], ''))
        missing, drawing, failing = self.python('exit 3\n'), self.python('echo \'["<svg>"]\'\n'), self.python('echo no room >&2; exit 1\n')
        for found, wanted in (([missing], (None, pictures.ADVICE)), ([missing, drawing], (['<svg>'], '')),
                              ([failing], (None, 'no charts: no room')), (['/none'], (None, 'no charts: /none: No such file or directory'))):
            with mock.patch.object(pictures, 'pythons', lambda found=found: found):
                self.assertEqual(pictures.pictures_of(CHARTS), wanted)

    def test_drawn(self):
        """The same charts give the same bytes, in which every name is text and no id stands twice."""
        drawn, missing = pictures.pictures_of(CHARTS)
        if drawn is None:
            self.skipTest(missing)
        self.assertEqual(pictures.pictures_of(CHARTS)[0], drawn)
        self.assertEqual(len(drawn), len(CHARTS))
        for number, picture in enumerate(drawn):
            self.assertTrue(picture.startswith('<svg '))
            self.assertEqual(picture.count(' id="'), picture.count(f' id="c{number}-'))
            for word in ('<?xml', '<!DOCTYPE', '#0101', '#0202', '#0303', '<metadata', 'dc:date'):
                self.assertNotIn(word, picture)
        for text in ('>a&amp;b</text>', '>&lt;c&gt;</text>', '>$1$</text>', '>capacity 2</text>', 'var(--task10)', 'var(--use)'):
            self.assertIn(text, drawn[1])


class ReportingTest(unittest.TestCase):
    """When a page is made, and when it is put in its place."""

    def reporting(self, path, made):
        """A page whose text is known, and what a run over it does that ends so."""
        page = Reporting(SimpleNamespace(report=path, heard=None), None)
        page.page = made
        return page

    def test_order(self):
        with tempfile.TemporaryDirectory() as folder:
            path, files = os.path.join(folder, 'page.html'), SimpleNamespace(folder=folder)
            for status, made, wanted, is_there in ((1, lambda *_: b'text', 1, False), (0, self.failing, 4, False), (0, lambda *_: b'text', 0, True)):
                with self.reporting(path, made) as page, self.assertRaises(Ended) as caught, contextlib.redirect_stderr(io.StringIO()):
                    page.around(lambda status=status: self.end(status), files)()
                self.assertEqual((caught.exception.status, caught.exception.lines, os.path.exists(path)), (wanted, ('checked',), is_there))

    def end(self, status):
        """Ends a run."""
        raise Ended(status, 'checked')

    def failing(self, *_):
        """Ends the making of a page."""
        raise Refused(4, 'no room')

    def test_told(self):
        with tempfile.TemporaryDirectory() as folder:
            page = self.reporting(os.path.join(folder, 'page.html'), None)
            page.found(1.5, 7)
            page.bounded(2.5, 3)
            page.explained('why')
            self.assertEqual((page.values, page.bounds, page.why), ([(1.5, 7)], [(2.5, 3)], 'why'))
