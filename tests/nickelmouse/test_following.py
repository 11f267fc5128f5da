"""Following: the whole lines of a file that another program writes."""
import io
import os
import tempfile
import threading
import time
import unittest

from nickelmouse.following import Follower, Lines, solutions_in


class Sink(io.BytesIO):
    """Takes bytes until it has had enough."""

    def __init__(self, enough=None):
        super().__init__()
        self.enough = enough

    def write(self, piece):
        if self.enough is not None and self.tell() + len(piece) > self.enough:
            raise BrokenPipeError
        return super().write(piece)


class LinesTest(unittest.TestCase):
    """Pieces that end anywhere."""

    def test_pieces(self):
        cases = [
            # pieces, what is whole, how many lines in front of the steps, how the last begins, what is left
            ([b'fz', b'c 2'], b'', 0, b'', b'fzc 2'),
            ([b'fzc 2', b'\nva'], b'fzc 2\n', 1, b'fz', b'va'),
            ([b'fzc 2\nvars 1 cons 1\ns', b' 3\n', b'e op'], b'fzc 2\nvars 1 cons 1\ns 3\n', 2, b's ', b'e op'),
            ([b'fzc 2\nvars 1 cons 1\n', b'e open\n'], b'fzc 2\nvars 1 cons 1\ne open\n', 2, b'e ', b''),
            ([b'fzc 3\nvars 1 cons 1 new 2\nc lin ;', b'\nc li'], b'fzc 3\nvars 1 cons 1 new 2\nc lin ;\n', 3, b'c ', b'c li'),
            ([b'fzc 3\n', b'vars 1 cons 1 new 1\nc lin ;\ne open\n'], b'fzc 3\nvars 1 cons 1 new 1\nc lin ;\ne open\n', 3, b'e ', b''),
        ]
        for pieces, whole, heading, last, rest in cases:
            lines = Lines()
            self.assertEqual(b''.join(map(lines.take, pieces)), whole)
            self.assertEqual((lines.bytes, lines.heading, lines.last, lines.rest), (len(whole), heading, last, rest))
            self.assertEqual(lines.has_end(), whole.endswith(b'e open\n'))


    def test_closed(self):
        for pieces, is_closed in (([b'fzc 2\nvars 1 cons 1\n', b'e closed\n'], True), ([b'fzc 2\nvars 1 cons 1\ns 1\ne clo', b'sed\n'], True),
                                  ([b'fzc 2\nvars 1 cons 1\ne open\n'], False), ([b'fzc 2\nvars 1 cons 1\ne closed'], False), ([], False)):
            lines = Lines()
            for piece in pieces:
                lines.take(piece)
            self.assertEqual(lines.is_closed(), is_closed)

    def test_solutions(self):
        cases = [(b'', []), (b's 1 2\n', [b's 1 2\n']), (b'fzc 2\nvars 2 cons 1\ni 1 lin ; s\nr ; 2\n', []),
                 (b'fzc 2\nvars 2 cons 1\ns 1 2\ns 3 4\nr ; 1\ns 5 6\ne closed\n', [b's 1 2\n', b's 3 4\n', b's 5 6\n'])]
        for text, wanted in cases:
            self.assertEqual(list(solutions_in(text)), wanted)


class FollowerTest(unittest.TestCase):
    """A file that grows."""

    def setUp(self):
        self.folder = tempfile.TemporaryDirectory()
        self.path = os.path.join(self.folder.name, 'model.fzc')

    def tearDown(self):
        self.folder.cleanup()

    def test_growing(self):
        sink, began = Sink(), threading.Event()
        follower = Follower(self.path, sink, began.set)
        follower.start()
        with open(self.path, 'wb', buffering=0) as file:
            for piece in (b'fzc 2\nva', b'rs 1 cons 1\n', b's 1\ns'):
                file.write(piece)
        follower.finish()
        self.assertEqual((sink.getvalue(), follower.lines.rest), (b'fzc 2\nvars 1 cons 1\ns 1\n', b's'))
        self.assertFalse(began.is_set())

    def test_heard(self):
        """Each solution is heard once its line is whole."""
        heard = []
        follower = Follower(self.path, Sink(), lambda: None, heard.append)
        follower.start()
        with open(self.path, 'wb', buffering=0) as file:
            for piece in (b'fzc 2\nvars 1 cons 1\ns', b' 1\nr ; 1\ns 2', b'\ns 3'):
                file.write(piece)
        follower.finish()
        self.assertEqual(heard, [b's 1\n', b's 2\n'])

    def test_shared(self):
        """The last bytes are seen by whoever opens the file anew."""
        sink = Sink()
        with open(self.path, 'wb') as file:
            file.write(b'fzc 2\nvars')
        follower = Follower(self.path, sink, lambda: None)
        follower.start()
        while follower.lines.bytes == 0:
            time.sleep(0.01)
        with open(self.path + '2', 'wb') as file:
            file.write(b'fzc 2\nvars 1 cons 1\ne open\n')
        os.replace(self.path + '2', self.path)
        follower.finish()
        self.assertEqual(sink.getvalue(), b'fzc 2\nvars 1 cons 1\ne open\n')

    def test_never_there(self):
        sink = Sink()
        follower = Follower(self.path, sink, lambda: None)
        follower.start()
        follower.finish()
        self.assertEqual((sink.getvalue(), follower.lines.heading), (b'', 0))

    def test_refused(self):
        refused = threading.Event()
        with open(self.path, 'wb') as file:
            file.write(b'fzc 2\n' * 9)
        follower = Follower(self.path, Sink(7), refused.set)
        follower.start()
        follower.finish()
        self.assertTrue(refused.is_set())
        self.assertIsInstance(follower.fault, BrokenPipeError)


if __name__ == '__main__':
    unittest.main()
