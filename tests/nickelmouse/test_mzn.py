"""The words of nickelmouse-mzn."""
import unittest

from nickelmouse.mzn import Faulty, words_of


class WordsTest(unittest.TestCase):
    """Whom each word is for."""

    def test_words(self):
        words = words_of(['-a', '-n', '2', '-f', '--derive', '-r', '7', '--nodes', '50', '--learn', 'plain', '--progress', '--bounds', '0099', '--keep', 'there',
                          'model.mzn', 'data.dzn', '-D', 'n = 2', '-O3'])
        self.assertEqual(words.solving, ['-a', '-n', '2', '-f', '--derive', '-r', '7', '--nodes', '50', '--learn', 'plain', '--progress'])
        self.assertEqual(words.compiling, ['model.mzn', 'data.dzn', '-D', 'n = 2', '-O3'])
        self.assertEqual((words.bounds, words.keep, words.every, words.counted, words.explaining), (99, 'there', True, True, False))

    def test_faulty(self):
        for given in ([], ['-a'], ['m.mzn', '-n'], ['m.mzn', '--bounds', '0'], ['m.mzn', '--bounds', '1000000001'], ['m.mzn', '--bounds', 'x'],
                      ['m.mzn', '--nodes', 'many'], ['--why', '-a', 'm.mzn'], ['--why', '-n', '2', 'm.mzn'], ['--try-nodes', '5', 'm.mzn']):
            with self.assertRaises(Faulty):
                words_of(given)

    def test_why(self):
        words = words_of(['--why', '--nodes', '5', '--try-nodes', '7', '--bounds', '9', 'm.mzn'])
        self.assertEqual((words.explaining, words.nodes, words.try_nodes, words.beside), (True, 5, 7, []))


if __name__ == '__main__':
    unittest.main()
