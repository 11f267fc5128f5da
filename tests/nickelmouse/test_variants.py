"""Variants: the words of further whole runs."""
import unittest

from nickelmouse.variants import optimising, satisfying, seed_in, without


class VariantsTest(unittest.TestCase):
    """Words in, words out."""

    def test_without(self):
        words = ['-a', '-f', '-r', '7', '--nodes', '5', '--learn', 'plain', '--hints', 'h']
        self.assertEqual(without(words, '-f', '-r', '--learn'), ['-a', '--nodes', '5', '--hints', 'h'])
        self.assertEqual((seed_in(words), seed_in(['-a'])), (7, 0))

    def test_satisfying(self):
        """The first has annotations where the plain one has none, and none where it has; no two are the same."""
        for words in ([], ['-f'], ['-a', '--nodes', '5', '-r', '3'], ['-f', '--learn', 'plain']):
            runs = satisfying(words)[:20]
            self.assertNotEqual('-f' in words, '-f' in runs[0])
            self.assertEqual([run.count('--derive') for run in runs], [1] + [0] * 19)
            self.assertEqual(len(set(map(tuple, runs))), 20)
            for run in runs:
                self.assertEqual(without(run, '-f', '-r', '--learn', '--derive'), without(words, '-f', '-r', '--learn'))

    def test_derives_already(self):
        self.assertEqual([run.count('--derive') for run in satisfying(['--derive'])[:9]], [1] * 9)

    def test_optimising(self):
        cases = [
            # words, whether there are annotations, several costs, the first runs
            (['-f'], True, True, [([], False), ([], True), (['-f', '-r', '1'], False)]),
            (['-a', '-r', '4'], True, True, [(['-a', '-f'], False), (['-a'], True), (['-a', '-f', '-r', '5'], False)]),
            (['-f'], False, True, [([], True), (['-f', '-r', '1'], False), (['-f', '-r', '2'], False)]),
            ([], True, False, [(['-f'], False), (['-f', '-r', '1'], False), (['-f', '-r', '2'], False)]),
        ]
        for words, is_annotated, has_costs, wanted in cases:
            self.assertEqual(optimising(words, is_annotated, has_costs)[:3], wanted)
            self.assertEqual(optimising(words, is_annotated, has_costs, True)[:3], [(without(words, '-f', '-r') + ['-f', '--derive'], False), *wanted[:2]])


if __name__ == '__main__':
    unittest.main()
