"""Certificates: the last solution and the end."""
import unittest

from nickelmouse.certificates import Shown, shown_in


class CertificatesTest(unittest.TestCase):
    """What the lines of a certificate show."""

    def test_shown(self):
        cases = [
            # lines, what they show
            ([b'fzc 2\n', b'vars 2 cons 1\n', b's 3 -4\n', b'r 1>=4 ;\n', b's 2 0\n', b'r ;\n', b'e closed\n'], Shown(2, (2, 0), True)),
            ([b'fzc 2\n', b'vars 1 cons 1\n', b's 3\n', b'e open\n'], Shown(1, (3,), False)),
            ([b'fzc 2\n', b'vars 1 cons 1\n', b'r ;\n', b'e closed\n'], Shown(0, None, True)),
            ([b'fzc 2\n', b'vars 0 cons 0\n', b's\n', b'e open\n'], Shown(1, (), False)),
        ]
        for lines, wanted in cases:
            self.assertEqual(shown_in(lines), wanted)

    def test_values_by_number(self):
        self.assertEqual(shown_in([b's 3 -4\n', b'e open\n']).value(2), -4)
        self.assertIsNone(shown_in([b'e open\n']).value(2))


if __name__ == '__main__':
    unittest.main()
