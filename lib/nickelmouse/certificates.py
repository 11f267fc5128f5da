"""Certificates: the values of the solutions in one, and whether it is closed."""
from dataclasses import dataclass


@dataclass(frozen=True)
class Shown:
    """What a certificate shows once `fzncheck` has accepted it: how many solutions, the values of the last one, and whether there are others."""
    solutions: int
    last: tuple
    is_closed: bool

    def value(self, number):
        """The value of a variable in the last solution, or nothing where there is no solution."""
        return self.last[number - 1] if self.last is not None else None


def shown_in(lines):
    """What the lines of a certificate show: its `s` lines have the values of all variables in order, its last line the end."""
    solutions, last, end = 0, None, b''
    for line in lines:
        end = line
        if line.startswith(b's'):
            solutions, last = solutions + 1, line
    values = tuple(map(int, last.split()[1:])) if last is not None else None
    return Shown(solutions, values, end == b'e closed\n')


def shown_by(path):
    """What the certificate at a path shows."""
    with open(path, 'rb') as file:
        return shown_in(file)
