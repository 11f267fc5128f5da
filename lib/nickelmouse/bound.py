"""How far an answer that is left open may be from the best: the line that `fzncheck --bound` prints behind an answer."""
import mmap
import re
from dataclasses import dataclass, replace

from nickelmouse.running import Broken, output_of

FORM = re.compile(rb'(?:no objective|no solution|(?:(\S+) = (-?\d+), )?(?:the best|(at least|at most) (-?\d+)))\n')
INTRODUCED = 'X_INTRODUCED_'
BOUND = '--bound'


def tells_bounds(check):
    """Whether a checker knows --bound."""
    return re.search(BOUND.encode() + rb'\b', output_of([check, '--help'])) is not None


@dataclass(frozen=True)
class Bound:
    """What is known of an objective whose best value is open: its name and its value in the last solution, or nothing of both where there is
    none; and the number that no solution is better than, `at least` or `at most`."""
    name: str
    value: int
    side: str
    number: int

    def apart(self):
        """How far both are apart: in percent of the value, rounded up to a tenth, and as a number where the value is 0."""
        apart = abs(self.value - self.number)
        if self.value == 0:
            return str(apart)
        tenths = -(-1000 * apart // abs(self.value))
        return f'{tenths // 10}.{tenths % 10} %'

    def line(self, name):
        """The line for a reader who knows the objective by this name."""
        known = f'{self.side} {self.number}'
        if self.value is None:
            return known
        return f'{name} = {self.value}, ' + ('the best' if self.value == self.number else f'{known} ({self.apart()} apart)')

    def statistic(self):
        """The line for MiniZinc."""
        return f'%%%mzn-stat: objectiveBound={self.number}\n'


def narrowed(bound, other):
    """A bound with the number of another one of the same objective, where that says more. Either may be unknown."""
    if bound is None or other is None or bound.side != other.side:
        return bound
    choose = max if bound.side == 'at least' else min
    return replace(bound, number=choose(bound.number, other.number))


def bound_in(line):
    """What a line of `fzncheck --bound` says; nothing, where nothing is open."""
    found = FORM.fullmatch(line)
    if found is None:
        raise Broken('fzncheck --bound says what it never says')
    name, value, side, number = found.groups()
    if side is None:
        return None
    return Bound(name and name.decode('latin-1'), value and int(value), side.decode(), int(number))


def without_last_line(text):
    """A text, and its last line."""
    place = text.rfind(b'\n', 0, max(0, len(text) - 1)) + 1
    return text[:place], text[place:]


def cut_from(path):
    """Cuts off the last line of a file, and gives what it says."""
    with open(path, 'r+b') as file:
        place, line = 0, b''
        if file.seek(0, 2):
            with mmap.mmap(file.fileno(), 0, access=mmap.ACCESS_READ) as text:
                place = text.rfind(b'\n', 0, len(text) - 1) + 1
                line = text[place:]
        file.truncate(place)
    return bound_in(line)


def name_in_the_model(name, table):
    """How a model names an objective, by MiniZinc's table of what comes from where. One that has no name there is called objective."""
    row = re.search(rb'^' + re.escape((name or '').encode('latin-1')) + rb'\t([^\t\n]+)', table, re.M)
    title = row[1].decode('utf-8', 'replace') if row else name
    return 'objective' if title is None or title.startswith(INTRODUCED) else title


def lines_of(bound, files):
    """The line that tells how good an answer can be, if it is open."""
    return [bound.line(name_in_the_model(bound.name, files.read('model.paths')))] if bound is not None else []
