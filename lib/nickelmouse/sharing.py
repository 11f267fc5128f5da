"""The best solution that any worker of an optimisation has found, and the file of hints in which all of them read it.

Nothing of it has to be right: whoever reads a hint tests it, and what is printed as an answer fzncheck has accepted."""
import contextlib
import functools
import threading
from dataclasses import dataclass

# What fznsolve reads of a file of hints.
MOST_BYTES = 1 << 24


@dataclass(frozen=True)
class Solution:
    """A solution: its `s` line, and the value of the objective."""
    line: bytes
    value: int

    @functools.cached_property
    def values(self):
        """The values of all variables, in order."""
        return tuple(map(int, self.line.split()[1:]))


class Shared:
    """The best solution so far of a file whose objective is the variable of this number, to be minimized or maximized; `path` is the file of
    hints. Where it keeps `every` solution, `lines` has each that was better than all before it, else the best alone. `told` is called with the
    name of who has found one, and its value."""

    def __init__(self, objective, maximizes, path, every=False, told=None):
        self.objective, self.sign, self.path, self.every, self.told = objective, -1 if maximizes else 1, path, every, told
        self.lock, self.best, self.lines, self.bytes = threading.Lock(), None, [], 0

    def is_better(self, value, than):
        """Whether a value is better than that of a solution, or there is none."""
        return than is None or self.sign * value < self.sign * than.value

    def value_in(self, line):
        """The value of the objective in a solution's line."""
        return int(line.split(None, self.objective + 1)[self.objective])

    def offer(self, line, who=None):
        """Takes a solution that someone has found, if it is the best so far. Whether it is."""
        try:
            value = self.value_in(line)
        except (IndexError, ValueError):
            return False
        with self.lock:
            if not self.is_better(value, self.best):
                return False
            self.best = Solution(line, value)
            self.lines = [*self.lines, line] if self.every else [line]
            self.write(line)
        if self.told is not None:
            self.told(who, value)
        return True

    def write(self, line):
        """Writes a hint in one piece, where there is room for it. One that is cut short is no solution, and hurts nobody."""
        if self.bytes + len(line) > MOST_BYTES:
            return
        self.bytes += len(line)
        with contextlib.suppress(OSError), open(self.path, 'ab', buffering=0) as file:
            file.write(line)

    def certificate(self, counts, front=()):
        """A certificate that shows these solutions, and leaves open whether there is a better one. Where others are to stand in `front`, those
        that are better than these follow."""
        better = [line for line in self.lines if not front or self.sign * self.value_in(line) < self.sign * self.value_in(front[-1])]
        return b'fzc 2\nvars %d cons %d\n%se open\n' % (counts.variables, counts.constraints, b''.join([*front, *better]))
