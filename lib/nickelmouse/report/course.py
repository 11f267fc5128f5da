"""How far a search had come at which time: the values of the objective that it found, and the bounds that no solution is better than.

Both are lists of pairs, seconds and a number. `found` and `bounded` take such pairs from whoever has them, in any order, so that several
workers may tell of one search; `course_in` takes them from a certificate, of which each line was accepted."""
import mmap
import re
from dataclasses import dataclass, field

NUMBER = re.compile(rb'-?\d+')


@dataclass
class Course:
    """The course of one optimisation: whether less is better, the end of the objective's declared set that nothing is better than, what was
    found and what was bounded, at which seconds, and when it ended."""
    is_minimized: bool
    declared: int = None
    values: list = field(default_factory=list)
    bounds: list = field(default_factory=list)
    seconds: float = 0.0

    def found(self, seconds, value):
        """A solution with this value of the objective was found."""
        self.values.append((seconds, value))

    def bounded(self, seconds, value):
        """No solution was better than this value from then on."""
        self.bounds.append((seconds, value))

    def better(self, one, other):
        """Whether a value is better than another one."""
        return one < other if self.is_minimized else one > other

    def best(self):
        """The values in the order of their times, each better than those before."""
        return strict(self.values, self.better)

    def proved(self):
        """The bounds in the order of their times, each stronger than those before: no bound is better than the best value of its time,
        since beyond that it holds of better solutions alone."""
        best, steps, pairs = None, self.best(), []
        merged = sorted([(seconds, 1, value) for seconds, value in self.bounds] + [(seconds, 0, value) for seconds, value in steps])
        strongest = self.declared
        if strongest is not None:
            pairs.append((0.0, strongest))
        for seconds, is_bound, value in merged:
            if is_bound:
                strongest = value if strongest is None or self.better(strongest, value) else strongest
            else:
                best = value
            if strongest is not None:
                pairs.append((seconds, best if best is not None and self.better(best, strongest) else strongest))
        return strict(pairs, lambda one, other: self.better(other, one))


def strict(pairs, before):
    """The pairs in the order of their times, without those whose number does not go before all earlier ones."""
    kept = []
    for seconds, value in sorted(pairs):
        if kept and not before(value, kept[-1][1]):
            continue
        if kept and kept[-1][0] == seconds:
            kept.pop()
        kept.append((seconds, value))
    return kept


def thinned(pairs, most):
    """At most so many of the pairs, the first and the last among them: of those within one part of the time the last."""
    if len(pairs) <= most:
        return list(pairs)
    begin, end = pairs[0][0], pairs[-1][0]
    parts = {}
    for seconds, value in pairs[1:-1]:
        parts[int((most - 2) * (seconds - begin) / (end - begin or 1))] = seconds, value
    return [pairs[0], *[parts[part] for part in sorted(parts)][:most - 2], pairs[-1]]


def line_at(text, place):
    """The bytes of the line that a place lies in, and where it begins."""
    begin = text.rfind(b'\n', 0, place) + 1
    end = text.find(b'\n', place)
    return text[begin:len(text) if end < 0 else end], begin


def places_of(text, wanted):
    """The places at which some bytes stand."""
    place = text.find(wanted)
    while place >= 0:
        yield place
        place = text.find(wanted, place + 1)


def value_in(line, number):
    """The value of a variable in an `s` line."""
    place = 1
    for _ in range(number - 1):
        place = line.index(b' ', place + 1)
    return int(NUMBER.match(line, place + 1)[0])


def bounds_in(text, goal, is_minimized):
    """The places and the values of the clauses with one literal that bound the objective."""
    for sign in (b'>=' if is_minimized else b'<=', b'=='):
        literal = b'%d%s' % (goal, sign)
        for place in places_of(text, b' ' + literal):
            line, begin = line_at(text, place)
            clause = line.partition(b' ; ' if line[:1] == b'i' else b' ;')[2 if line[:1] == b'i' else 0]
            clause = clause[2:] if line[:2] == b'r ' else clause
            number = NUMBER.fullmatch(clause, len(literal)) if clause.startswith(literal) and line[:1] in (b'i', b'r') else None
            if number is not None:
                yield begin + len(line) + 1, int(number[0])


def solutions_in(text):
    """The places behind the `s` lines, and these lines."""
    for place in places_of(text, b'\ns'):
        line, begin = line_at(text, place + 1)
        yield begin + len(line) + 1, line


def hinted_in(path, goal, when):
    """The values of the objective in a file of hints, which are `s` lines alone, with their seconds."""
    with open(path, 'rb') as file:
        place = 0
        for line in file:
            place += len(line)
            if line.startswith(b's ') and line.endswith(b'\n'):
                yield when(place), value_in(line, goal)


def course_in(path, goal, is_minimized, when):
    """The course that a certificate shows of the objective, a variable by its number. `when` tells at which second so many bytes stood
    there."""
    course = Course(is_minimized)
    with open(path, 'rb') as file, mmap.mmap(file.fileno(), 0, access=mmap.ACCESS_READ) as text:
        for place, line in solutions_in(text):
            course.found(when(place), value_in(line, goal))
        for place, value in bounds_in(text, goal, is_minimized):
            course.bounded(when(place), value)
    return course


def solutions_of(path):
    """How many solutions a certificate shows, and the values of all variables in the last one, in order, or nothing."""
    with open(path, 'rb') as file, mmap.mmap(file.fileno(), 0, access=mmap.ACCESS_READ) as text:
        place = text.rfind(b'\ns')
        count = sum(1 for _ in places_of(text, b'\ns'))
        return count, tuple(map(int, line_at(text, place + 1)[0].split()[1:])) if place >= 0 else None
