"""Certificates of cubes, joined into one of the whole file, line by line.

A cube's file has items behind the last constraint of the whole one: first the bounds of the cube, then literals that steps of the joined
certificate give. What its certificate infers from a bound falls away; a learned clause that rests on it gets its negation. What it infers
from such a literal becomes the step that gives it. All other steps stay, under other numbers. Nothing here has to be right: `fzncheck` has
the last word over what is joined."""
import operator
import re
from dataclasses import dataclass

from nickelmouse.cubes import Closing, Literal, negations

HEADING = re.compile(rb'vars (\d+) cons (\d+)\n')
UNIT = re.compile(rb'r (\d+)(<=|>=)(-?\d+)')
# How many steps one line deletes at most, so that it stays within the length of a line.
DELETED = 100_000


class Spoilt(Exception):
    """A certificate of a cube that is none."""


@dataclass(frozen=True)
class Whole:
    """What of the whole file a join has to know: how many variables, constraints and constraint items it has, the word of its goal and the
    number of its objective, and its output variables."""
    variables: int
    constraints: int
    stated: int
    goal: str
    objective: int
    outputs: tuple

    def is_better(self, value, than):
        """Whether a value of the objective is better than another one."""
        return value < than if self.goal == 'minimize' else value > than

    def better(self, value):
        """The literal that the objective is better than a value."""
        return Literal(self.objective, '<=', value - 1) if self.goal == 'minimize' else Literal(self.objective, '>=', value + 1)


def whole_of(items):
    """What of a file a join has to know."""
    entries = {entry for array in items.arrays.values() if array.output for entry in array.variables}
    outputs = tuple(sorted(entries.union(variable.number for variable in items.variables if variable.output)))
    return Whole(len(items.variables), len(items.constraints), len(items.stated()), items.goal.word, items.goal.variable, outputs)


@dataclass(frozen=True)
class Added:
    """The items that a cube's file has behind the last constraint: the bounds of the cube, and literals with the steps that give them."""
    bounds: tuple = ()
    given: tuple = ()

    def meanings(self):
        """For each item in order: the step that it becomes, or 0 for a bound, and the mask of the bounds that it rests on."""
        return [(0, 1 << place) for place in range(len(self.bounds))] + [(step, 0) for _, step in self.given]

    def items(self, variables):
        """The text of the items."""
        literals = (*self.bounds, *(literal for literal, _ in self.given))
        return ''.join(literal.item(variables[literal.variable - 1]) for literal in literals)


class Joined:
    """The joined certificate, as it is written: `sink` takes its lines. Of a satisfaction at most so many solutions are wanted."""

    def __init__(self, sink, whole, wanted=None):
        self.sink, self.whole, self.wanted = sink, whole, wanted
        self.last, self.solutions, self.best, self.seen, self.given, self.is_stopped = 0, 0, None, {}, {}, False
        self.key = operator.itemgetter(*whole.outputs) if whole.outputs else None
        self.put(b'fzc 2\nvars %d cons %d\n' % (whole.variables, whole.constraints))

    def put(self, text):
        """Writes bytes that are no step."""
        self.sink.write(text)

    def flush(self):
        """Has all that was written be seen."""
        self.sink.flush()

    def step(self, line):
        """Writes a step, and gives its number."""
        self.sink.write(line)
        self.last += 1
        return self.last

    def derived(self, literals, steps):
        """Writes the step of a clause that follows from others, and gives its number."""
        return self.step(b'r' + literals + b' ;' + b' %d' * len(steps) % tuple(steps) + b'\n')

    def delete(self, steps):
        """Deletes clauses."""
        steps = sorted(steps)
        for first in range(0, len(steps), DELETED):
            some = tuple(steps[first:first + DELETED])
            self.step(b'd' + b' %d' * len(some) % some + b'\n')

    def end(self, is_closed):
        """Writes the last line."""
        self.put(b'e closed\n' if is_closed else b'e open\n')

    def has_enough(self):
        """Whether no more solutions are wanted."""
        return self.wanted is not None and self.whole.goal == 'satisfy' and self.solutions >= self.wanted

    def found(self, line):
        """Takes the `s` line of a solution, if more are wanted."""
        try:
            if not self.has_enough():
                self.solution(line)
        except (IndexError, ValueError) as fault:
            raise Spoilt('a solution that is none') from fault

    def solution(self, line):
        """Takes the `s` line of a solution, and gives the step whose clause is at least as strong as its cut: that of the solution, or that
        of one before it, which is as good or has the same output."""
        values = line.split()
        if len(values) != self.whole.variables + 1:
            raise Spoilt('a solution of another length')
        if self.whole.goal != 'satisfy':
            value = int(values[self.whole.objective])
            if self.best is None or self.whole.is_better(value, self.best[0]):
                self.solutions += 1
                self.best = value, self.step(line)
            return self.best[1]
        key = self.key(values) if self.key is not None else ()
        if key not in self.seen:
            self.solutions += 1
            self.seen[key] = self.step(line)
        return self.seen[key]

    def bound(self):
        """The literal that the objective is better than the best value so far, and the step that gives it; nothing before a solution, or
        where no file can state it."""
        if self.best is None or not self.whole.better(self.best[0]).fits():
            return ()
        return ((self.whole.better(self.best[0]), self.best[1]),)

    def heading(self, lines, added):
        """Reads the first two lines of a cube's certificate."""
        first, found = next(lines, b''), HEADING.fullmatch(next(lines, b''))
        wanted = self.whole.variables, self.whole.constraints + len(added.bounds) + len(added.given)
        if first not in (b'fzc 2\n', b'fzc 1\n') or found is None or tuple(map(int, found.groups())) != wanted:
            raise Spoilt('not the certificate of this cube')

    def join(self, lines, added):
        """Joins the certificate of a cube, and gives what closes the cube; nothing where it is open, or where the join was stopped. A
        certificate that breaks off is Spoilt."""
        lines = iter(lines)
        self.heading(lines, added)
        joining = Joining(self, added)
        try:
            closing = joining.all_of(lines)
        except (IndexError, KeyError, ValueError) as fault:
            raise Spoilt('a step that is none') from fault
        self.delete(joining.rest(closing))
        return closing


class Joining:
    """The join of one cube: the numbers of its steps that are not deleted, in the joined certificate, and the masks of the bounds that they
    rest on, by their own numbers."""

    def __init__(self, joined, added):
        self.joined, self.added, self.meanings = joined, added, added.meanings()
        self.steps, self.masks, self.texts, self.kept = {}, {}, {0: b''}, set()
        self.first, self.stated, self.number = joined.last, joined.whole.stated, 0

    def all_of(self, lines):
        """Takes all lines, up to one that closes the cube. Gives what closes it."""
        takes = {105: self.inferred, 114: self.learned, 115: self.found, 100: self.deleted}
        for line in lines:
            if line[:1] == b'e':
                if line != b'e open\n':
                    raise Spoilt('closed without an empty clause')
                return None
            if not line.endswith(b'\n'):
                raise Spoilt('a line without an end')
            self.number += 1
            closing = takes[line[0]](line)
            if closing is not None:
                return closing
            if self.joined.is_stopped or self.joined.has_enough():
                return None
        raise Spoilt('no end')

    def text(self, mask):
        """The negations of the bounds of a mask."""
        if mask not in self.texts:
            self.texts[mask] = negations(self.added.bounds, mask)
        return self.texts[mask]

    def inferred(self, line):
        """Takes an `i` step."""
        place = line.index(b' ', 2)
        constraint = int(line[2:place]) - self.stated
        is_empty = line.endswith(b' ;\n')
        if 0 < constraint <= len(self.meanings):
            step, mask = self.meanings[constraint - 1]
            self.steps[self.number] = step
            if mask:
                self.masks[self.number] = mask
            return Closing(self.joined.derived(self.text(mask), [step] if step else []), mask) if is_empty else None
        if constraint > 0:
            line = b'i %d' % (self.stated + constraint - len(self.meanings)) + line[place:]
        step = self.steps[self.number] = self.joined.step(line)
        return Closing(step, 0) if is_empty else None

    def learned(self, line):
        """Takes an `r` step."""
        front, sign, back = line.partition(b' ;')
        if not sign:
            raise Spoilt('a clause without an end')
        mask, masks, cited = 0, self.masks, list(map(int, back.split()))
        steps = [self.steps[step] for step in cited]
        for step in cited:
            if step in masks:
                mask |= masks[step]
        if mask:
            self.masks[self.number] = mask
            steps = list(filter(None, steps))
        step = self.steps[self.number] = self.joined.derived(front[1:] + self.text(mask), steps)
        if front == b'r':
            return Closing(step, mask)
        if mask == 0:
            self.note(front, step)
        return None

    def note(self, front, step):
        """Takes note of a clause of one literal that holds in the whole file, if this is one and the strongest so far of its kind."""
        found = UNIT.fullmatch(front)
        if found is None:
            return
        literal = Literal(int(found[1]), found[2].decode(), int(found[3]))
        former = self.joined.given.get((literal.variable, literal.sign))
        if former is None or (literal.value < former[0].value if literal.sign == '<=' else literal.value > former[0].value):
            self.joined.given[literal.variable, literal.sign] = literal, step
            self.kept.add(step)

    def found(self, line):
        """Takes an `s` step. The cut of a satisfaction without output variables is the empty clause."""
        step = self.steps[self.number] = self.joined.solution(line)
        self.kept.add(step)
        return Closing(step, 0) if self.joined.whole.goal == 'satisfy' and not self.joined.whole.outputs else None

    def deleted(self, line):
        """Takes a `d` step."""
        steps = []
        for number in map(int, line.split()[1:]):
            steps.append(self.steps.pop(number))
            self.masks.pop(number, None)
        self.joined.delete(filter(self.is_own, steps))

    def is_own(self, step):
        """Whether a step is of this cube alone, so that it goes with it."""
        return step > self.first and step not in self.kept

    def rest(self, closing):
        """The steps that were not deleted, and that nothing will cite any more."""
        return [step for step in self.steps.values() if self.is_own(step) and (closing is None or step != closing.step)]
