"""A FlatZinc file as the proved reader tells it: what `fzncheck --items` prints, taken apart.

Bytes are counted from 1 there, both ends included; a Span is what Python slices by."""
from dataclasses import dataclass, field

from nickelmouse.counts import printed_items, printed_items_of_text
from nickelmouse.running import Broken


@dataclass(frozen=True)
class Span:
    """Bytes of a file, from the first to behind the last."""
    first: int
    behind: int

    def of(self, text):
        """What stands there."""
        return text[self.first:self.behind]

    def has(self, place):
        """Whether a byte lies within."""
        return self.first <= place < self.behind


@dataclass(frozen=True)
class Variable:
    """A single variable; `declared` is its set as text, or nothing for a Boolean."""
    number: int
    name: str
    declared: str
    span: Span
    output: bool
    defined: bool


@dataclass(frozen=True)
class Array:
    """An array of variables: the numbers of those among its entries, how many entries it has, for each the number of its variable, or nothing
    for a constant, and whether it is printed; then for each entry its constant, or nothing for a variable, and the ranges of its
    `output_array`, as texts."""
    name: str
    span: Span
    variables: tuple
    length: int
    entries: tuple = ()
    output: bool = False
    constants: tuple = ()
    ranges: tuple = ()


@dataclass(frozen=True)
class Constraint:
    """A constraint: its number, its place, the bytes of the item that states it, and its arguments in order.

    An argument is the number of a variable, or the name of an array of variables; constants are left out."""
    number: int
    name: str
    line: int
    column: int
    span: Span
    defines: int
    arguments: tuple


@dataclass(frozen=True)
class Goal:
    """The goal: its word, the number of its variable or the value that it has as a constant, and the bytes of the solve item."""
    word: str
    variable: int
    constant: int
    span: Span


@dataclass(frozen=True)
class Mend:
    """A place that keeps a file from being solved, and that other bytes would mend: `unbounded`, `sets` or `constant`."""
    kind: str
    name: str
    span: Span


@dataclass
class Items:
    """All that a file states, each kind in the order of the file; `annotated` are the numbers of the variables in search annotations."""
    parameters: list = field(default_factory=list)
    variables: list = field(default_factory=list)
    arrays: dict = field(default_factory=dict)
    constraints: list = field(default_factory=list)
    annotated: list = field(default_factory=list)
    goal: Goal = None
    mends: list = field(default_factory=list)

    def variable(self, number):
        """The variable of a number."""
        return self.variables[number - 1]

    def declarations(self):
        """The bytes of all declarations of variables and of arrays of them."""
        return {item.span for item in self.variables} | {item.span for item in self.arrays.values()}

    def stated(self):
        """The constraints that are items of their own: not those that a declaration states."""
        declarations = self.declarations()
        return [constraint for constraint in self.constraints if constraint.span not in declarations]

    def equals(self):
        """By the number of each variable that its declaration says to equal another one: the number of that one."""
        found = {}
        spans = {variable.span: variable.number for variable in self.variables}
        for constraint in self.constraints:
            if constraint.span in spans and len(constraint.arguments) == 2:
                found[spans[constraint.span]] = constraint.arguments[1]
        return found

    def variables_of(self, arguments):
        """The numbers of the variables in some arguments, those of arrays too."""
        found = set()
        for argument in set(arguments):
            found.update([argument] if isinstance(argument, int) else self.arrays[argument].variables)
        return found

    def names(self):
        """All names that the file declares."""
        return {variable.name for variable in self.variables}.union(self.arrays, (name for name, _ in self.parameters))

    def fresh(self, name):
        """The name, or the first like it that the file does not declare."""
        names, number = self.names(), 1
        free = name
        while free in names:
            number += 1
            free = f'{name}_{number}'
        return free


def constant_in(word):
    """The number that a constant is, `true` and `false` as 1 and 0."""
    return {'true': 1, 'false': 0}[word] if word in ('true', 'false') else int(word)


def span_of(text):
    """The span that is written as A..B."""
    first, last = text.split('..')
    return Span(int(first) - 1, int(last))


class Parser:
    """Takes apart the lines of `fzncheck --items`, in their order."""

    def __init__(self):
        self.items = Items()

    def line(self, line):
        """Takes one line. Says whether it was the last one, with the counts of the others."""
        front, _, behind = line.partition(' :')
        words = front.split(' ')
        take = {'parameter': self.parameter, 'var': self.var, 'array': self.array, 'constraint': self.constraint, 'search': self.search,
                'goal': self.goal, 'unbounded': self.mend, 'sets': self.mend, 'constant': self.mend, 'end': self.end}[words[0]]
        return bool(take(words, behind.split()))

    def parameter(self, words, _):
        self.items.parameters.append((words[1], span_of(words[3])))

    def var(self, words, _):
        number, name, kind = int(words[1]), words[2], words[3]
        declared = words[4] if kind == 'int' else None
        at = words.index('bytes', 4)
        marks = words[at + 2:]
        self.items.variables.append(Variable(number, name, declared, span_of(words[at + 1]), 'output' in marks, 'defined' in marks))

    def array(self, words, written):
        entries = tuple(None if entry.startswith('=') else int(entry) for entry in written)
        constants = tuple(constant_in(entry[1:]) if entry.startswith('=') else None for entry in written)
        variables = tuple(entry for entry in entries if entry is not None)
        self.items.arrays[words[1]] = Array(words[1], span_of(words[3]), variables, len(entries), entries, words[4:5] == ['output'], constants,
                                            tuple(words[5:]))

    def constraint(self, words, arguments):
        defines = int(words[10]) if words[9:10] == ['defines'] else None
        arguments = tuple(int(argument) if argument.isdigit() else argument for argument in arguments)
        self.items.constraints.append(Constraint(int(words[1]), words[2], int(words[4]), int(words[6]), span_of(words[8]), defines,
                                                 arguments))

    def search(self, _, variables):
        self.items.annotated += map(int, variables)

    def goal(self, words, _):
        span = span_of(words[words.index('bytes') + 1])
        if words[1] == 'satisfy':
            self.items.goal = Goal('satisfy', None, None, span)
        elif words[2] == 'constant':
            self.items.goal = Goal(words[1], None, int(words[3]), span)
        else:
            self.items.goal = Goal(words[1], int(words[2]), None, span)

    def mend(self, words, _):
        self.items.mends.append(Mend(words[0], words[1], span_of(words[3])))

    def end(self, words, _):
        """Whether the counts are those of the lines."""
        counts = [len(self.items.parameters), len(self.items.variables), len(self.items.arrays), len(self.items.constraints),
                  len(self.items.mends)]
        return words[1:] == [word for pair in zip(('parameters', 'variables', 'arrays', 'constraints', 'mended'), map(str, counts))
                             for word in pair]


def parsed(printed):
    """The items that a text of `fzncheck --items` tells."""
    parser = Parser()
    lines = printed.splitlines()
    try:
        ended = [parser.line(line) for line in lines]
    except (AttributeError, IndexError, KeyError, ValueError) as wrong:
        raise Broken('fzncheck --items says what it never says') from wrong
    if not ended or not ended[-1] or any(ended[:-1]) or parser.items.goal is None:
        raise Broken('fzncheck --items does not come to its end')
    return parser.items


def items_of(check, path):
    """What a file states. Refused, where it has a fault that cannot be mended."""
    return parsed(printed_items(check, path))


def items_of_text(check, text):
    """What a text states, or nothing where it has a fault that cannot be mended."""
    printed = printed_items_of_text(check, text)
    return parsed(printed) if printed is not None else None


def blanked(text, spans):
    """The text with blanks for what stands at some of its spans; each line feed stays, so every other place does."""
    pieces, last = [], 0
    for span in sorted(spans, key=lambda span: span.first):
        pieces += [text[last:span.first], b'\n'.join(b' ' * len(line) for line in span.of(text).split(b'\n'))]
        last = span.behind
    return b''.join(pieces) + text[last:]


def replaced(text, edits):
    """The text with other bytes for what stands at some spans. The edits are pairs of a span and its bytes; a span may be empty."""
    pieces, last = [], 0
    for span, new in sorted(edits, key=lambda edit: (edit[0].first, edit[0].behind)):
        pieces += [text[last:span.first], new]
        last = span.behind
    return b''.join(pieces) + text[last:]
