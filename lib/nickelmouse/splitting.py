"""Where a cube that was left open is halved: at a bound of the variable that stands most often in its newest learned clauses."""
import collections
import itertools
import re

from nickelmouse.cubes import Literal

NEWEST = 200
LITERAL = re.compile(rb'(\d+)(<=|>=|==|!=)(-?\d+)')
# A literal tells apart the values up to one from those above it.
UP_TO = {b'<=': 0, b'>=': -1, b'==': 0, b'!=': 0}


class Opened:
    """What the certificate of an open cube tells: its learned clauses of one literal, and the newest of the others. `take` gets each `s`
    line."""

    def __init__(self, lines, take=lambda line: None):
        self.units, self.newest = [], collections.deque(maxlen=NEWEST)
        for line in lines:
            if line[-1:] != b'\n':
                break
            if line.startswith(b'r '):
                front = line[2:line.find(b' ;')]
                (self.newest if b' ' in front else self.units).append(front)
            elif line.startswith((b's ', b's\n')):
                take(line)

    def places(self):
        """For each variable of the newest clauses the values up to which their literals tell its values apart, most often named first."""
        found = collections.defaultdict(list)
        for (number, sign, value), times in collections.Counter(LITERAL.findall(b' '.join(self.newest))).items():
            found[int(number)] += [int(value) + UP_TO[sign]] * times
        return sorted(found.items(), key=lambda pair: (-len(pair[1]), pair[0]))


def ends_of(declared):
    """The least and the greatest value of a declared set; none, where it is empty."""
    if declared is None:
        return 0, 1
    if declared.startswith('{'):
        values = [int(value) for value in declared[1:-1].split(',') if value]
        return (min(values), max(values)) if values else (1, 0)
    least, greatest = declared.split('..')
    return int(least), int(greatest)


class Ends:
    """The least and the greatest value that each variable of a file still has, below literals that are known."""

    def __init__(self, variables, literals=()):
        self.variables, self.known = variables, {}
        for literal in literals:
            self.take(literal)

    def of(self, number):
        """Both of a variable."""
        if number not in self.known:
            self.known[number] = ends_of(self.variables[number - 1].declared)
        return self.known[number]

    def take(self, literal):
        """Takes a literal that holds."""
        least, greatest = self.of(literal.variable)
        if literal.sign == '<=':
            self.known[literal.variable] = least, min(greatest, literal.value)
        else:
            self.known[literal.variable] = max(least, literal.value), greatest

    def take_units(self, units):
        """Takes the bounds among clauses of one literal, as a certificate spells them."""
        for text in units:
            found = LITERAL.fullmatch(text)
            if found is not None and found[2] in (b'<=', b'>='):
                self.take(Literal(int(found[1]), found[2].decode(), int(found[3])))

    def halving(self, number, places=()):
        """The literal that halves the values of a variable, at the middle of some places or of all its values; nothing, where it has one
        value."""
        least, greatest = self.of(number)
        if least >= greatest:
            return None
        within = sorted(place for place in places if least <= place < greatest)
        return Literal(number, '<=', within[len(within) // 2] if within else (least + greatest) // 2)


def split_of(opened, ends, whole, has_many=True):
    """The literal that halves an open cube; nothing, where every variable has one value. Of a satisfaction of which many solutions are
    wanted, output variables come first, so that the halves have none in common; and an objective is halved last, since its better half is
    all that is wanted."""
    ends.take_units(opened.units)
    first = set(whole.outputs) if whole.goal == 'satisfy' and has_many else ()
    named = [(number, places) for number, places in opened.places() if number != whole.objective]
    others = [(number, ()) for number in range(1, whole.variables + 1) if number != whole.objective]
    last = [(whole.objective, ())] if whole.objective is not None else []
    outputs = [one for one in named if one[0] in first] + [(number, ()) for number in sorted(first)]
    for number, places in itertools.chain(outputs, named, others, last):
        found = ends.halving(number, places)
        if found is not None and found.fits() and found.negated().fits():
            return found
    return None
