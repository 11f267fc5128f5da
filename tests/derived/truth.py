"""Whether what is derived is true: tried at each assignment within the declared sets that meets what is cited."""
import copy
import itertools

from certificates import is_true
from checker import Fault, Row, cited_by, items_of, value_of


class Truth:
    """What was tried of a model's certificates: how many items of rows, by their letters, and what is untrue."""

    def __init__(self, model):
        self.model, self.items, self.faults = model, dict.fromkeys('lpmtw', 0), []

    def meeting(self, head, numbers):
        """The assignments that meet these constraints, some of which may be derived."""
        own = [number for number in numbers if number <= head.own]
        later = [head.constraints[number - 1] for number in numbers if number > head.own]
        return [a for a in self.model.meeting(own) if all(holds(constraint, a) for constraint in later)]

    def look(self, certificate):
        """Looks at all that a certificate derives, and at its step where the rule `row` accepts it."""
        head = certificate.head
        for line, (constraint, cited) in zip(certificate.lines, certificate.derived):
            if not all(holds(constraint, a) for a in self.meeting(head, cited)):
                self.faults.append(f'{line}: not what follows')
        for line in certificate.lines[: len(certificate.derived) + 1]:
            if line.startswith('c row ; '):
                self.look_at_items(head, line)
        if certificate.verdict() == (0, 0):
            self.look_at_step(certificate)

    def look_at_items(self, head, line):
        """Item by item: the row follows from what is cited; and where what a variable weighs goes elsewhere, all weigh as much as before."""
        row, cited = Row(), []
        try:
            for letter, numbers in items_of(line.split(' ')[3:]):
                before = copy.deepcopy(row)
                head.add(row, letter, numbers)
                by = cited_by(letter, numbers)
                cited += by
                self.items[letter] += 1
                slacks = [row.slack(a) for a in self.meeting(head, cited)]
                if not all(slack is not None and slack >= 0 for slack in slacks):
                    self.faults.append(f'{line}: no row that follows behind {letter} {numbers}')
                if letter in 'mtw' and any(row.slack(a) != before.slack(a) for a in self.meeting(head, by)):
                    self.faults.append(f'{line}: other weights behind {letter} {numbers}')
        except Fault:
            pass

    def look_at_step(self, certificate):
        """The clause of the step is true where the derived row holds, and so at each solution."""
        row = certificate.head.constraints[-1]
        untrue = [a for a in itertools.product(*self.model.sets) if holds(row, a) and not is_true(certificate.clause, a)]
        if untrue or not all(is_true(certificate.clause, a) for a in self.model.solutions):
            self.faults.append(f'{certificate.step}: untrue')


def holds(constraint, values):
    """Whether values meet a derived constraint."""
    name, args = constraint
    if name == 'row':
        slack = args[0].slack(values)
        return slack is not None and slack >= 0
    if name == 'int_lin_le':
        return sum(k * values[var.number - 1] for k, var in zip(*args[:2])) <= args[2]
    there = [value_of(term, values) for term in args[0]]
    return sum(there) % 2 == 1 if name == 'array_bool_xor' else len(set(there)) == len(there)
