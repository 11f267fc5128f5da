"""Where in a MiniZinc model a fault of its compiled file comes from, and what helps."""
import re

from nickelmouse.items import items_of_text
from nickelmouse.places import conjunct_of, table_of
from nickelmouse.running import fault_in

ADVICE = {
    5: 'floats are left out: count in whole units, as cents or grams',
    7: 'a variable without bounds: declare some, or give it -N..N with --bounds N',
    8: 'take larger units or tighter bounds',
    16: 'more than 100000 variables, constraints or entries of one array: a smaller model, or tighter bounds',
    18: 'more than 16777216 bytes: a smaller model, or running totals in the place of long sums',
}
# What turns the front of a declaration, up to a fault in its type, into a whole one, for the reader to number it.
CONTINUED = (b'bool: %s;', b'1: %s;')
LARGEST = 1_000_000_000
# The declaration of a parameter, or of an array, which may have constants among its entries.
DECLARED = re.compile(rb'(?:array \[[^\]]*\] of (?:var )?)?(?:set of )?int: (\w+)\b')


class Origins:
    """A compiled file, and the table of what comes from where in the model.

    MiniZinc writes one item a line, the constraints behind the declarations, and its table has the variables and the constraints in their
    order: so the number of a constraint follows from its line. The number of a variable is asked of the reader."""

    def __init__(self, check, text, table):
        self.check, self.text = check, text
        self.lines = text.split(b'\n')
        self.paths, _ = table_of(table)
        self.variables = [key for key in self.paths if not key.isdigit()]

    def constraint_at(self, line):
        """The key of the constraint on a line, or nothing."""
        number = line - (len(self.lines) - 1 - (len(self.paths) - len(self.variables)))
        return str(number) if number >= 0 else None

    def unbounded_at(self, fault):
        """The name of the integer without bounds that a fault is about, or nothing."""
        place = sum(len(line) + 1 for line in self.lines[:fault.line - 1]) + fault.column - 1
        items = items_of_text(self.check, self.text)
        return next((mend.name for mend in items.mends if mend.kind == 'unbounded' and mend.span.has(place)), None) if items else None

    def variable_at(self, fault):
        """The name of the variable whose declaration has a fault in its type, or nothing."""
        front = b'\n'.join(self.lines[:fault.line - 1] + [self.lines[fault.line - 1][:fault.column - 1]])
        for continued in CONTINUED:
            items = items_of_text(self.check, front + continued % b'nickelmouse_here' + b'solve satisfy;')
            before = [variable.name for variable in items.variables[:-1]] if items is not None and items.variables else None
            if before is not None and before == self.variables[:len(before)] and len(before) < len(self.variables):
                return self.variables[len(before)]
        return None

    def user_of(self, line):
        """The key of the first constraint that names the parameter or the array declared on a line, or nothing."""
        declared = DECLARED.match(self.lines[line - 1])
        if declared is None:
            return None
        named = re.compile(rb'\b%s\b' % declared[1])
        users = (number for number, text in enumerate(self.lines, 1) if text.startswith(b'constraint ') and named.search(text))
        return self.constraint_at(next(users, 0))

    def of(self, fault):
        """Where the item with a fault comes from, as text; empty, where that is not known."""
        key = self.unbounded_at(fault) or self.constraint_at(fault.line) or self.user_of(fault.line) or self.variable_at(fault)
        steps = self.paths.get(key)
        if not steps:
            return ''
        step = conjunct_of(steps)[0] if key.isdigit() else steps[0]
        return f', from {step.file} line {step.begin[0]}'

    def number_at(self, fault):
        """What is to be said of the number at a fault: that it is too large."""
        number = re.match(rb'-?\w*', self.lines[fault.line - 1][fault.column - 1:])[0].decode()
        return f'{number} is less than -{LARGEST}' if number.startswith('-') else f'{number} is more than {LARGEST}'


def explained(check, said, text, table):
    """What is to be told of a refusal beside what the solver said of it: one line, or nothing."""
    fault = fault_in(said)
    if fault is None:
        return None
    advice = ADVICE.get(fault.number)
    if fault.number == 18:
        return f'the compiled file has {advice}'
    origins = Origins(check, text, table)
    if fault.number == 8:
        advice = f'{origins.number_at(fault)}: {advice}'
    line = origins.lines[fault.line - 1].decode('latin-1')[:100]
    return f"line {fault.line} of the compiled file is '{line}'{origins.of(fault)}" + (f': {advice}' if advice else '')
