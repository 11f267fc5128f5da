"""Bounds that a compiled file states of integers without bounds."""
import os

from nickelmouse.certificates import shown_by
from nickelmouse.edits import unbounded
from nickelmouse.items import items_of_text, replaced
from nickelmouse.running import Refused, output_of

WIDEST = 1_000_000_000


class Stated:
    """Bounds that a file states of integers without bounds by `int_le`, each constraint about one of these alone.

    They are asked of the two programs. A file of these constraints alone is solved with the least values first, then with the greatest. That
    no value lies beyond those found is then a second question, whose answer is checked."""

    def __init__(self, programs, text, items, folder):
        self.programs, self.items = programs, items
        self.file, self.cert = os.path.join(folder, 'stated.fzn'), os.path.join(folder, 'stated.fzc')
        wanting = set(unbounded(items))
        numbers = {variable.number for variable in items.variables if variable.name in wanting}
        constraints = [one for one in items.stated() if one.name == 'int_le' and len(one.arguments) == 1 and one.arguments[0] in numbers]
        about = {one.arguments[0] for one in constraints}
        self.variables = [variable.name for variable in items.variables if variable.number in about]
        self.parameters = [span.of(text).decode('latin-1') for _, span in items.parameters if not any(
            mend.kind == 'sets' and span.has(mend.span.first) for mend in items.mends)]
        self.constraints = [one.span.of(text).decode('latin-1') for one in constraints]

    def bounds(self):
        """The bounds, by the names of the variables that have both."""
        if not self.variables:
            return {}
        try:
            least, greatest = self.first_found('indomain_min'), self.first_found('indomain_max')
        except Refused:
            return {}
        if least is None or greatest is None or not self.has_none_beyond(least, greatest):
            return {}
        return {name: f'{low}..{high}' for name, low, high in zip(self.variables, least, greatest)
                if -WIDEST < low <= high < WIDEST}

    def written(self, variables, constraints, goal):
        """Writes a file of the parameters, the variables and the constraints."""
        declared = [f'var -{WIDEST}..{WIDEST}: {name};' for name in self.variables]
        with open(self.file, 'w', encoding='latin-1') as file:
            file.write('\n'.join(self.parameters + declared + variables + self.constraints + constraints + [goal]) + '\n')

    def ended(self):
        """Solves the file, and has the certificate checked: the lines of the answer."""
        output_of([self.programs.solve, '--cert', self.cert, self.file])
        return output_of([self.programs.check, self.file, self.cert]).split(b'\n')

    def first_found(self, choice):
        """The values of the first solution, where each decision takes this value; or nothing, where there is no solution."""
        goal = f'solve :: int_search([{",".join(self.variables)}],input_order,{choice},complete) satisfy;'
        self.written([], [], goal)
        self.ended()
        return shown_by(self.cert).last

    def has_none_beyond(self, least, greatest):
        """Whether no variable can have a value below its least or above its greatest one."""
        stem = self.items.fresh('nickelmouse_beyond')
        while any(name.startswith(stem) for name in self.items.names()):
            stem += '_'
        sides, constraints = [], []
        for name, low, high in zip(self.variables, least, greatest):
            for bound, form in ((low - 1, f'int_le_reif({name},{low - 1},'), (high + 1, f'int_le_reif({high + 1},{name},')):
                if abs(bound) <= WIDEST:
                    sides.append(f'{stem}{len(sides)}')
                    constraints.append(f'constraint {form}{sides[-1]});')
        constraints.append(f'constraint bool_clause([{",".join(sides)}],[]);')
        self.written([f'var bool: {side};' for side in sides], constraints, 'solve satisfy;')
        return b'=====UNSATISFIABLE=====' in self.ended()


def with_stated_bounds(programs, text, folder, defined_alone):
    """The file, in which integers without bounds have those that it states of them: where `defined_alone`, only what stands for an expression."""
    items = items_of_text(programs.check, text)
    if items is None or not items.mends:
        return text
    defined = {variable.name for variable in items.variables if variable.defined}
    sets = Stated(programs, text, items, folder).bounds()
    taken = {name: declared for name, declared in sets.items() if name in defined or not defined_alone}
    return replaced(text, [(mend.span, taken[mend.name].encode()) for mend in items.mends if mend.kind == 'unbounded' and mend.name in taken])
