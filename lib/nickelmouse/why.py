"""Why there is no solution, or none better: the constraints that clash.

    ./why [--nodes N] [--try-nodes N] [--paths TABLE] [--solve PATH] [--check PATH] MODEL

solves MODEL, a FlatZinc file, with at most N decisions (10,000,000), has the certificate checked and asks `fzncheck --core` on which constraints
the answer rests. These alone are solved again, and so on, until there are no fewer. Then one constraint after the other is left out, with at
most N decisions a try (100,000): where the answer stays the same, it stays out. What is printed is a list of constraints from which the answer
follows, and this is checked: each with its number, its place and its text in MODEL. Declared sets count as given, and so do constraints that a
declaration states. The last line counts, and says `minimal` where for each constraint an answer without it was found and checked that is
another one: else how many were not decided. Status 1 where the answer to MODEL is open, or has solutions and nothing to be improved.

With TABLE, where MiniZinc has written from where in its model each constraint comes (`--output-paths-to-file`), those of one place and of the
same indices of its loops are left out and kept together. What is printed is each place with its text in the model, below it the indices, and
behind them the declarations of the variables in the constraints that are left, with their sets in MODEL. A constraint that only defines a
part of an expression for others is kept as long as one of these is, and so is the objective's definition in the solve item."""
import os
import re
from dataclasses import dataclass

from nickelmouse.certificates import shown_by
from nickelmouse.items import blanked, items_of
from nickelmouse.places import Source, Step, conjunct_of, place_text, table_of
from nickelmouse.proved import UNPROVED, is_proved
from nickelmouse.running import Broken, output_of

LISTED = re.compile(rb'(\d+) line (\d+) column (\d+): ')


@dataclass(eq=False)
class Part:
    """What is left out and kept as a whole: constraints, by their numbers, how it is printed, and where it stands in a model, if that is
    known."""
    constraints: list
    heading: str
    indices: str = ''
    step: Step = None


class Model:
    """A file as the proved reader tells it, and the parts in which its constraints are left out."""

    def __init__(self, text, items):
        self.text, self.items = text, items
        self.goal = items.goal.variable
        stated = {constraint.number for constraint in items.stated()}
        self.constraints = {one.number: one for one in items.constraints if one.number in stated}
        self.others = [one for one in items.constraints if one.number not in stated]
        self.parts = [Part([number], f'{number} line {one.line} column {one.column}: {self.text_of(number)}')
                      for number, one in self.constraints.items()]

    @property
    def direction(self):
        """Whether the goal is to `satisfy`, `minimize` or `maximize`."""
        return self.items.goal.word

    def text_of(self, number):
        """The item of a constraint, as it stands in the file."""
        return self.constraints[number].span.of(self.text).decode('latin-1')

    def needed_by(self, parts):
        """The constraints of the parts, by their numbers."""
        return {number for part in parts for number in part.constraints}

    def only(self, parts):
        """The text without the constraints that the parts do not need, each other byte where it was."""
        needed = self.needed_by(parts)
        return blanked(self.text, [one.span for number, one in self.constraints.items() if number not in needed])

    def numbered(self, parts):
        """The constraints of the text that is left with these parts, in the order of their numbers there."""
        needed = self.needed_by(parts)
        return [one for number, one in self.constraints.items() if number in needed] + self.others

    def parts_of(self, cited, among):
        """Which of the parts have one of the constraints that are cited."""
        return [part for part in among if cited.intersection(part.constraints)]

    def objective(self):
        """How the objective is called."""
        return self.items.variable(self.goal).name

    def shown(self, parts):
        """The lines that tell of the parts."""
        return [part.heading for part in parts]


class Compiled(Model):
    """A file that MiniZinc has compiled, whose parts are places in the model."""

    def __init__(self, text, items, table):
        super().__init__(text, items)
        self.source, self.equals, self.aliases = Source(), items.equals(), {}
        for number, other in self.equals.items():
            self.aliases.setdefault(other, []).append(number)
        self.paths, self.titles = table_of(table)
        self.every = self.grouped()
        self.part_of = {number: part for part in self.every for number in part.constraints}
        self.definitions = self.found_definitions()
        for numbers in self.definitions.values():
            for number in numbers:
                self.part_of[number].constraints.remove(number)
        self.list_parts()

    def list_parts(self):
        """Tells the parts that have constraints, those of the solve item's objective aside."""
        self.given = [part for part in self.every if not part.heading]
        self.parts = [part for part in self.every if part.heading and part.constraints]

    def grouped(self):
        """The parts, each with all constraints of its place and indices, in the order of the model."""
        parts = {}
        for number in self.constraints:
            steps = self.paths.get(str(number - 1)) or [Step(self.text_of(number), (0, 0), (0, 0), '')]
            step, indices = conjunct_of(steps)
            key = step.file, step.begin, step.end, tuple((name, value) for _, name, value in indices)
            if key not in parts:
                parts[key] = self.part(steps[0], step, indices)
            parts[key].constraints.append(number)
        return [parts[key] for key in sorted(parts, key=lambda key: key[:3])]

    def part(self, first, step, indices):
        """A part without constraints; without a heading, where it is the objective of the solve item."""
        if first.kind == 'id|_objective':
            return Part([], '')
        heading = f'{place_text(step)}: {self.source.text(step)}' if step.kind else f'of the compiler: {step.file}'
        return Part([], heading, ', '.join(f'{name} = {self.source.value(at, value)}' for at, name, value in indices), step if step.kind else None)

    def is_introduced(self, number):
        """Whether a variable stands for a part of an expression, and for nothing that the model names."""
        name = self.items.variable(number).name
        return name.startswith('X_INTRODUCED_') and self.titles.get(name, name) == name and number not in self.aliases

    def defined_by(self, constraint):
        """The number of the variable that a constraint defines for others, or nothing."""
        number = constraint.defines or self.result_of(constraint)
        return number if number is not None and self.is_introduced(number) else None

    def result_of(self, constraint):
        """The variable of the last argument of a `_reif` form or of `bool2int`, or nothing where that may be a constant."""
        number = constraint.arguments[-1] if constraint.arguments else None
        if not isinstance(number, int):
            return None
        is_boolean = self.items.variable(number).declared is None
        if constraint.name == 'bool2int':
            return None if is_boolean else number
        if not constraint.name.endswith('_reif') or not is_boolean:
            return None
        return number if not constraint.name.startswith('bool_') or len(constraint.arguments) == 3 else None

    def users(self):
        """By part and argument, up to two of the part's constraints that have it."""
        found = {}
        for number, part in self.part_of.items():
            for argument in set(self.constraints[number].arguments):
                having = found.setdefault((part, argument), set())
                if len(having) < 2:
                    having.add(number)
        return found

    def found_definitions(self):
        """The constraints that define a variable for others of their part, or the objective: by the variable."""
        users, holders, definitions = self.users(), {}, {}
        for array in self.items.arrays.values():
            for number in set(array.variables):
                holders.setdefault(number, []).append(array.name)
        for number, part in self.part_of.items():
            defined = self.defined_by(self.constraints[number])
            if defined is None:
                continue
            having = {user for argument in [defined] + holders.get(defined, []) for user in users.get((part, argument), ())}
            if defined == self.goal or having - {number}:
                definitions.setdefault(defined, []).append(number)
        return definitions

    def mentioned(self, numbers):
        """The variables that some constraints mention."""
        return self.items.variables_of(argument for number in numbers for argument in self.constraints[number].arguments)

    def needed_by(self, parts):
        """The constraints of the parts, and those that define what is mentioned in them or in the objective."""
        needed = super().needed_by(parts + self.given)
        variables, seen = self.mentioned(needed) | ({self.goal} - {None}), set()
        while variables:
            variable = variables.pop()
            seen.add(variable)
            for number in self.definitions.get(variable, []):
                needed.add(number)
                variables |= self.mentioned([number]) - seen
            variables |= {self.equals.get(variable, variable)} - seen
        return needed

    def parts_of(self, cited, among):
        """Which of the parts have one of the constraints that are cited. A definition that none of these needs joins its own part."""
        parts = super().parts_of(cited, among)
        stray = cited - self.needed_by(parts)
        for numbers in self.definitions.values():
            for number in stray.intersection(numbers):
                numbers.remove(number)
                self.part_of[number].constraints.append(number)
        self.list_parts()
        return super().parts_of(cited, self.parts) if stray else parts

    def objective(self):
        number = self.aliases.get(self.goal, [self.goal])[0]
        return 'objective' if self.is_introduced(number) else self.titles.get(self.items.variable(number).name, 'objective')

    def shown(self, parts):
        lines, last = [], None
        for part in parts:
            if part.heading != last:
                lines.append(part.heading)
            if part.indices:
                lines.append('    ' + part.indices)
            last = part.heading
        return lines + self.declarations(parts)

    def same_as(self, number):
        """A variable by all its names: its own, and those whose declarations say that they equal it."""
        first = self.equals.get(number, number)
        return [first] + self.aliases.get(first, [])

    def given_for(self, parts):
        """The declarations of the variables that the parts mention and the model names: their places, with their sets in the compiled file."""
        given = {}
        for number in self.mentioned(self.needed_by(parts)):
            same = [self.items.variable(each) for each in self.same_as(number)]
            sets = {each.declared for each in same} - {None}
            for steps in filter(None, (self.paths.get(each.name) for each in same)):
                if sets and steps[0].kind.startswith('id|') and not self.is_introduced(number):
                    given.setdefault((steps[0].file, steps[0].begin), (steps[0], set()))[1].update(sets)
        return [given[place] for place in sorted(given)]

    def declarations(self, parts):
        """The lines of these declarations."""
        return [self.declaration(step, sets) for step, sets in self.given_for(parts)]

    def declaration(self, step, sets):
        """The line of one declaration, with those of the sets that it does not spell."""
        text = self.source.item(step).partition(' = ')[0]
        others = sorted(each for each in sets if each not in text)
        return f'given: {place_text(step)}: {text}' + (', in ' + ' or '.join(others) if others else '')


@dataclass
class Answer:
    """How a model ends: `best` is the last value of its objective, or 'some' for a solution of a satisfaction; whether more is open."""
    best: object
    is_open: bool

    def is_other_than(self, end, direction):
        """Whether this shows that the model has another answer than the one that is closed; or that this is open."""
        if not self.is_open:
            return self.best != end.best
        if self.best is None or end.best is None:
            return self.best is not None
        return self.best < end.best if direction == 'minimize' else self.best > end.best


@dataclass
class Found:
    """What was found of a model: how it ends, the parts that are left, in order, and those of which it is open whether they are needed."""
    model: Model
    end: Answer
    kept: list
    undecided: list

    def lines(self):
        """What is printed of it."""
        first = 'no solution, since' if self.end.best is None else f'{self.model.objective()} = {self.end.best} is the best, since'
        left = f'{len(self.undecided)} not decided' if self.undecided else 'minimal'
        return [first, *self.model.shown(self.kept), f'{len(self.kept)} of {len(self.model.parts)}, {left}']


class Asked:
    """The two programs, a folder for what they read and write, how many decisions they may make, and who else hears what was found."""

    def __init__(self, programs, folder, nodes, try_nodes, heard=None):
        self.programs, self.nodes, self.try_nodes, self.heard = programs, nodes, try_nodes, heard
        self.file = os.path.join(folder, 'asked.fzn')
        self.cert = os.path.join(folder, 'asked.fzc')

    def items(self, text):
        """What a text states."""
        self.write(text)
        return items_of(self.programs.check, self.file)

    def write(self, text):
        with open(self.file, 'wb') as file:
            file.write(text)

    def answer(self, model, parts, nodes):
        """The answer to the model with these parts; the certificate is checked."""
        self.write(model.only(parts))
        output_of([self.programs.solve, '--nodes', str(nodes), '--cert', self.cert, self.file])
        said = output_of([self.programs.check, self.file, self.cert]).split(b'\n')
        if b'=====UNSATISFIABLE=====' in said:
            return Answer(None, False)
        shown = shown_by(self.cert)
        if not shown.solutions:
            return Answer(None, True)
        return Answer('some', False) if model.goal is None else Answer(shown.value(model.goal), not shown.is_closed)

    def core(self, model, parts):
        """The parts, of these, on which the answer to them was found to rest that was asked for last."""
        said = output_of([self.programs.check, '--core', self.file, self.cert])
        return model.parts_of(cited_in(said, model, model.numbered(parts)) & model.constraints.keys(), parts)


def cited_in(said, model, numbered):
    """The constraints that a text of `fzncheck --core` lists: by their numbers in the whole file, where it numbers those that are left."""
    cited, place = set(), 0
    while listed := LISTED.match(said, place):
        number, line, column = map(int, listed.groups())
        one = numbered[number - 1] if number <= len(numbered) else None
        if one is None or (one.line, one.column) != (line, column) or not said.startswith(one.span.of(model.text) + b'\n', listed.end()):
            raise Broken('fzncheck --core lists what the file does not state')
        cited.add(one.number)
        place = listed.end() + one.span.behind - one.span.first + 1
    return cited


def least_of(asked, model, end):
    """The parts, fewer and fewer, as long as the answer rests on fewer."""
    kept = model.parts
    core = asked.core(model, kept)
    while len(core) < len(kept) and asked.answer(model, core, asked.nodes) == end:
        kept, core = core, asked.core(model, core)
    return kept


def explain(asked, model, end):
    """The parts that are left, and those of which it is open whether they are needed."""
    kept, needed, undecided = least_of(asked, model, end), [], []
    while True:
        rest = [part for part in kept if part not in needed and part not in undecided]
        if not rest:
            return kept, [part for part in undecided if part in kept]
        tried = max(reversed(rest), key=lambda part: len(part.constraints))
        without = [part for part in kept if part is not tried]
        again = asked.answer(model, without, asked.try_nodes)
        if again == end:
            kept = asked.core(model, without)
        elif again.is_other_than(end, model.direction):
            needed.append(tried)
        else:
            undecided.append(tried)


def report(asked, model):
    """Asks, and prints what was found. Returns the status."""
    end = asked.answer(model, model.parts, asked.nodes)
    if end.is_open or end.best == 'some':
        print('there are solutions' if end.best is not None else 'open: nothing was found before the node limit')
        return 1
    kept, undecided = explain(asked, model, end)
    found = Found(model, end, [part for part in model.parts if part in kept], undecided)
    for line in found.lines():
        print(line)
    if asked.heard is not None:
        asked.heard(found)
    return 0


def told(asked, text, table=None):
    """Tells of a file why it has no better answer, by the places of the model where MiniZinc has written a table of them."""
    items = asked.items(text)
    status = report(asked, Model(text, items) if table is None else Compiled(text, items, table))
    if status == 0 and not is_proved(asked.programs.check):
        print(UNPROVED)
    return status
