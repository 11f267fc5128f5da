"""A start: the values of a plan, by the names of variables, which a short search completes to a solution. The search itself is handed that one
as a hint, and tests it; so nothing here has to be right."""
import json
import os
import re
import subprocess
import threading

from nickelmouse.certificates import shown_in
from nickelmouse.items import Span, items_of_text, replaced
from nickelmouse.processes import PROCESSES
from nickelmouse.running import Refused, say
from nickelmouse.through import launched

ENTRY = re.compile(r'\s*([A-Za-z_][A-Za-z0-9_]*)\s*=\s*(?:array[1-9][0-9]*d\(.*?)?(\[[^\[\]]*\]|[^\s\[\](),]+)\s*\)?\s*', re.S)
WORDS = {'true': 1, 'false': 0}
DASHES = '----------'
# How long the search for a completion takes at most: so many seconds, and such a part of a time limit.
SECONDS, PART = 10, 5
NODES = 1_000_000


def value_in(word):
    """The number that a word spells; 0 and 1 for `false` and `true`. A fault is a ValueError."""
    return WORDS[word] if word in WORDS else int(word)


def flat(value):
    """A number, or the numbers of lists within lists in order. A fault is a ValueError."""
    if isinstance(value, list):
        found = map(flat, value)
        return [number for one in found for number in (one if isinstance(one, list) else [one])]
    if not isinstance(value, int):
        raise ValueError(f'no number: {value!r}')
    return int(value)


def entry_in(text):
    """The name and the value of `NAME = VALUE`, where the value is a number or a list of numbers. A fault is a ValueError."""
    found = ENTRY.fullmatch(text)
    if found is None:
        raise ValueError(f'not NAME = VALUE: {" ".join(text.split())[:60]!r}')
    name, value = found.groups()
    if not value.startswith('['):
        return name, value_in(value)
    return name, [value_in(word.strip()) for word in value[1:-1].split(',') if word.strip()]


def last_solution(text):
    """The text of the last solution of an answer, or all of it where no solution is ended."""
    solutions = text.split(DASHES)
    return solutions[-2] if len(solutions) > 1 else text


def values_in(text):
    """The values of a plan, by their names: of an object in JSON, or of the last solution of an answer as `fzncheck` prints it. A fault is a
    ValueError."""
    if text.lstrip().startswith('{'):
        return {name: flat(value) for name, value in json.loads(text).items() if not name.startswith('_')}
    lines = [line for line in last_solution(text).splitlines() if not line.lstrip().startswith('%') and set(line) != {'='}]
    return dict(entry_in(entry) for entry in '\n'.join(lines).split(';') if entry.strip())


def read_values(path):
    """The values in a file, or in the answer of a folder that --keep has left. Refused, where these can't be read."""
    path = os.path.join(path, 'model.answer') if os.path.isdir(path) else path
    try:
        with open(path, encoding='utf-8') as file:
            return values_in(file.read())
    except OSError as fault:
        raise Refused(4, f'{path}: {fault.strerror}') from fault
    except ValueError as fault:
        raise Refused(4, f'{path}: {fault}') from fault


def fixed(items, values):
    """The number of each variable whose value is given, with that value."""
    numbers = {variable.name: variable.number for variable in items.variables}
    found = {}
    for name, value in values.items():
        if name in numbers and isinstance(value, int):
            found[numbers[name]] = value
        elif name in items.arrays and isinstance(value, list) and len(value) == items.arrays[name].length:
            found.update((number, one) for number, one in zip(items.arrays[name].entries, value) if number is not None)
    return found


def equation(variable, value):
    """The constraint that a variable has this value."""
    if variable.declared is None:
        return f'constraint bool_eq({variable.name},{"true" if value else "false"}); '
    return f'constraint int_eq({variable.name},{value}); '


def with_values(items, text, values):
    """The file, in which these variables have these values."""
    equations = ''.join(equation(items.variable(number), value) for number, value in sorted(values.items()))
    first = items.goal.span.first
    return replaced(text, [(Span(first, first), equations.encode())])


class Start:
    """A plan of a file or a folder, as a start for the search of a model over a folder."""

    def __init__(self, path, programs, files, seconds):
        self.path, self.programs, self.files = path, programs, files
        self.seconds = SECONDS if seconds is None else min(SECONDS, seconds / PART)
        self.values = read_values(path)

    def words(self, text):
        """The words that hand the search of this file the plan, completed: none where there is no such solution, which one line says."""
        line = self.completed(text)
        if line is None:
            say(f'{self.path}: no plan of this model, and passed over')
            return []
        self.files.write('start', line)
        return ['--hints', self.files.path('start')]

    def remove(self):
        """Removes what was written."""
        self.files.remove('start')

    def completed(self, text):
        """The `s` line of the best completion that was found, or nothing."""
        items = items_of_text(self.programs.check, text)
        values = fixed(items, self.values) if items is not None and not items.mends else {}
        if not values:
            return None
        self.files.write('start.fzn', with_values(items, text, values))
        try:
            self.search()
            lines = self.files.read('start.fzc').split(b'\n')[:-1]
        finally:
            self.files.remove('start.fzn', 'start.fzc')
        last = shown_in(lines).last
        return b's ' + b' '.join(b'%d' % value for value in last) + b'\n' if last is not None else None

    def search(self):
        """Searches for a completion, until the time for it is over."""
        fzn, fzc = self.files.path('start.fzn'), self.files.path('start.fzc')
        solver = launched(self.programs.through, [self.programs.solve, '-f', '--nodes', str(NODES), '--cert', fzc, fzn],
                          stdin=subprocess.DEVNULL, stdout=subprocess.DEVNULL, stderr=subprocess.DEVNULL)
        timer = threading.Timer(self.seconds, solver.kill)
        timer.daemon = True
        timer.start()
        try:
            PROCESSES.wait(solver)
        finally:
            timer.cancel()
