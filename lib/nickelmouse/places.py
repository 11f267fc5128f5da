"""Places in a MiniZinc model: the paths that the compiler writes for what it compiles, and what stands at them in the model's own files."""
import os
import re
from dataclasses import dataclass

# In a MiniZinc model: a comment, a string, or the end of an item; and what may stand in front of an item.
MARK = re.compile(r'%[^\n]*|/\*.*?\*/|"(?:[^"\\]|\\.)*"|;', re.S)
BLANK = re.compile(r'(?:\s|%[^\n]*|/\*.*?\*/)*', re.S)
NAME = re.compile(r'[A-Za-z_]\w*')
# The steps that lead from a constraint of the model to its conjuncts, or from a name to its declaration.
INWARD = re.compile(r"ca\|forall$|ac$|vd$|id\||bin\|'/\\'$")
INDEX = re.compile(r'(\w+)=(.+)$', re.S)


@dataclass
class Step:
    """One step of a path: a place in a file of the model, from the first character to the last, and what stands there."""
    file: str
    begin: tuple
    end: tuple
    kind: str


def path_of(text):
    """The steps of a path as MiniZinc writes it, up to the first without a place."""
    steps = []
    for written in text.split(';'):
        fields = written.split('|', 5)
        if len(fields) < 6 or not fields[0]:
            break
        first, left, last, right = map(int, fields[1:5])
        steps.append(Step(fields[0], (first, left), (last, right), fields[5]))
    return steps


def table_of(text):
    """The paths and the titles in a table of MiniZinc: by the numbers of constraints, from 0 and as text, and by the names of variables."""
    paths, titles = {}, {}
    for line in text.splitlines():
        key, title, path = (line.split('\t') + ['', ''])[:3]
        paths[key], titles[key] = path_of(path), title
    return paths, titles


def conjunct_of(steps):
    """The step of the conjunct that a path leads to, and the indices of the loops on the way."""
    found, indices = steps[0], []
    for step in steps:
        index = INDEX.match(step.kind)
        if index:
            indices.append((step, *index.groups()))
            continue
        if found.kind != 'vd':
            found = step
        if not INWARD.match(step.kind):
            break
    return found, indices


def place_text(step):
    """A place, by the shorter way to its file."""
    path = os.path.relpath(step.file)
    return f'{step.file if path.startswith("..") else path} line {step.begin[0]} column {step.begin[1]}'


def items_in(text):
    """The items of a MiniZinc model: where each begins and where it ends, behind its `;`."""
    items, begin = [], 0
    for mark in MARK.finditer(text):
        if mark[0] == ';':
            items.append((BLANK.match(text, begin).end(), mark.end()))
            begin = mark.end()
    return items


def place_of(text, at):
    """The line and the column of a character."""
    return text.count('\n', 0, at) + 1, at - text.rfind('\n', 0, at)


def in_one_line(text):
    """A text without its comments and its breaks."""
    return ' '.join(re.sub(r'%.*|/\*.*?\*/', ' ', text).split())


class Source:
    """The texts of the model's files."""

    def __init__(self):
        self.files = {}

    def lines(self, path):
        """The lines of a file; none, where it cannot be read."""
        if path not in self.files:
            try:
                with open(path, encoding='utf-8', errors='replace') as file:
                    self.files[path] = file.read().split('\n')
            except OSError:
                self.files[path] = []
        return self.files[path]

    def item(self, step):
        """The item that a step stands in, without its `;`."""
        text, (first, behind) = self.item_at(step)
        return in_one_line(text[first:behind - 1])

    def item_at(self, step):
        """The text of a step's file, and where the item that the step stands in begins and ends there, behind its `;`."""
        lines = self.lines(step.file)
        text, begin = '\n'.join(lines), sum(map(len, lines[:step.begin[0] - 1])) + step.begin[0] + step.begin[1] - 2
        return text, next(((first, behind) for first, behind in items_in(text) if first <= begin < behind), (0, 0))

    def span(self, step):
        """The places of the first and the last character of a step: of a declaration, those of its item."""
        text, (first, behind) = self.item_at(step) if step.kind == 'vd' else ('', (0, 0))
        return (place_of(text, first), place_of(text, behind - 1)) if behind else (step.begin, step.end)

    def text(self, step):
        """What stands at a step, without comments, in one line: the item of a declaration."""
        if step.kind == 'vd':
            return self.item(step)
        lines = self.lines(step.file)[step.begin[0] - 1:step.end[0]]
        if lines:
            lines[-1] = lines[-1][:step.end[1]]
            lines[0] = lines[0][step.begin[1] - 1:]
        return in_one_line('\n'.join(lines))

    def members(self):
        """The members of each enum that a file read so far spells out, by its name and by those of its members."""
        spelled = {}
        for lines in self.files.values():
            for name, braces in re.findall(r'\benum\s+(\w+)\s*=\s*\{([\w\s,]*)\}', '\n'.join(lines)):
                members = NAME.findall(braces)
                spelled.update(dict.fromkeys([name] + members, members))
        return spelled

    def value(self, step, value):
        """The value of a loop's index as the model writes it: where the loop goes over an enum, the member."""
        lines = self.lines(step.file)[step.begin[0] - 1:step.begin[0] + 1]
        over = re.match(r'\w+(?:\s*,\s*\w+)*\s+in\s+(\w+)', ' '.join(lines)[step.begin[1] - 1:])
        members = self.members().get(over[1], []) if over and value.isdigit() else []
        return members[int(value) - 1] if members and 0 < int(value) <= len(members) else value
