#!/usr/bin/env python3
"""Counts the lines of definitions that a contract rests on: definitions.py [--list]

From the words of a contract the definitions that they name are followed through `crates/*/specs`, one by one. Blank lines, comments
and imports are not counted, nor are the words of the standard library and the types of the code. With --list each definition is
printed with its lines."""
import os, re, sys

CRATES = os.path.join(os.path.dirname(os.path.abspath(__file__)), '..', 'crates')
BEGINS = re.compile(r'\s*(?:(?:abbrev|unfoldable)(?: pub)?|(?:pub )?(?:record|data)) ([^\s:({]+)')
WORD = re.compile(r"[A-Za-z_][A-Za-z0-9_'\-]*(?:\.[A-Za-z0-9_][A-Za-z0-9_'\-]*)*")
IMPORT = re.compile(r'(?:ghost |unfoldable )?(pub )?use (?P<path>[\w.]+?)(?:\.\{(?P<names>[^}]*)\})?(?: as (?P<alias>\w+))?;?$')

# A promise is the contract of a call, or words by their module.
PROMISES = [
    ('the contract of `check`', ('fzn_checker', 'answer.rt', 'check')),
    ('the contract of `run`', ('fzn_solver', 'answer.rt', 'run')),
    ('the printed answer is true, the model taken as given',
     [('Rattle.fzn_meaning.specs.Solutions', 'IsProper'), ('Rattle.fzn_meaning.specs.Solutions', 'IsExhausted'),
      ('Rattle.fzn_printer.specs.Answer', 'answer_text')]),
]


def without_comments(text):
    lines = (re.sub(r'(^|\s)(--|//).*', '', line).rstrip() for line in text.splitlines())
    return '\n'.join(line for line in lines if line.strip())


def imports_of(statement):
    """The words that an import brings, each with its module, and the modules that it brings."""
    found = IMPORT.match(' '.join(statement.split()))
    path, alias = found['path'], found['alias']
    if found['names'] is None:
        return bool(found[1]), {}, {alias or path.rsplit('.', 1)[1]: path}
    pairs = (name.strip().split(' as ') for name in found['names'].split(',') if name.strip())
    return bool(found[1]), {pair[-1]: (path, pair[0]) for pair in pairs}, {}


class Module:
    """A file of definitions."""

    def __init__(self, text):
        self.words, self.modules, self.shown, self.shown_modules = {}, {}, {}, {}
        self.definitions, self.constructors = {}, {}
        name, statement = None, ''
        for line in without_comments(text).splitlines():
            if statement or re.match(r'(unfoldable )?(pub )?use ', line):
                statement += ' ' + line
                if statement.count('{') == statement.count('}'):
                    self.bring(statement.strip())
                    statement = ''
                continue
            begins = BEGINS.match(line)
            if begins:
                name = begins[1]
                self.definitions[name] = []
            if re.match(r'module |(pub )?mod ', line):
                name = None
            if name:
                self.definitions[name].append(line)
        for name, lines in self.definitions.items():
            if re.match(r'(pub )?data ', lines[0]):
                self.constructors.update({line.split()[0]: name for line in lines[1:]})

    def bring(self, statement):
        is_shown, words, modules = imports_of(statement)
        self.words.update(words)
        self.modules.update(modules)
        if is_shown:
            self.shown.update(words)
            self.shown_modules.update(modules)


def read_modules():
    modules = {}
    for crate in sorted(os.listdir(CRATES)):
        top = os.path.join(CRATES, crate, 'specs')
        for folder, _, files in os.walk(top):
            for file in files:
                if file.endswith('.antt'):
                    inner = os.path.relpath(os.path.join(folder, file), top)[:-len('.antt')].replace(os.sep, '.')
                    with open(os.path.join(folder, file)) as text:
                        modules[f'Rattle.{crate}.specs.{inner}'] = Module(text.read())
    return modules


MODULES = read_modules()


def module_at(path):
    """The module of this path, which its parent may show from elsewhere."""
    if path in MODULES:
        return path
    parent, _, last = path.rpartition('.')
    for shower in (parent, parent + '.Lib'):
        if shower in MODULES and last in MODULES[shower].shown_modules:
            return module_at(MODULES[shower].shown_modules[last])
    return None


def definition_of(path, word):
    """Where the definition of a word stands that this module has or shows."""
    path = module_at(path)
    if path is None:
        return None
    module = MODULES[path]
    if word in module.definitions:
        return path, word
    if word in module.constructors:
        return path, module.constructors[word]
    if word in module.shown:
        return definition_of(*module.shown[word])
    return None


def resolve(module, path, word):
    """The definition that a word names in a file."""
    first, _, rest = word.partition('.')
    if rest and first in module.modules:
        return definition_of(module.modules[first], rest.split('.')[0])
    if path and (first in module.definitions or first in module.constructors):
        return definition_of(path, first)
    return definition_of(*module.words[first]) if first in module.words else None


def clauses_of(name, lines):
    """The head, and each further line that begins a clause with those that go on with it."""
    clauses = [[]]
    for line in lines:
        if clauses[0] and re.match(r'\s*' + re.escape(name) + r'\s', line):
            clauses.append([])
        clauses[-1].append(line)
    return ['\n'.join(clause) for clause in clauses]


def bound_in(module, path, name, clause):
    """The variables of a clause."""
    bound = set()
    for group in re.findall(r'[({]([\w\s\'\-]+) :', clause) + re.findall(r'λ ([^.(]+)\.', clause):
        bound.update(group.split())
    if not BEGINS.match(clause):
        left = re.split(r' =(?:\s|$)', clause)[0]
        bound.update(word for word in WORD.findall(left)[1:] if resolve(module, path, word) is None or word in module.definitions)
    return bound


def named_by(path, name):
    """The definitions that a definition names."""
    module, named = MODULES[path], set()
    lines = module.definitions[name]
    fields = {m[1] for m in (re.match(r'\s+(?:pub )?([\w\'\-]+) :', line) for line in lines) if m}
    for clause in clauses_of(name, lines):
        bound = bound_in(module, path, name, clause) | fields
        text = re.sub(r'"[^"]*"', '', clause)
        text = re.sub(r'([{;] *)([\w\'\-]+) = ', r'\1', text)
        for word in WORD.findall(text):
            if word.split('.')[0] not in bound:
                found = resolve(module, path, word)
                if found and found != (path, name):
                    named.add(found)
    return named


def words_of_call(crate, file, call):
    """The definitions that the contract of a call names."""
    with open(os.path.join(CRATES, crate, 'src', file)) as text:
        code = without_comments(text.read())
    module = Module('')
    for statement in re.findall(r'^ghost use [^;]*;', code, re.M):
        module.bring(statement)
    start = code.index(f'pub fn {call}<')
    contract = code[start:code.index('\n{', start)]
    contract = contract[contract.index('->'):].split('\n', 1)[1]
    found = (resolve(module, None, word) for word in WORD.findall(contract))
    return {definition for definition in found if definition}


def rest_of(roots):
    """All definitions that these rest on, with themselves."""
    reached, waiting = set(), list(roots)
    while waiting:
        definition = waiting.pop()
        if definition not in reached:
            reached.add(definition)
            waiting.extend(named_by(*definition))
    return reached


def main():
    shows_each = sys.argv[1:] == ['--list']
    for title, promise in PROMISES:
        roots = promise if isinstance(promise, list) else words_of_call(*promise)
        reached = rest_of(roots)
        count = sum(len(MODULES[path].definitions[name]) for path, name in reached)
        print(f'{title}: {count:,} lines, {len(reached)} definitions in {len({path for path, _ in reached})} files')
        if shows_each:
            for path, name in sorted(reached):
                place = path.removeprefix('Rattle.').replace('.specs.', '/specs/')
                print(f'{len(MODULES[path].definitions[name]):6}  {place}  {name}')


main()
