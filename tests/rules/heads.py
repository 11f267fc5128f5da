"""The rule of heads and rows: the comment at the head of each crate says what comes in, what goes out and against what this is proved, and
docs/ARCHITECTURE.md has one row of each crate that says so too and names the topmost libraries on which the crate stands."""
import os
import re

from tree import Fault

PAGE = 'docs/ARCHITECTURE.md'
TITLE = '## The crates'
ROW = re.compile(r'\| `(\w+)` \|')
CELLS = ['Crate', 'In', 'Out', 'Proved against', 'Stands on']
IN = re.compile(r'\bIn:')
OUT = re.compile(r'\bOut(?:, of [^:.]+)?:')
PROVED = re.compile(r'\b[Pp]roved\b|`specs/')
SPEC = re.compile(r"(?:`(\w+)`'s )?`specs/([\w/]+)(?:\.antt)?`(?: of `(\w+)`)?")


def head_of(tree, crate):
    """The comment at the head of a crate, in one line."""
    head = []
    for line in tree.lines(tree.head_file(crate)):
        if not line.startswith('//!'):
            break
        head.append(line[3:].strip())
    return ' '.join(head)


def missing_specs(tree, crate, text):
    """The files of specs/ that a text names and that are not there. Another crate may be named beside one, as the crate that has it."""
    for owner, name, other in SPEC.findall(text):
        path = f'crates/{owner or other or crate}/specs/{name}.antt'
        if not tree.has(path):
            yield path


def faults_of_head(tree, crate):
    path, head = tree.head_file(crate), head_of(tree, crate)
    if not tree.has(path):
        yield Fault('crates.txt', tree.lines_of_crates[crate], f'{crate} has neither src/lib.rt nor src/main.rt: delete its line, or add the crate')
        return
    for wanted, said in ((IN, 'what comes in: write a sentence that begins with `In:`'),
                         (OUT, 'what goes out: write a sentence that begins with `Out:`'),
                         (PROVED, 'against what this is proved: write `Proved against`, and the file of specs/')):
        if not wanted.search(head):
            yield Fault(path, 1, f'the comment at the head, in lines of //!, does not say {said}')
    for spec in missing_specs(tree, crate, head):
        yield Fault(path, 1, f'the comment at the head names {spec}, which is not there: name the file as it is called now')


def rows_of(tree):
    """The rows of the table of crates: for each the number of its line, its crate and its cells."""
    is_in = False
    for number, line in enumerate(tree.lines(PAGE), 1):
        if line.startswith('## '):
            is_in = line == TITLE
        found = ROW.match(line)
        if is_in and found:
            yield number, found[1], [cell.strip() for cell in line.strip().strip('|').split('|')]


def named_in(cell):
    """The crates that a cell names, with `fzn_` in front or without."""
    names = (name.strip().strip('`') for name in cell.split(',') if name.strip())
    return [name if name.startswith('fzn') else 'fzn_' + name for name in names]


def faults_of_row(tree, number, crate, cells):
    if crate not in tree.libraries:
        yield Fault(PAGE, number, f'crates.txt has no crate {crate}: delete this row, or write the name as it is now')
        return
    if len(cells) != len(CELLS):
        yield Fault(PAGE, number, f'the row of {crate} has {len(cells)} cells: write {len(CELLS)}, {", ".join(CELLS)}')
        return
    for name, cell in zip(CELLS[1:3], cells[1:3]):
        if not cell:
            yield Fault(PAGE, number, f'the row of {crate} has nothing under {name}: write it, as the head of {tree.head_file(crate)} says it')
    for spec in missing_specs(tree, crate, cells[3]):
        yield Fault(PAGE, number, f'the row of {crate} names {spec}, which is not there: name the file as it is called now')
    wanted, named = tree.topmost(crate), named_in(cells[4])
    if sorted(named) != sorted(wanted):
        right = ', '.join(library.removeprefix('fzn_') for library in wanted)
        yield Fault(PAGE, number, f'{crate} stands on others by crates.txt than this row names: write `{right}` under {CELLS[4]}')


def faults(tree):
    """All faults of heads and rows."""
    for crate in tree.libraries:
        yield from faults_of_head(tree, crate)
    rows = {}
    for number, crate, cells in rows_of(tree):
        if crate in rows:
            yield Fault(PAGE, number, f'{crate} has a row in line {rows[crate]} already: delete one of them')
        rows.setdefault(crate, number)
        yield from faults_of_row(tree, number, crate, cells)
    for crate, number in tree.lines_of_crates.items():
        if crate not in rows:
            yield Fault('crates.txt', number, f'{crate} has no row in {PAGE}, in the table of `{TITLE}`: write one')
    folder = os.path.join(tree.top, 'crates')
    for crate in sorted(os.listdir(folder)):
        if os.path.isdir(os.path.join(folder, crate, 'src')) and crate not in tree.libraries:
            yield Fault('crates.txt', 1, f'crates/{crate} has no line here: write one in its room, with the libraries that it uses')
