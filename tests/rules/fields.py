"""The rule of fields: a comment stands above each public field of a public struct. The structs of which one lacks it, and did when the rule
came, stand in fields.txt, each behind its file."""
import re

from listed import faults_against
from tree import Fault

LIST = 'fields.txt'
STRUCT = re.compile(r'(\s*)pub struct (\w+)')
FIELD = re.compile(r'\s+pub (\w+):')
BARE_TUPLE = re.compile(r'[^{]*\(\s*pub ')


def has_comment(lines, place):
    """Whether a comment stands above this line, over attributes."""
    while place > 0 and lines[place - 1].strip().startswith('#['):
        place -= 1
    return place > 0 and lines[place - 1].strip().startswith('//')


def bare_fields(lines, place):
    """The fields of the struct that begins at this line which have no comment: the line of each and its name. Of a struct whose fields have
    no names the comment stands above itself."""
    struct = STRUCT.match(lines[place])
    if BARE_TUPLE.match(lines[place]):
        if not has_comment(lines, place):
            yield place, '0'
        return
    if lines[place].rstrip().endswith(';'):
        return
    for line in range(place + 1, len(lines)):
        if lines[line].startswith(struct[1] + '}'):
            return
        field = FIELD.match(lines[line])
        if field and not has_comment(lines, line):
            yield line, field[1]


def faults(tree):
    """All structs that have come to have a field without a comment, and all listed ones that have none."""
    broken = {}
    for crate in tree.libraries:
        for path in tree.sources(crate):
            lines = tree.lines(path)
            for place, line in enumerate(lines):
                struct = STRUCT.match(line)
                for at, field in bare_fields(lines, place) if struct else ():
                    said = f'the field {field} of {struct[2]} has no comment: say above it what it is for, in which unit and range'
                    broken.setdefault(f'{path} {struct[2]}', []).append(Fault(path, at + 1, said))
    return faults_against(tree, LIST, broken, 'has no field without a comment, or is there no more')
