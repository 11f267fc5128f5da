"""The rule of names: no name is defined in two public specs. Those that are, and were when the rule came, stand in names.txt. Fields and
constructors belong to their types, and do not count."""
import re

from listed import faults_against
from tree import Fault

LIST = 'names.txt'
# What begins a definition that others can name: a word, and `pub` in front of it or behind; or `pub` alone, of a statement with its type.
# `pub use` hands on what another file defines.
DEFINED = re.compile(r'\s*(?:(?:abbrev|unfoldable|record|data|def) pub|pub (?:abbrev|unfoldable|record|data|def)) (?!use )([^\s:({]+)|pub ([^\s:({]+) :')


def definitions(tree):
    """For each name the places of its definitions in public specs, in order."""
    found = {}
    for crate in tree.libraries:
        for path in tree.specs(crate):
            for number, line in enumerate(tree.lines(path), 1):
                begun = DEFINED.match(line)
                if begun:
                    found.setdefault(begun[1] or begun[2], []).append((path, number))
    return found


def faults(tree):
    """All names that have come to be defined twice, and all listed ones that are so no more."""
    broken = {}
    for name, places in definitions(tree).items():
        if len(places) > 1:
            first, number = places[0]
            broken[name] = [Fault(path, line, f'{name} is defined in {first}:{number} too: give one of them a name of its own, or import it')
                            for path, line in places[1:]]
    return faults_against(tree, LIST, broken, 'is defined in one place at most')
