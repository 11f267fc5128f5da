"""The repository as the rules see it: its crates, the texts of their files, and the faults that a rule finds there."""
import os
import re
from dataclasses import dataclass
from functools import cached_property

CRATE = re.compile(r'(\w+)(?: \w+=\w+)*:(.*)')


@dataclass(frozen=True)
class Fault:
    """A line that breaks a rule, by its number from 1 up, and how it is mended."""
    path: str
    line: int
    said: str

    def __str__(self):
        return f'{self.path}:{self.line}: {self.said}'


class Tree:
    """A repository below a folder. Each file is read once, and each folder of a crate."""

    def __init__(self, top):
        self.top = top
        self.texts = {}
        self.found = {}

    def text(self, path):
        """The text of a file, empty where there is none."""
        if path not in self.texts:
            try:
                with open(os.path.join(self.top, path), encoding='utf-8') as file:
                    self.texts[path] = file.read()
            except OSError:
                self.texts[path] = ''
        return self.texts[path]

    def lines(self, path):
        return self.text(path).split('\n')

    def has(self, path):
        return os.path.isfile(os.path.join(self.top, path))

    def files(self, folder, ending):
        """The files below a folder whose names end so, in order."""
        found, waiting = [], [folder]
        while waiting:
            inner = waiting.pop()
            try:
                entries = sorted(os.scandir(os.path.join(self.top, inner)), key=lambda entry: entry.name)
            except OSError:
                continue
            waiting += (f'{inner}/{entry.name}' for entry in entries if entry.is_dir())
            found += (f'{inner}/{entry.name}' for entry in entries if entry.name.endswith(ending) and entry.is_file())
        return sorted(found)

    @cached_property
    def lines_of_crates(self):
        """Of each crate in crates.txt, in order, the number of its line there."""
        return {crate: number for crate, number, _ in self.listed_crates()}

    @cached_property
    def libraries(self):
        """Of each crate in crates.txt the libraries that its line names, those of others than this repository left out."""
        listed = {crate: used.split() for crate, _, used in self.listed_crates()}
        return {crate: [library for library in used if library in listed] for crate, used in listed.items()}

    def listed_crates(self):
        for number, line in enumerate(self.lines('crates.txt'), 1):
            found = CRATE.match(line)
            if found:
                yield found[1], number, found[2]

    def below(self, crate):
        """All libraries that a crate stands on, by those that it names."""
        reached, waiting = set(), list(self.libraries[crate])
        while waiting:
            library = waiting.pop()
            if library not in reached:
                reached.add(library)
                waiting += self.libraries[library]
        return reached

    def topmost(self, crate):
        """The libraries of a crate's line that no other one of the line stands on."""
        used = self.libraries[crate]
        return [library for library in used if not any(library in self.below(other) for other in used)]

    def head_file(self, crate):
        """Where a crate begins: lib.rt, or main.rt of a program."""
        library, program = (f'crates/{crate}/src/{name}.rt' for name in ('lib', 'main'))
        return program if self.has(program) and not self.has(library) else library

    def of_crate(self, crate, folder, ending):
        """The files below a folder of a crate whose names end so, in order."""
        if (crate, folder) not in self.found:
            self.found[crate, folder] = self.files(f'crates/{crate}/{folder}', ending)
        return self.found[crate, folder]

    def sources(self, crate):
        return self.of_crate(crate, 'src', '.rt')

    def specs(self, crate):
        return self.of_crate(crate, 'specs', '.antt')

    def proofs(self, crate):
        return self.of_crate(crate, 'proofs', '.antt')


def without_comments(text):
    """A text of Rattle without its comments; each line keeps its place."""
    return re.sub(r'//[^\n]*', '', text)


def line_at(text, place):
    """The number of the line in which a character stands, from 1 up."""
    return text.count('\n', 0, place) + 1
