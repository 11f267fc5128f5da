"""Where cubes are searched: so many at a time, each by one run of the solver over files of its own."""
import os
import subprocess
from dataclasses import dataclass

from nickelmouse.joining import Added
from nickelmouse.processes import PROCESSES
from nickelmouse.through import launched

KINDS = ('fzn', 'fzc', 'said', 'sent')
ENDS = (b'e closed\n', b'e open\n')


@dataclass
class Task:
    """A cube that is searched: its number, its budget, what its file has behind the last constraint, and by which program of which
    slots."""
    number: int
    cube: object
    budget: int
    added: Added
    slots: object = None
    process: object = None

    def name(self, kind):
        """The name of one of its files: `fzn`, `fzc` or `said`."""
        return f'cube-{self.number}.{kind}'

    def remove(self, files):
        """Removes its files."""
        files.remove(*map(self.name, KINDS))


class Slots:
    """So many slots on this machine, or wherever the words before each run lead."""

    def __init__(self, programs, files, number):
        self.programs, self.files, self.number, self.going = programs, files, number, 0

    def has_room(self):
        """Whether one more cube may be searched here."""
        return self.going < self.number

    def start(self, task, words):
        """Starts the search of a cube, by these words for the solver."""
        with open(self.files.path(task.name('said')), 'wb') as said:
            task.process = self.started(task, [*words, '--nodes', str(task.budget), '--progress'], said)
        task.slots = self
        self.going += 1

    def started(self, task, words, said):
        """The program that searches a cube."""
        paths = ['--cert', self.files.path(task.name('fzc')), self.files.path(task.name('fzn'))]
        return launched(self.programs.through, [self.programs.solve, *words, *paths],
                        stdin=subprocess.DEVNULL, stdout=subprocess.DEVNULL, stderr=said)

    def ended(self, task):
        """Waits for the end of a search, and gives its status and what it said."""
        self.going -= 1
        status = PROCESSES.wait(task.process)
        return status, self.files.read(task.name('said')).decode('utf-8', 'replace').strip()

    def fault(self, status, said):
        """What is wrong with these slots where a run has failed, in one line; nothing, where the run alone is at fault."""
        return None


def end_of(path):
    """The last line of a certificate, where it is the end of one."""
    with open(path, 'rb') as file:
        file.seek(max(0, file.seek(0, os.SEEK_END) - 16))
        text = file.read()
    line = text[text.rfind(b'\n', 0, -1) + 1:]
    return line if line in ENDS else b''


def how_ended(status, said):
    """How a run has ended that did not end well: the last line that it said, or its status."""
    if said:
        return said.splitlines()[-1]
    return 'no answer' if status is None else f'killed by signal {-status}' if status < 0 else f'status {status}'
