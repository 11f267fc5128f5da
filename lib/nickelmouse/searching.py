"""A search by cubes: many runs of the solver, each over a part of the search, whose certificates are joined into one of the whole file."""
import contextlib
import os
import subprocess
import sys
import time

from nickelmouse.cubing import Cubing
from nickelmouse.folders import Temporary
from nickelmouse.hosts import HostSlots
from nickelmouse.items import items_of_text
from nickelmouse.joining import Joined, whole_of
from nickelmouse.processes import PROCESSES
from nickelmouse.running import started
from nickelmouse.slots import Slots
from nickelmouse.deriving import DERIVE
from nickelmouse.solving import Search
from nickelmouse.workers import Told

SECONDS = 1.0
PIECE = 1 << 20


class Full(Exception):
    """A joined certificate that cannot be written."""


class Sink:
    """A file that is written in large pieces, and no more once that has failed."""

    def __init__(self, path):
        self.handle = os.open(path, os.O_WRONLY | os.O_CREAT | os.O_TRUNC, 0o666)
        self.path, self.lines, self.held, self.bytes = path, [], 0, 0

    def write(self, line):
        """Takes a line."""
        self.lines.append(line)
        self.held += len(line)
        if self.held >= PIECE:
            self.flush()

    def flush(self):
        """Writes what was taken."""
        rest, self.lines, self.held = b''.join(self.lines), [], 0
        try:
            while rest:
                written = os.write(self.handle, rest)
                self.bytes += written
                rest = rest[written:]
        except OSError as fault:
            raise Full(f'{self.path}: {fault.strerror}') from fault

    def close(self):
        """Nothing is written any more."""
        os.close(self.handle)


def without(words, option):
    """Words without an option and its value, and that value, if it is there."""
    if option not in words:
        return words, None
    place = words.index(option)
    return words[:place] + words[place + 2:], words[place + 1]


class CubeSearch(Search):
    """One search by cubes over a folder that has `model.fzn`. It leaves what a search leaves. `machines` say how many cubes are searched at
    a time here, and what the first one's budget is; where there are `hosts`, all but the first are searched there."""

    def __init__(self, programs, files, words, checking, keeps, machines, hosts=(), tells=False):
        super().__init__(programs, files, words, checking, keeps, tells=tells)
        self.machines, self.hosts, self.cubing = machines, hosts, None
        self.begin = self.told = time.monotonic()

    def cut(self):
        """Ends the search now. What the cubes have found so far is kept."""
        super().cut()
        if self.cubing is not None:
            self.cubing.cut()

    def searched(self, follower):
        """Searches cube by cube, and has the joined certificate followed. Gives how it ended, as a run of the solver is told of."""
        sink = Sink(self.files.path('model.fzc'))
        follower.start()
        try:
            with Temporary() if self.hosts else contextlib.nullcontext() as folder:
                return self.joined(sink, folder)
        except Full as fault:
            return Told(4, str(fault))
        finally:
            for task in self.cubing.tasks if self.cubing is not None else []:
                task.process.kill()
            sink.close()
            follower.finish()

    def joined(self, sink, folder):
        """Searches, and writes the joined certificate."""
        text = self.files.read('model.fzn')
        items = items_of_text(self.programs.check, text)
        if items is None or items.mends:
            return self.refused()
        words, hints = without([word for word in self.words if word not in ('--progress', DERIVE)], '--hints')
        words, nodes = without(words, '--nodes')
        wanted, place = without(words, '-n')[1], items.goal.span.first
        joined = Joined(sink, whole_of(items), int(wanted) if wanted else None if '-a' in words else 1)
        self.cubing = Cubing(self.files, (text[:place], text[place:]), items.variables, joined, words, self.machines.budget,
                             int(nodes) if nodes else None)
        if self.worker.is_cut:
            self.cubing.cut()
        here = Slots(self.programs, self.files, self.machines.cubes or 1)
        slots = [HostSlots(self.programs, self.files, host, folder) for host in self.hosts] or [here]
        self.cubing.work(slots, here, ['--hints', hints] if hints is not None else [], self.tell)
        sink.flush()
        status, said = self.cubing.wrong or (0, '')
        return Told(status, '\n'.join(line for line in (self.total(sink, joined), said) if line))

    def refused(self):
        """Has the solver say what is wrong with the file."""
        solver = started([self.programs.solve, self.files.path('model.fzn')], stdin=subprocess.DEVNULL, stdout=subprocess.DEVNULL,
                         stderr=subprocess.PIPE)
        _, said = PROCESSES.heard(solver)
        return Told(solver.returncode, said.decode('utf-8', 'replace').strip())

    def tell(self, cubing):
        """Tells how far the search has come, where that is wanted."""
        now = time.monotonic()
        if self.tells and now - self.told >= SECONDS:
            self.told = now
            best = f', best {cubing.joined.best[0]}' if cubing.joined.best is not None else ''
            print(f'{now - self.begin:.1f} s, {cubing.closed} cubes closed, {len(cubing.tasks)} searched, '
                  f'{len(cubing.queue)} waiting{best}', file=sys.stderr, flush=True)

    def total(self, sink, joined):
        """What all searches come to, in the words in which the solver tells of one."""
        nodes, conflicts, inferences = self.cubing.totals
        best = f'best {joined.best[0]}, ' if joined.best is not None else ''
        return (f'in all {time.monotonic() - self.begin:.1f} s, {nodes} nodes, {conflicts} conflicts, {inferences} inferences, '
                f'{joined.solutions} solutions, {best}{sink.bytes} bytes of certificate')
