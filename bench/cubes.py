#!/usr/bin/env python3
"""How a search by cubes grows with the number of workers: a simulation, in which cubes are searched one after another.

    bench/cubes.py [--workers N,N,..] [--start SECONDS] [--budget N] [--words 'WORDS'] MODEL ..

For each number of workers (1, 4, 16 and 64) the queue works as `nickelmouse --cubes` has it, over a clock of its own: a worker that takes a
cube at some time has it searched at once, with all that was known at that time, and gives its certificate back as many seconds later as the
solver has used of a processor, and `--start` (0.4, what GNU parallel and ssh take) more. What the join uses of a processor goes by on the
same clock, during which no cube is given out. A row has the workers, the seconds until the answer, those of all cubes together, of the join
and of the check of the joined certificate, which goes on beside, the cubes, the megabytes of the joined certificate, and the value that was
found; the first row has one plain run. The whole takes the longer of the seconds until the answer and of the check."""
import argparse
import os
import resource
import shlex
import subprocess
import sys
import tempfile
import time

TOP = os.path.dirname(os.path.dirname(os.path.abspath(__file__)))
sys.path.insert(0, os.path.join(TOP, 'lib'))

from nickelmouse.cubing import Cubing
from nickelmouse.files import Files
from nickelmouse.items import items_of_text
from nickelmouse.joining import Joined, whole_of
from nickelmouse.running import Programs
from nickelmouse.searching import Sink
from nickelmouse.slots import Slots


def program(name):
    """The path of one of the two programs."""
    paths = [os.path.join(TOP, 'crates', name, 'out', name), os.path.join(TOP, 'share', 'quick', name)]
    return os.environ.get(name.upper()) or next(filter(os.path.isfile, paths), paths[0])


def ran(words, said=subprocess.DEVNULL):
    """Runs a program to its end: its status, and the seconds that it has used of a processor."""
    before = resource.getrusage(resource.RUSAGE_CHILDREN)
    status = subprocess.run(words, stdin=subprocess.DEVNULL, stdout=subprocess.DEVNULL, stderr=said).returncode
    after = resource.getrusage(resource.RUSAGE_CHILDREN)
    return status, after.ru_utime + after.ru_stime - before.ru_utime - before.ru_stime


class Clock:
    """What time it is for the workers."""

    def __init__(self):
        self.now, self.ours, self.joining = 0.0, time.process_time(), 0.0

    def count(self):
        """Adds what we have used of a processor since the last call."""
        now = time.process_time()
        self.now, self.joining, self.ours = self.now + now - self.ours, self.joining + now - self.ours, now


class Run:
    """A search that has ended, and whose end is known only later."""

    def __init__(self, clock, seconds, status):
        self.clock, self.end, self.status = clock, clock.now + seconds, status

    def poll(self):
        return self.status if self.clock.now >= self.end else None

    def kill(self):
        self.end = min(self.end, self.clock.now)


class Simulated(Slots):
    """Slots whose searches are made one after another."""

    def __init__(self, programs, files, number, clock, start):
        super().__init__(programs, files, number)
        self.clock, self.begin, self.seconds = clock, start, 0.0

    def started(self, task, words, said):
        self.clock.count()
        paths = ['--cert', self.files.path(task.name('fzc')), self.files.path(task.name('fzn'))]
        status, seconds = ran([self.programs.solve, *words, *paths], said)
        self.seconds += seconds
        return Run(self.clock, seconds + self.begin, status)

    def ended(self, task):
        self.going -= 1
        return task.process.status, self.files.read(task.name('said')).decode().strip()


class Simulation(Cubing):
    """Cubes over a clock of their own."""

    def pause(self):
        clock = self.slots[0].clock
        clock.count()
        clock.now = max(clock.now, min(task.process.end for task in self.tasks))


def simulated(programs, files, words, workers, options):
    """One number of workers: the row."""
    text, clock = files.read('model.fzn'), Clock()
    items = items_of_text(programs.check, text)
    place, sink = items.goal.span.first, Sink(files.path('model.fzc'))
    joined = Joined(sink, whole_of(items), None if '-a' in words else 1)
    cubing = Simulation(files, (text[:place], text[place:]), items.variables, joined, words, options.budget, None)
    slots = Simulated(programs, files, workers, clock, options.start)
    cubing.work([slots], slots, [], lambda _: None)
    sink.flush()
    clock.count()
    sink.close()
    status, checking = ran([programs.check, files.path('model.fzn'), files.path('model.fzc')])
    value = joined.best[0] if joined.best is not None else joined.solutions
    end = 'rejected' if status else 'closed' if cubing.queue.root.closed is not None else 'open'
    return (f'{workers:>7} {clock.now:8.1f} {slots.seconds:8.1f} {clock.joining:7.1f} {checking:7.1f} {cubing.number:6} {sink.bytes / 1e6:8.1f}  '
            f'{value} {end}')


def plain(programs, files, words):
    """One plain run: the row."""
    _, seconds = ran([programs.solve, *words, '--cert', files.path('model.fzc'), files.path('model.fzn')])
    status, checking = ran([programs.check, files.path('model.fzn'), files.path('model.fzc')])
    size = os.path.getsize(files.path('model.fzc'))
    with open(files.path('model.fzc'), 'rb') as file:
        file.seek(max(0, size - 9))
        end = 'rejected' if status else 'closed' if file.read() == b'e closed\n' else 'open'
    return f'  plain {seconds:8.1f} {seconds:8.1f} {"":7} {checking:7.1f} {"":6} {size / 1e6:8.1f}  {end}'


def main():
    parser = argparse.ArgumentParser(description=__doc__, formatter_class=argparse.RawDescriptionHelpFormatter)
    parser.add_argument('--workers', type=lambda text: [int(word) for word in text.split(',')], default=[1, 4, 16, 64])
    parser.add_argument('--start', type=float, default=0.4)
    parser.add_argument('--budget', type=int, default=1000)
    parser.add_argument('--words', type=shlex.split, default=[])
    parser.add_argument('models', nargs='+')
    options = parser.parse_args()
    programs = Programs(program('fznsolve'), program('fzncheck'))
    for model in options.models:
        print(f'{os.path.basename(model)}\nworkers   answer    cubes    join   check number megabytes', flush=True)
        with tempfile.TemporaryDirectory() as folder, open(model, 'rb') as file:
            files = Files(folder)
            files.write('model.fzn', file.read())
            print(plain(programs, files, options.words), flush=True)
            for workers in options.workers:
                print(simulated(programs, files, options.words, workers, options), flush=True)


main()
