#!/usr/bin/env python3
"""What several workers give: the best values of one process and of several, and of several without each kind of neighbourhoods.

    bench/neighbourhoods.py [--seconds S] [--jobs N] [--seeds K] [--words=-f] [--alone] [--kinds] [--without NAME,..] [--counts] FILE.fzn ..

prints a row for each file, an optimisation: of each run the value of the checked answer after S seconds (10) of wall time, or with the time where
it is proved to be the best. N (4) workers make a run with each of K (1) seeds, --alone also one process. --kinds has a column for each kind of
neighbourhoods and each manner of search that is left out; --without leaves out some of all. --counts tells how often each kind and manner was
tried, and how often that gave a better value. The last line counts over the files that one process leaves open how often a seed has a better or
a worse value than that."""
import argparse
import os
import shlex
import sys
import threading
import time
from dataclasses import dataclass

TOP = os.path.dirname(os.path.dirname(os.path.abspath(__file__)))
sys.path.insert(0, os.path.join(TOP, 'lib'))

from nickelmouse.files import Files
from nickelmouse.folders import Temporary
from nickelmouse.mending import mended
from nickelmouse.portfolio import Portfolio, Setting
from nickelmouse.processes import PROCESSES
from nickelmouse.running import Programs

NAMES = ('random', 'walk', 'whole', 'window', 'stretch', 'costly', 'costly walk', 'tour', 'free', 'annotated', 'by cost')


@dataclass
class Found:
    """What a run has found: the value, or nothing; after how many seconds it ended, where that was proved to be the best; and how to compare."""
    value: int
    seconds: float
    sign: int

    def __str__(self):
        found = '-' if self.value is None else str(self.value)
        return found if self.seconds is None else f'{found} in {self.seconds:.1f} s'

    def is_better(self, other):
        """Whether this is better than another one."""
        return self.value is not None and (other.value is None or self.sign * self.value < self.sign * other.value)


def program(name):
    """The path of a program: as the environment says, or as ./build or ./install --quick has left it."""
    paths = [os.path.join(TOP, 'crates', name, 'out', name), os.path.join(TOP, 'share', 'quick', name)]
    return os.environ.get(name.upper()) or next(filter(os.path.exists, paths), paths[0])


def print_counts(run):
    """Tells what each worker has tried."""
    for worker in run.neighbours:
        tried = ', '.join(f'{name} {worker.gains[name]}/{count}' for name, count in sorted(worker.trials.items()))
        print(f'    {worker.name}: {worker.fault or tried}')


def best(path, words, jobs, left_out, options):
    """What a run finds within the time."""
    programs = Programs(program('fznsolve'), program('fzncheck'))
    with open(path, 'rb') as file:
        model = mended(programs.check, file.read())
    with Temporary() as folder:
        files = Files(folder)
        files.write('model.fzn', model.text)
        run = Portfolio(Setting(programs, files, words, ['--bound'], False, jobs, left_out=left_out), model)
        timer, begin = threading.Timer(options.seconds, run.cut), time.monotonic()
        timer.daemon = True
        timer.start()
        try:
            run.run()
        finally:
            timer.cancel()
            PROCESSES.cleared()
    if options.counts:
        print_counts(run)
    sign = -1 if model.goal == 'maximize' else 1
    if run.bound is not None:
        return Found(run.bound.value, None, sign)
    return Found(run.shared.best and run.shared.best.value, time.monotonic() - begin, sign)


def row(path, columns, options):
    """The values of a file, a list for each column."""
    found = []
    for _, jobs, left_out in columns:
        seeds = range(options.seeds if jobs > 1 else 1)
        words = [shlex.split(options.words) + (['-r', str(seed)] if seed else []) for seed in seeds]
        found.append([best(path, one, jobs, left_out, options) for one in words])
    return found


def main():
    parser = argparse.ArgumentParser(description=__doc__, formatter_class=argparse.RawDescriptionHelpFormatter)
    parser.add_argument('--seconds', type=float, default=10)
    parser.add_argument('--jobs', type=int, default=4)
    parser.add_argument('--seeds', type=int, default=1)
    parser.add_argument('--words', default='-f')
    parser.add_argument('--alone', action='store_true')
    parser.add_argument('--kinds', action='store_true')
    parser.add_argument('--without', default='')
    parser.add_argument('--counts', action='store_true')
    parser.add_argument('files', nargs='+')
    options = parser.parse_args()
    left_out = tuple(filter(None, options.without.split(',')))
    columns = [('one process', 1, ())] if options.alone else []
    columns += [(f'{options.jobs} workers', options.jobs, left_out)]
    columns += [(f'no {name}', options.jobs, (name,)) for name in NAMES] if options.kinds else []
    print('| model | ' + ' | '.join(name for name, _, _ in columns) + ' |\n' + '|---' * (len(columns) + 1) + '|', flush=True)
    better = worse = still = files = 0
    for path in options.files:
        found = row(path, columns, options)
        print(f'| {os.path.basename(path)[:-4]} | ' + ' | '.join(', '.join(map(str, cell)) for cell in found) + ' |', flush=True)
        if options.alone and found[0][0].seconds is None:
            files += 1
            for one in found[1]:
                better += one.is_better(found[0][0])
                worse += found[0][0].is_better(one)
                still += 1
    if options.alone:
        print(f'better than one process {better} of {still} times, worse {worse} times, over {files} files that it leaves open')


main()
