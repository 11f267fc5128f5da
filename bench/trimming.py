#!/usr/bin/env python3
"""What trimming leaves of certificates, and how large cores are: bench/trimming.py [--solve PATH] [--check PATH] [--seconds N] LIST.csv

LIST has the columns name, of a model beside it (without .fzn), and words, of the solver. The models are solved with a certificate, one after
the other; what does not end within N seconds (10) is left out. The certificate is checked, trimmed and asked for its core. The trimmed one has
to be accepted and to print the same bytes; of a closed answer the constraints of the core alone, in a file of their own, have to be solved to
the same end within three times that time, with a certificate that is accepted.

A line for each kind of model, the name up to its first `-`: how many ended and how many of these are closed; bytes and steps before and after,
without deletions; constraints, and those in cores, of the closed ones; and the processor seconds for checking, trimming and listing the core.
Then all together, and last the largest ratios of memory and time, trimming and the core over checking, among certificates of a megabyte or
more. The status is 1 where something went wrong, and a line says what."""
import argparse
import csv
import os
import re
import signal
import subprocess
import sys
import tempfile
import threading
from dataclasses import dataclass, field

TOP = os.path.dirname(os.path.dirname(os.path.abspath(__file__)))
sys.dont_write_bytecode = True
sys.path.insert(0, os.path.join(TOP, 'lib'))

from nickelmouse import why
from nickelmouse.certificates import shown_by
from nickelmouse.items import items_of


class Wrong(Exception):
    """What went wrong with a model."""


@dataclass
class Ran:
    """A program's run: its status (nothing where it did not end in time), what it printed, its processor seconds, and its memory in bytes."""
    status: int
    out: bytes
    err: bytes
    seconds: float
    memory: int = 0


def run(words, limit):
    """Runs a program for at most so many seconds."""
    with tempfile.TemporaryFile() as out, tempfile.TemporaryFile() as err:
        program = subprocess.Popen(words, stdin=subprocess.DEVNULL, stdout=out, stderr=err)
        stop = threading.Timer(limit, program.kill)
        stop.start()
        _, status, usage = os.wait4(program.pid, 0)
        seconds = usage.ru_utime + usage.ru_stime
        stop.cancel()
        program.returncode = os.waitstatus_to_exitcode(status)
        out.seek(0)
        err.seek(0)
        ended = None if program.returncode == -signal.SIGKILL else program.returncode
        return Ran(ended, out.read(), err.read(), seconds, usage.ru_maxrss * 1024)


def sound(words, limit):
    ran = run(words, limit)
    if ran.status != 0:
        raise Wrong(f'{" ".join(words)}: status {ran.status}, {ran.err.decode().strip()}')
    return ran


@dataclass
class Found:
    """What was found of one model, or the sums over some."""
    ended: int = 0
    closed: int = 0
    size: list = field(default_factory=lambda: [0, 0])
    steps: list = field(default_factory=lambda: [0, 0])
    constraints: list = field(default_factory=lambda: [0, 0])
    seconds: list = field(default_factory=lambda: [0.0, 0.0, 0.0])
    memory: list = field(default_factory=lambda: [0, 0, 0])

    def add(self, other):
        self.ended += other.ended
        self.closed += other.closed
        for mine, theirs in ((self.size, other.size), (self.steps, other.steps), (self.constraints, other.constraints),
                             (self.seconds, other.seconds)):
            mine[:] = [one + two for one, two in zip(mine, theirs)]

    def line(self, name):
        return '| %s | %d | %d | %s | %s | %s | %.1f | %.1f | %.1f |' % (
            name, self.ended, self.closed, shares(self.size), shares(self.steps), shares(self.constraints), *self.seconds)


def shares(pair):
    return '{:,} | {:.0f} %'.format(pair[0], 100 * pair[1] / pair[0] if pair[0] else 100)


def answers(out):
    """The solutions of an answer as a set, and how it ends."""
    *solutions, ending = out.split(b'----------\n')
    return set(solutions), ending


def steps_in(path):
    with open(path, 'rb') as file:
        return sum(not line.startswith((b'fzc', b'vars', b'd', b'e')) for line in file)


class Bench:
    def __init__(self, options, folder):
        self.options, self.folder = options, folder

    def path(self, name):
        return os.path.join(self.folder, name)

    def solved(self, model, words, cert, limit):
        return run([self.options.solve, *words, '--cert', cert, model], limit)

    def core_of(self, text, items, listed):
        """A file's text with the constraints that are listed, those of declarations among them."""
        model = why.Model(text, items)
        cited = why.cited_in(listed, model, model.numbered(model.parts))
        return model.only([part for part in model.parts if part.constraints[0] in cited])

    def solve_core(self, model, listed, words, wanted):
        """Solves the constraints of a core alone, which has to end the same way."""
        alone, cert = self.path('core.fzn'), self.path('core.fzc')
        items = items_of(self.options.check, model)
        with open(model, 'rb') as file, open(alone, 'wb') as out:
            out.write(self.core_of(file.read(), items, listed))
        came = self.solved(alone, words, cert, 3 * self.options.seconds)
        if came.status != 0:
            raise Wrong(f'its core alone: {"not ended" if came.status is None else came.err.decode().strip()}')
        checked = sound([self.options.check, *words, alone, cert], 600)
        if checked.out != came.out:
            raise Wrong('its core alone: the certificate shows another answer')
        if self.end_of(items, came.out, cert) != self.end_of(items, wanted, self.path('model.fzc')):
            raise Wrong('its core alone ends otherwise')

    def end_of(self, items, out, cert):
        """How an answer ends: the best value, or else the solutions."""
        if items.goal.variable is None:
            return answers(out)
        shown = shown_by(cert)
        return shown.value(items.goal.variable), shown.is_closed

    def found_of(self, model, words):
        """What is found of a model, or nothing where it does not end."""
        cert, trimmed = self.path('model.fzc'), self.path('trimmed.fzc')
        solved = self.solved(model, words, cert, self.options.seconds)
        if solved.status != 0:
            return None
        check = self.options.check
        checked = sound([check, *words, model, cert], 600)
        trim = sound([check, '--trim', trimmed, model, cert], 600)
        core = sound([check, '--core', model, cert], 600)
        if checked.out != solved.out or sound([check, *words, model, trimmed], 600).out != solved.out:
            raise Wrong('the certificate shows another answer')
        count = re.search(rb'^(\d+) of (\d+)(, open)?\n\Z', core.out, re.M)
        if not count[3]:
            self.solve_core(model, core.out, words, solved.out)
        return Found(1, 0 if count[3] else 1, [os.path.getsize(cert), os.path.getsize(trimmed)], [steps_in(cert), steps_in(trimmed)],
                     [0, 0] if count[3] else [int(count[2]), int(count[1])], [checked.seconds, trim.seconds, core.seconds],
                     [checked.memory, trim.memory, core.memory])


def main():
    words = argparse.ArgumentParser(description=__doc__, formatter_class=argparse.RawDescriptionHelpFormatter)
    words.add_argument('--solve', default=os.path.join(TOP, 'crates/fznsolve/out/fznsolve'))
    words.add_argument('--check', default=os.path.join(TOP, 'crates/fzncheck/out/fzncheck'))
    words.add_argument('--seconds', type=float, default=10)
    words.add_argument('list', metavar='LIST.csv')
    options = words.parse_args()
    kinds, every, wrong, large = {}, Found(), 0, []
    with tempfile.TemporaryDirectory() as folder:
        bench = Bench(options, folder)
        with open(options.list, newline='') as file:
            rows = sorted((row['name'], row['words'].split()) for row in csv.DictReader(file))
        for name, model_words in rows:
            try:
                found = bench.found_of(os.path.join(os.path.dirname(options.list), name + '.fzn'), model_words)
            except Wrong as fault:
                print(f'{name}: {fault}', flush=True)
                wrong += 1
                continue
            if found is None:
                print(f'{name}: not ended', flush=True)
                continue
            kinds.setdefault(name.partition('-')[0], Found()).add(found)
            every.add(found)
            if found.size[0] >= 1_000_000:
                large.append((name, found))
    print('| Kind | Ended | Closed | Bytes | left | Steps | left | Constraints | in cores | Check s | Trim s | Core s |')
    print('|---|---|---|---|---|---|---|---|---|---|---|---|')
    for kind in sorted(kinds):
        print(kinds[kind].line(kind))
    print(every.line('all'))
    for what, ratios in (('memory', [(name, found.memory, found.size) for name, found in large]),
                         ('seconds', [(name, found.seconds, found.size) for name, found in large])):
        for at, call in ((1, 'trim'), (2, 'core')):
            if ratios:
                name, values, size = max(ratios, key=lambda one: one[1][at] / max(one[1][0], 1e-9))
                print(f'{what}: --{call} over checking at most {values[at] / values[0]:.1f}, {name} of {size[0]:,} bytes: {values[0]:,} and {values[at]:,}')
    return 1 if wrong else 0


if __name__ == '__main__':
    sys.exit(main())
