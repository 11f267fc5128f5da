#!/usr/bin/env python3
"""What several processors give a whole run: the wall time of `nickelmouse --jobs N` over that of `--jobs 1`.

    bench/jobs.py [--jobs N] [--limit SECONDS] [--least SECONDS] [--times K] [--words=-f] FILE.fzn ..

runs each file with one job and with N (4) in turn, K times (1), each with `--time-limit` SECONDS (60), and prints a row: the medians of the
seconds of both, the second over the first, and how each answer ends. Files that one job ends in fewer than --least seconds (2) have no row. The
last lines have the geometric mean of the quotients where one job ends, which are above 1.2, which files the N jobs alone end, and whose answers
differ; status 1 where one differs or is not checked."""
import argparse
import math
import os
import shlex
import statistics
import subprocess
import sys
import time

TOP = os.path.dirname(os.path.dirname(os.path.abspath(__file__)))
ENDS = ('==========', '=====UNSATISFIABLE=====')


class Run:
    """One run: its seconds, whether its answer is closed and checked, and what it says of the best value."""

    def __init__(self, path, jobs, options):
        begin = time.monotonic()
        done = subprocess.run([os.path.join(TOP, 'nickelmouse'), '--jobs', str(jobs), '-s', '--time-limit', str(options.limit),
                               *shlex.split(options.words), path], stdin=subprocess.DEVNULL, capture_output=True, text=True, errors='replace')
        self.seconds = time.monotonic() - begin
        lines = done.stdout.splitlines()
        self.is_checked = done.returncode == 0 and bool(lines) and lines[-1].startswith('checked')
        self.is_closed = any(end in lines for end in ENDS)
        told = [line for line in lines if line.startswith('%%%mzn-stat: objective=')]
        self.value = told[-1].partition('=')[2] if told else ENDS[1] if ENDS[1] in lines else ''

    def __str__(self):
        return ('closed' if self.is_closed else 'open') + (f' at {self.value}' if self.value else '') + ('' if self.is_checked else ', not checked')


class Runs:
    """The runs of a file with so many jobs: the median of their seconds, whether all are closed, and whether all are checked and agree."""

    def __init__(self, runs):
        self.first, self.seconds = runs[0], statistics.median(run.seconds for run in runs)
        self.is_closed = all(run.is_closed for run in runs)
        self.is_right = all(run.is_checked for run in runs) and (not self.is_closed or len({run.value for run in runs}) == 1)


def main():
    parser = argparse.ArgumentParser(description=__doc__, formatter_class=argparse.RawDescriptionHelpFormatter)
    parser.add_argument('--jobs', type=int, default=4)
    parser.add_argument('--limit', type=float, default=60)
    parser.add_argument('--least', type=float, default=2)
    parser.add_argument('--words', default='-f')
    parser.add_argument('--times', type=int, default=1)
    parser.add_argument('files', nargs='+')
    options = parser.parse_args()
    logs, high, gained, wrong = [], [], [], []
    print(f'| model | 1 job, s | {options.jobs} jobs, s | quotient | 1 job | {options.jobs} jobs |\n|---|---|---|---|---|---|', flush=True)
    for path in options.files:
        name = os.path.splitext(os.path.basename(path))[0]
        first = Run(path, 1, options)
        if first.is_closed and first.seconds < options.least:
            continue
        pairs = [(first, Run(path, options.jobs, options))]
        pairs += [(Run(path, 1, options), Run(path, options.jobs, options)) for _ in range(options.times - 1)]
        one, several = Runs([pair[0] for pair in pairs]), Runs([pair[1] for pair in pairs])
        quotient = several.seconds / one.seconds
        print(f'| {name} | {one.seconds:.2f} | {several.seconds:.2f} | {quotient:.2f} | {one.first} | {several.first} |', flush=True)
        if not (one.is_right and several.is_right) or one.is_closed and several.is_closed and one.first.value != several.first.value:
            wrong.append(name)
        if one.is_closed:
            logs.append(math.log(quotient))
            high += [name] if quotient > 1.2 else []
        elif several.is_closed:
            gained.append(name)
    if logs:
        print(f'of {len(logs)} that one job ends: {math.exp(sum(logs) / len(logs)):.2f} in the geometric mean, above 1.2: {", ".join(high) or "none"}')
    print(f'ended by {options.jobs} jobs alone: {", ".join(gained) or "none"}; different or not checked: {", ".join(wrong) or "none"}')
    return 1 if wrong else 0


sys.exit(main())
