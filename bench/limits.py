#!/usr/bin/env python3
"""Whether nickelmouse ends at its time limit: it runs over models, and what is over the limit or not checked is counted.

    bench/limits.py [--limit SECONDS] [--over SECONDS] [--jobs N] [--check PATH] [--words 'WORDS'] FOLDER|MODEL ..

Each optimisation among the FlatZinc files, and each MiniZinc model, is run once with `--time-limit` (5) and WORDS (--jobs 1), N at a time (1).
A run is late where it ends more than `--over` (1.5) seconds of wall time behind the limit. A row has the seconds, how the answer ends (closed,
open, none, or the compiler's own), what is known of the objective, and in place of these, where the last line is not `checked`, what was said.
The last lines count. The status is 1 where a run is late, or not checked."""
import argparse
import os
import re
import shlex
import subprocess
import sys
import time
from concurrent.futures import ThreadPoolExecutor

TOP = os.path.dirname(os.path.dirname(os.path.abspath(__file__)))
sys.path.insert(0, os.path.join(TOP, 'lib'))

from nickelmouse.counts import counted, printed_items
from nickelmouse.running import Refused


def is_asked(check, model):
    """Whether a model is run: no satisfaction, and nothing that is refused."""
    try:
        return not model.endswith('.fzn') or counted(printed_items(check, model)).goal != 'satisfy'
    except Refused:
        return False


def models_in(paths):
    """The models that are named, and those of the folders that are named."""
    for path in paths:
        if os.path.isdir(path):
            yield from sorted(os.path.join(path, name) for name in os.listdir(path) if name.endswith(('.fzn', '.mzn')))
        else:
            yield path


def ending(lines):
    """How an answer ends."""
    for line, word in (('=====UNSATISFIABLE=====', 'none'), ('=====UNKNOWN=====', 'unknown'), ('==========', 'closed')):
        if line in lines:
            return word
    return 'open'


def run(model, options):
    """One run: the seconds, whether it was checked, and the row."""
    begin = time.monotonic()
    done = subprocess.run([os.path.join(TOP, 'nickelmouse'), '--time-limit', str(options.limit), *shlex.split(options.words), model],
                          stdin=subprocess.DEVNULL, capture_output=True, text=True, errors='replace')
    seconds, lines = time.monotonic() - begin, done.stdout.splitlines()
    is_checked = done.returncode == 0 and bool(lines) and lines[-1].startswith('checked')
    known = next((line for line in lines[-2:-1] if re.search(r'\bat (least|most) -?\d+', line)), '')
    said = f'{ending(lines)} {known}' if is_checked else f'status {done.returncode}: {" / ".join(lines[-1:] + done.stderr.splitlines())}'
    is_late = seconds > options.limit + options.over
    print(f'{os.path.basename(model):32} {seconds:6.2f} s {"late " if is_late else ""}{said}'.rstrip(), flush=True)
    return seconds, is_checked, is_late


def main():
    parser = argparse.ArgumentParser(description=__doc__, formatter_class=argparse.RawDescriptionHelpFormatter)
    parser.add_argument('--limit', type=float, default=5)
    parser.add_argument('--over', type=float, default=1.5)
    parser.add_argument('--jobs', type=int, default=1)
    parser.add_argument('--check', default=os.environ.get('FZNCHECK', os.path.join(TOP, 'crates/fzncheck/out/fzncheck')))
    parser.add_argument('--words', default='--jobs 1')
    parser.add_argument('paths', nargs='+', metavar='FOLDER|MODEL')
    options = parser.parse_args()
    models = list(models_in(options.paths))
    asked = [model for model in models if is_asked(options.check, model)]
    with ThreadPoolExecutor(options.jobs) as pool:
        runs = list(pool.map(lambda model: run(model, options), asked))
    late, unchecked = sum(is_late for _, _, is_late in runs), sum(not is_checked for _, is_checked, _ in runs)
    print(f'{len(runs)} runs, {len(models) - len(asked)} models passed over; the longest took {max((one[0] for one in runs), default=0):.2f} s')
    print(f'{late} late, {unchecked} not checked')
    return 1 if late or unchecked else 0


sys.exit(main())
