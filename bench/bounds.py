#!/usr/bin/env python3
"""How good a solution is found, and which bound is proved, after so many decisions: fznsolve with a certificate, and fzncheck --bound.

    bench/bounds.py [--nodes N] [--seeds SEED,..] [--words 'WORDS'] [--jobs N] [--solve PATH] [--check PATH] MODEL ..

Each optimisation is run with `-f`, or the words, for at most N decisions (16000), once without a seed and once with each seed, N runs at a time
(1). A row has the model, the seed, what is known of the objective, conflicts and bytes of the certificate. The status is 1 where a certificate
is rejected."""
import argparse
import os
import re
import shlex
import subprocess
import sys
import tempfile
from concurrent.futures import ThreadPoolExecutor

CRATES = os.path.join(os.path.dirname(os.path.dirname(os.path.abspath(__file__))), 'crates')


def run(model, seed, options):
    """One run: whether its certificate is accepted, and the row."""
    with tempfile.NamedTemporaryFile(suffix='.fzc') as certificate:
        words = [*shlex.split(options.words), '--nodes', str(options.nodes), '--progress', '--cert', certificate.name]
        solved = subprocess.run([options.solve, *words, *([] if seed is None else ['-r', seed]), model], capture_output=True, text=True)
        checked = subprocess.run([options.check, '--bound', model, certificate.name], capture_output=True, text=True)
        size = os.path.getsize(certificate.name)
    said = (solved.stderr.splitlines() or [''])[-1]
    conflicts = re.search(r'(\d+) conflicts', said)
    is_accepted = checked.returncode == 0
    known = checked.stdout.splitlines()[-1] if is_accepted else (checked.stderr.splitlines() or ['rejected'])[-1]
    name = os.path.basename(model).removesuffix('.fzn')
    return is_accepted, f'{name:24} {seed or "":>6}  {known:40} {conflicts[1] if conflicts else said:>9} {size:>12,}'


def main():
    words = argparse.ArgumentParser(description=__doc__, formatter_class=argparse.RawDescriptionHelpFormatter)
    words.add_argument('models', nargs='+', metavar='MODEL')
    words.add_argument('--nodes', type=int, default=16_000)
    words.add_argument('--seeds', default='')
    words.add_argument('--words', default='-f')
    words.add_argument('--jobs', type=int, default=1)
    words.add_argument('--solve', default=os.path.join(CRATES, 'fznsolve', 'out', 'fznsolve'))
    words.add_argument('--check', default=os.path.join(CRATES, 'fzncheck', 'out', 'fzncheck'))
    options = words.parse_args()
    seeds = [None, *filter(None, options.seeds.split(','))]
    wrong = 0
    with ThreadPoolExecutor(options.jobs) as pool:
        for is_accepted, row in pool.map(lambda job: run(*job, options), [(model, seed) for model in options.models for seed in seeds]):
            print(row, flush=True)
            wrong += not is_accepted
    print(f'{wrong} certificates rejected')
    return 1 if wrong else 0


if __name__ == '__main__':
    sys.exit(main())
