#!/usr/bin/env python3
"""What our MiniZinc library gains: the time to solve what it compiles, over that with MiniZinc's standard library.

    bench/library.py [--solve PATH] [--check PATH] [--configuration PATH] [--runs N] [--seconds N] [MODEL.mzn ..]

Each model, of examples/ where none is named, is compiled with both (`minizinc` and, for ours, what ./install has installed) and solved N
times (3) within the seconds (60); the least processor time counts, 0.01 s at the least. Below stand the geometric mean of the ratios and
whether both best values are the same. What the standard library compiles may have a constraint that the solver refuses; that is said."""
import argparse
import glob
import json
import math
import os
import re
import resource
import subprocess
import sys
import tempfile

TOP = os.path.dirname(os.path.dirname(os.path.abspath(__file__)))
sys.path.insert(0, os.path.join(TOP, 'lib'))

from nickelmouse.items import items_of
from nickelmouse.running import Refused


def standard(folder, solve):
    """Configures our solver with MiniZinc's standard library alone."""
    path = os.path.join(folder, 'standard.msc')
    with open(path, 'w') as out:
        json.dump({'id': 'standard', 'name': 'Standard', 'version': '1', 'mznlib': '-Gstd', 'executable': solve, 'supportsFzn': True}, out)
    return path


def objective_of(check, flat):
    """How the objective of a compiled file is called; nothing, where there is none."""
    items = items_of(check, flat)
    return items.variable(items.goal.variable).name if items.goal.variable else None


def solved(solve, flat, goal, seconds):
    """Processor seconds of one run, and the value of its last solution; None and what happened, where it does not end well."""
    def limit():
        resource.setrlimit(resource.RLIMIT_CPU, (seconds, seconds))

    before = resource.getrusage(resource.RUSAGE_CHILDREN).ru_utime
    done = subprocess.run([solve, flat], capture_output=True, text=True, preexec_fn=limit)
    spent = resource.getrusage(resource.RUSAGE_CHILDREN).ru_utime - before
    if done.returncode != 0:
        return None, done.stderr.strip() or 'no end'
    values = re.findall(r'^%s = (-?\d+);' % goal, done.stdout, re.M) if goal else []
    return max(spent, 0.01), values[-1] if values else ''


def measured(configuration, model, options, folder):
    """The least time of the runs with one library, and the best value."""
    flat = os.path.join(folder, 'model.fzn')
    subprocess.run(['minizinc', '-c', '--solver', configuration, model, '--fzn', flat, '--no-output-ozn'], check=True, stderr=subprocess.DEVNULL)
    try:
        goal = objective_of(options.check, flat)
    except Refused as fault:
        return None, str(fault)
    best = None, ''
    for _ in range(options.runs):
        seconds, value = solved(options.solve, flat, goal, options.seconds)
        if seconds is None:
            return None, value
        best = min(best[0] or seconds, seconds), value
    return best


def main():
    parser = argparse.ArgumentParser(description=__doc__, formatter_class=argparse.RawDescriptionHelpFormatter)
    parser.add_argument('--solve', default=os.path.join(TOP, 'crates/fznsolve/out/fznsolve'))
    parser.add_argument('--check', default=os.path.join(TOP, 'crates/fzncheck/out/fzncheck'))
    parser.add_argument('--configuration', default='nickelmouse')
    parser.add_argument('--runs', type=int, default=3)
    parser.add_argument('--seconds', type=int, default=60)
    parser.add_argument('models', nargs='*')
    options = parser.parse_args()
    ratios = []
    with tempfile.TemporaryDirectory() as folder:
        plain = standard(folder, options.solve)
        for model in options.models or sorted(glob.glob(os.path.join(TOP, 'examples', '*.mzn'))):
            name = os.path.basename(model)
            ours, value = measured(options.configuration, model, options, folder)
            theirs, other = measured(plain, model, options, folder)
            if ours is None or theirs is None:
                said = [note if seconds is None else '%6.2f s' % seconds for seconds, note in ((ours, value), (theirs, other))]
                print('%-22s ours %s, standard %s' % (name, *said))
                continue
            ratios.append(ours / theirs)
            print('%-22s ours %6.2f s, standard %6.2f s, ratio %.2f%s' % (
                name, ours, theirs, ratios[-1], '' if value == other else ', but the best is %s, not %s' % (value, other)))
    if ratios:
        print('geometric mean of the ratios: %.2f' % math.exp(sum(map(math.log, ratios)) / len(ratios)))


sys.exit(main())
