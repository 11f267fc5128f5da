#!/usr/bin/env python3
"""Instructions of `fznsolve` for each decision, at 100, 10,000 and 100,000 variables, all of them in one search annotation.

A model has no constraint, so all that a decision costs beyond writing its entry is to choose it. Each case is run with one decision and
with 40; the difference, divided by the 39 decisions, is printed for each number of variables, with the ratio of the last to the first.
A ratio near 1 says that choosing costs no pass over the variables, one near 1,000 that it is one. Instructions are counted by
`valgrind --tool=callgrind`.

    bench/decisions.py [--solve PATH] [CHOICE..]

takes the variable choices that are named, or all."""
import argparse
import os
import subprocess
import tempfile

HERE = os.path.dirname(os.path.abspath(__file__))
SOLVE = os.path.join(HERE, '..', 'crates', 'fznsolve', 'out', 'fznsolve')
SIZES = (100, 10_000, 100_000)
DECISIONS = 40
CHOICES = ('input_order', 'first_fail', 'anti_first_fail', 'smallest', 'largest')


def model(choice, n):
    """So many variables of three values; those with even numbers have two, so that not all cost the same to a choice."""
    names = [f'x{k}' for k in range(1, n + 1)]
    declared = ''.join(f'var {k % 2}..2: {name};\n' for k, name in enumerate(names))
    return f'{declared}array [1..{n}] of var int: xs = [{",".join(names)}];\nsolve :: int_search(xs, {choice}, indomain_min) satisfy;\n'


def instructions(solve, words, folder):
    command = ['valgrind', '--tool=callgrind', f'--callgrind-out-file={folder}/callgrind', solve, *words]
    done = subprocess.run(command, capture_output=True, text=True)
    if done.returncode:
        raise SystemExit(f'fznsolve ends with status {done.returncode}: {done.stderr.strip()[-200:]}')
    return int(done.stderr.split('Collected :')[1].split()[0])


def each_decision(solve, choice, n, more):
    with tempfile.TemporaryDirectory() as folder:
        path = os.path.join(folder, 'm.fzn')
        with open(path, 'w') as file:
            file.write(model(choice, n))
        few, many = (instructions(solve, [*more, '--nodes', str(nodes), path], folder) for nodes in (1, DECISIONS))
    return (many - few) / (DECISIONS - 1)


def main():
    parser = argparse.ArgumentParser(usage='bench/decisions.py [--solve PATH] [CHOICE..]')
    parser.add_argument('--solve', default=SOLVE)
    parser.add_argument('choices', nargs='*')
    words = parser.parse_args()
    cases = [(choice, choice, []) for choice in CHOICES]
    cases.append(('free', 'first_fail', ['-f']))
    for name, choice, more in cases:
        if words.choices and name not in words.choices:
            continue
        costs = [each_decision(words.solve, choice, n, more) for n in SIZES]
        shown = ', '.join(f'{cost:,.0f} at {n:,}' for cost, n in zip(costs, SIZES))
        print(f'{name}: {shown}: ratio {costs[-1] / costs[0]:.1f}', flush=True)


if __name__ == '__main__':
    main()
