#!/usr/bin/env python3
"""Instructions of the same search in a file of 100 variables and in one of 100,000.

Both models have the same 10 pigeons and 9 holes of Booleans, and as many more variables as are lacking, each with one value and in no
constraint. Each is run with few nodes and with many; the difference, which leaves reading out, is what search costs. The ratio of both
is printed, for both ways of learning: near 1 it says that no decision, level, conflict or inference costs a pass over the variables.
Instructions are counted by `valgrind --tool=callgrind`.

    bench/width.py [--solve PATH]"""
import argparse
import os
import tempfile

from decisions import SOLVE, instructions

SIZES = (100, 100_000)
PIGEONS = 10
NODES = (20, 420)


def model(size):
    holes = PIGEONS - 1
    name = 'p{}_{}'.format
    seats = [name(p, h) for p in range(PIGEONS) for h in range(holes)]
    lines = [f'var bool: {seat};' for seat in seats]
    lines += [f'var 1..1: z{k};' for k in range(size - len(seats))]
    for p in range(PIGEONS):
        lines.append(f'constraint bool_clause([{",".join(name(p, h) for h in range(holes))}],[]);')
    for h in range(holes):
        for p in range(PIGEONS):
            for q in range(p):
                lines.append(f'constraint bool_clause([],[{name(p, h)},{name(q, h)}]);')
    return '\n'.join(lines) + '\nsolve satisfy;\n'


def search(solve, size, learn):
    with tempfile.TemporaryDirectory() as folder:
        path = os.path.join(folder, 'm.fzn')
        with open(path, 'w') as file:
            file.write(model(size))
        few, many = (instructions(solve, ['--learn', learn, '--cert', '/dev/null', '--nodes', str(nodes), path], folder) for nodes in NODES)
    return (many - few) / (NODES[1] - NODES[0])


def main():
    parser = argparse.ArgumentParser(usage='bench/width.py [--solve PATH]')
    parser.add_argument('--solve', default=SOLVE)
    words = parser.parse_args()
    for learn in ('first', 'plain'):
        costs = [search(words.solve, size, learn) for size in SIZES]
        shown = ', '.join(f'{cost:,.0f} at {size:,}' for cost, size in zip(costs, SIZES))
        print(f'{learn}: instructions a node: {shown}: ratio {costs[1] / costs[0]:.2f}', flush=True)


if __name__ == '__main__':
    main()
