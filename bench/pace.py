#!/usr/bin/env python3
"""Conflicts a second of processor time beside another engine, on files that are given.

    bench/pace.py [--seconds S] [--rounds N] [--words 'WORDS'] [--other 'PROGRAM WORDS'] [--solve PATH] MODEL ..

Each model is solved by fznsolve with `-f`, or the words, and a certificate that goes to a file, and by PROGRAM with its words, one after the
other, up to S seconds of processor time each (4), N rounds (1); what PROGRAM prints, and its word `limit`, are as bench/engine.py has them. A row
has the model, the conflicts, and the conflicts a second, the greatest of all rounds, of both, and their ratio; the last line has the geometric
mean of the ratios and the least of them."""
import argparse
import math
import os
import shlex

from engine import others, ours

SOLVE = os.path.join(os.path.dirname(os.path.dirname(os.path.abspath(__file__))), 'crates', 'fznsolve', 'out', 'fznsolve')


def best(rounds, run):
    """Of so many runs the most conflicts a second, with their number."""
    return max((conflicts / spent, conflicts) for spent, conflicts, *_ in (run() for _ in range(rounds)))


def main():
    words = argparse.ArgumentParser(description=__doc__, formatter_class=argparse.RawDescriptionHelpFormatter)
    words.add_argument('models', nargs='+', metavar='MODEL')
    words.add_argument('--seconds', type=int, default=4)
    words.add_argument('--rounds', type=int, default=1)
    words.add_argument('--words', default='-f', type=shlex.split)
    words.add_argument('--other', default='', type=shlex.split)
    words.add_argument('--solve', default=SOLVE)
    options = words.parse_args()
    ratios = []
    for model in options.models:
        runs = [best(options.rounds, lambda: ours(options.solve, options.words, options.seconds, model))]
        if options.other:
            runs.append(best(options.rounds, lambda: others(options.other, options.seconds, model)))
        row = f'{os.path.basename(model).removesuffix(".fzn"):24}' + ''.join(f' {conflicts:>9,} {pace:>9,.0f}' for pace, conflicts in runs)
        if len(runs) == 2 and all(pace for pace, _ in runs):
            ratios.append(runs[0][0] / runs[1][0])
            row += f' {ratios[-1]:6.2f}'
        print(row, flush=True)
    if ratios:
        mean = math.exp(sum(map(math.log, ratios)) / len(ratios))
        print(f'{len(ratios)} models: {mean:.2f} in the geometric mean, {min(ratios):.2f} at least')


if __name__ == '__main__':
    main()
