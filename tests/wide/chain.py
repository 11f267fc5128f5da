#!/usr/bin/env python3
"""A long chain of precedences: tests/wide/chain.py COUNT [--order up|down|mixed] [--goal satisfy|min-last|max-first|max-last|min-first] [--top N]

prints a model of COUNT variables over 0..N (1,000,000), each less than the next. The constraints stand from the first pair up, from the
last pair down, or in an order drawn with a fixed seed. By default the last variable is minimised."""
import argparse
import random
import sys


def chain(count, order='up', goal='min-last', top=1_000_000):
    """The lines of the model."""
    pairs = list(range(1, count))
    if order == 'down':
        pairs.reverse()
    if order == 'mixed':
        random.Random(count).shuffle(pairs)
    first, last = 'x1', f'x{count}'
    goals = {'satisfy': 'satisfy', 'min-last': f'minimize {last}', 'max-first': f'maximize {first}',
             'max-last': f'maximize {last}', 'min-first': f'minimize {first}'}
    shown = {first, last}
    for place in range(1, count + 1):
        name = f'x{place}'
        yield f'var 0..{top}: {name}{" :: output_var" if name in shown else ""};'
    for place in pairs:
        yield f'constraint int_lt(x{place},x{place + 1});'
    yield f'solve {goals[goal]};'


def main():
    words = argparse.ArgumentParser()
    words.add_argument('count', type=int)
    words.add_argument('--order', choices=['up', 'down', 'mixed'], default='up')
    words.add_argument('--goal', choices=['satisfy', 'min-last', 'max-first', 'max-last', 'min-first'], default='min-last')
    words.add_argument('--top', type=int, default=1_000_000)
    given = words.parse_args()
    for line in chain(given.count, given.order, given.goal, given.top):
        sys.stdout.write(line + '\n')


if __name__ == '__main__':
    main()
