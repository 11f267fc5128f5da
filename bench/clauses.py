#!/usr/bin/env python3
"""Files of clauses alone, beside a solver of clauses: bench/clauses.py SOLVE SAT [SECONDS [WORD ..]]

Each file is made twice with the same clauses, once as FlatZinc for SOLVE and once as DIMACS for SAT (minisat): pigeons that are one too
many for their holes, parities along the lines of a graph that contradict each other, random clauses of three literals, and at last a long file of random
clauses that have a solution. Each program gets so many seconds of processor time a file (60), SOLVE with a certificate and with the
WORDs. A line has both times, SOLVE's conflicts, and the ratio of the times; the geometric mean is over the files but the last, where both
ended. Where the two answer differently, it says so and ends with status 1.
"""
import math
import os
import random
import re
import resource
import subprocess
import sys
import tempfile


def pigeons(n):
    var = lambda p, h: p * (n - 1) + h + 1
    clauses = [[var(p, h) for h in range(n - 1)] for p in range(n)]
    for h in range(n - 1):
        clauses += [[-var(p, h), -var(q, h)] for p in range(n) for q in range(p)]
    return n * (n - 1), clauses


def parity(n, seed):
    """n points, each with four of the 2n lines between them: an even number of a point's lines is 1, but at one point an odd one."""
    draw = random.Random(seed)
    lines = [[] for _ in range(n)]
    var = 0
    for _ in range(2):
        ring = draw.sample(range(n), n)
        for k in range(n):
            var += 1
            lines[ring[k]].append(var)
            lines[ring[k - 1]].append(var)
    clauses = []
    for point in range(n):
        for signs in range(16):
            if bin(signs).count('1') % 2 != (point == 0):
                clauses.append([-v if signs >> k & 1 else v for k, v in enumerate(lines[point])])
    return 2 * n, clauses


def scattered(n, count, seed):
    draw = random.Random(seed)
    return n, [[draw.choice((-1, 1)) * v for v in draw.sample(range(1, n + 1), 3)] for _ in range(count)]


FILES = [
    ('pigeons 8', pigeons(8)),
    ('pigeons 9', pigeons(9)),
    ('parity, 16', parity(16, 2)),
    ('parity, 18', parity(18, 1)),
    ('random, 150', scattered(150, 645, 3)),
    ('random, 200', scattered(200, 860, 4)),
    ('random, 1,000', scattered(1000, 3500, 3)),
]


def flatzinc(count, clauses):
    lines = ['var bool: x%d;' % v for v in range(1, count + 1)]
    for clause in clauses:
        both = ['[%s]' % ','.join('x%d' % abs(lit) for lit in clause if (lit > 0) == sign) for sign in (True, False)]
        lines.append('constraint bool_clause(%s,%s);' % tuple(both))
    return '\n'.join(lines + ['solve satisfy;', ''])


def dimacs(count, clauses):
    lines = ['p cnf %d %d' % (count, len(clauses))]
    return '\n'.join(lines + [' '.join(map(str, clause + [0])) for clause in clauses] + [''])


def timed(words, seconds):
    """The processor time, and what was printed on both streams."""
    limit = lambda: resource.setrlimit(resource.RLIMIT_CPU, (seconds, seconds))
    before = resource.getrusage(resource.RUSAGE_CHILDREN).ru_utime
    ran = subprocess.run(words, capture_output=True, text=True, preexec_fn=limit)
    return resource.getrusage(resource.RUSAGE_CHILDREN).ru_utime - before, ran.stdout + ran.stderr


def answer(text):
    if re.search(r'UNSATISFIABLE', text):
        return 'no'
    return 'yes' if re.search(r'^----------$|^SATISFIABLE', text, re.M) else 'open'


def main():
    if len(sys.argv) < 3:
        sys.exit(__doc__)
    solve, sat = sys.argv[1:3]
    seconds = int(sys.argv[3]) if len(sys.argv) > 3 else 60
    words = sys.argv[4:]
    ratios = []
    print('%-14s %9s %9s %10s %6s' % ('', 'SOLVE, s', 'SAT, s', 'conflicts', 'ratio'))
    with tempfile.TemporaryDirectory() as folder:
        model, twin, cert = (os.path.join(folder, name) for name in ('m.fzn', 'm.cnf', 'm.fzc'))
        for name, (count, clauses) in FILES:
            with open(model, 'w') as it:
                it.write(flatzinc(count, clauses))
            with open(twin, 'w') as it:
                it.write(dimacs(count, clauses))
            ours, said = timed([solve, '--progress', '--cert', cert, *words, model], seconds)
            theirs, told = timed([sat, twin], seconds)
            conflicts = re.findall(r'(\d+) conflicts', said)
            ratio = max(ours, 0.01) / max(theirs, 0.01)
            answers = answer(said), answer(told)
            print('%-14s %9.2f %9.2f %10s %6.1f %s' % (name, ours, theirs, conflicts[-1] if conflicts else '', ratio, ' '.join(answers)), flush=True)
            if 'open' not in answers:
                if answers[0] != answers[1]:
                    sys.exit('the answers differ')
                ratios.append(ratio)
    if len(ratios) > 1:
        print('geometric mean of the first %d: %.2f' % (len(ratios) - 1, math.exp(sum(map(math.log, ratios[:-1])) / (len(ratios) - 1))))


main()
