#!/usr/bin/env python3
"""What certificates hold: bench/certificates.py FILE.fzc ..

For each file: its steps by kind, its bytes, the bytes a learned clause (`r` step), how many clauses stand at once at most, and how many
`r` steps have the literals of an earlier one, seen as a set. The last line sums them up."""
import sys

def counts_of(path):
    kinds = {'i': 0, 'r': 0, 's': 0, 'd': 0}
    size = number = standing = most = again = 0
    seen = set()
    with open(path) as file:
        for line in file:
            size += len(line)
            kind = line.split(' ', 1)[0]
            if kind not in kinds:
                continue
            kinds[kind] += 1
            if kind == 'd':
                standing -= len(line.split()) - 1
                continue
            standing += 1
            most = max(most, standing)
            if kind == 'r':
                literals = frozenset(line[1:].split(';')[0].split())
                again += literals in seen
                seen.add(literals)
    return kinds, size, most, again

if len(sys.argv) < 2:
    sys.exit('bench/certificates.py FILE.fzc ..')
print('%-24s %8s %8s %5s %6s %11s %9s %9s %6s' % ('file', 'i', 'r', 's', 'd', 'bytes', 'bytes/r', 'standing', 'again'))
rates, repeats = [], 0
for path in sys.argv[1:]:
    kinds, size, most, again = counts_of(path)
    rate = size / max(kinds['r'], 1)
    rates.append(rate)
    repeats += again
    print('%-24s %8d %8d %5d %6d %11d %9.0f %9d %6d' % (path.split('/')[-1], kinds['i'], kinds['r'], kinds['s'], kinds['d'], size, rate, most, again))
print('%d files, %.0f bytes an `r` step in the mean, %d `r` steps again' % (len(rates), sum(rates) / len(rates), repeats))
