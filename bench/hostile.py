#!/usr/bin/env python3
"""Time and memory of `fzncheck` on certificates that are hostile by their size, at one size after another.

    bench/hostile.py [--check PATH] [--most N] [NAME..]

runs the kinds below whose names begin with one of the names, or all, at sizes up to N million steps (10). Each certificate is accepted, and
has no more than its steps: the answer is open. What it takes has to grow with the bytes: the last two columns are the seconds of processor
time for each million of bytes, and the bytes of memory for each byte, beyond what an empty certificate takes."""
import argparse
import os
import tempfile

HERE = os.path.dirname(os.path.abspath(__file__))
CHECK = os.path.join(HERE, '..', 'crates', 'fzncheck', 'out', 'fzncheck')
CONSTRAINTS = 'constraint bool_clause([z1,z2],[]);\nconstraint bool_clause([],[z1]);\n'
LINE = 4_194_304
MILLION = 1_000_000


def model(variables):
    """Two constraints on two Booleans, and other Booleans beside them."""
    return ''.join(f'var bool: z{k + 1};\n' for k in range(variables)) + CONSTRAINTS + 'solve satisfy;\n'


def filled(start, unit):
    """A line of the greatest length, as near as whole units come."""
    return start + unit * ((LINE - len(start)) // len(unit)) + '\n'


def literal_lines(size):
    """Clauses of 838,857 literals each, a line of them the longest there may be."""
    for _ in range(size):
        yield filled('i 2 lin ;', ' 1<=0')


def id_lines(size):
    """Chains of 2,097,148 ids each."""
    yield 'i 2 lin ; 1<=0\n'
    for _ in range(size):
        yield filled('r 1<=0 ;', ' 1')


def deletions(size):
    """A hundred thousand clauses of one literal, and one step that deletes them all, again and again."""
    for number in range(size):
        first = number * 100_001
        yield 'i 2 lin ; 1<=0\n' * 100_000
        yield 'd' + ''.join(f' {first + k + 1}' for k in range(100_000)) + '\n'


def steps(size):
    """Clauses of one literal, all of them held to the end."""
    for _ in range(size):
        yield 'i 2 lin ; 1<=0\n' * MILLION


def deleted_steps(size):
    """The same, each deleted at once."""
    for number in range(size):
        first = number * MILLION
        yield ''.join(f'i 2 lin ; 1<=0\nd {first + k}\n' for k in range(1, MILLION, 2))


def unused(size):
    """Clauses of three literals on 1,000 variables, which no later step cites, and then 100,000 steps that cite the first two."""
    yield 'i 2 lin ; 1<=0\ni 1 lin ; 1>=1 2>=1\n'
    for number in range(size):
        places = [1 + (number * MILLION + k) * 7919 % 998 for k in range(0, MILLION)]
        yield ''.join(f'i 2 lin ; 1<=0 {k + 1}>=1 {k + 2}<=0\n' for k in places)
    yield 'r 2>=1 ; 1 2\n' * 100_000


# By kind: the variables of the model, the sizes as parts of the most, and the lines.
KINDS = {
    'lines of literals': (2, (1, 2, 4, 8), literal_lines),
    'lines of ids': (2, (1, 2, 4, 8), id_lines),
    'deletions of 100,000': (2, (1, 2, 4, 8), deletions),
    'steps': (2, None, steps),
    'steps, each deleted': (2, None, deleted_steps),
    'unused clauses': (1000, (0, 1, 2, 4), unused),
}


def run(check, folder):
    """Processor seconds and bytes of memory of a check, which has to accept."""
    words = [check, os.path.join(folder, 'm.fzn'), os.path.join(folder, 'c.fzc')]
    out = os.path.join(folder, 'out')
    to_file = (os.POSIX_SPAWN_OPEN, 1, out, os.O_WRONLY | os.O_CREAT | os.O_TRUNC, 0o600)
    process = os.posix_spawn(check, words, os.environ, file_actions=[to_file])
    _, status, usage = os.wait4(process, 0)
    if status != 0:
        raise SystemExit(f'fzncheck ends with status {os.waitstatus_to_exitcode(status)}')
    return usage.ru_utime + usage.ru_stime, usage.ru_maxrss * 1024


def write(folder, variables, lines):
    """Writes a certificate of version 2 and says how many bytes it has."""
    path = os.path.join(folder, 'c.fzc')
    with open(path, 'w') as file:
        file.write(f'fzc 2\nvars {variables} cons 2\n')
        for text in lines:
            file.write(text)
        file.write('e open\n')
    return os.path.getsize(path)


def main():
    parser = argparse.ArgumentParser(usage='bench/hostile.py [--check PATH] [--most N] [NAME..]')
    parser.add_argument('--check', default=CHECK)
    parser.add_argument('--most', type=int, default=10)
    parser.add_argument('names', nargs='*')
    words = parser.parse_args()
    print('| Certificate | Size | Bytes | Seconds | MB | Seconds a million bytes | Bytes a byte |')
    print('|---|---|---|---|---|---|---|')
    with tempfile.TemporaryDirectory() as folder:
        for name, (variables, sizes, lines) in KINDS.items():
            if not name.startswith(tuple(words.names) or ''):
                continue
            with open(os.path.join(folder, 'm.fzn'), 'w') as file:
                file.write(model(variables))
            write(folder, variables, [])
            least = run(words.check, folder)
            for size in sizes or sorted({1, max(1, words.most // 4), max(1, words.most // 2), words.most}):
                count = write(folder, variables, lines(size))
                seconds, memory = run(words.check, folder)
                rates = (seconds - least[0]) / count * MILLION, (memory - least[1]) / count
                print(f'| {name} | {size} | {count:,} | {seconds:.2f} | {memory / MILLION:,.0f} | {rates[0]:.3f} | {rates[1]:.1f} |', flush=True)


if __name__ == '__main__':
    main()
