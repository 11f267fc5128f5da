#!/usr/bin/env python3
"""What the search does in a second of processor time, on one model of each kind.

    bench/engine.py [--seconds S] [--tune NAME=NUMBER ..] SOLVE [OTHER ..]

Kinds: clauses (pigeons in holes), sums (a packing), builtins (sums of products), tables (chained pairs). Each model is solved by the clause of the
decisions and by that of the first unique implication point, for S seconds (5) of processor time, with a certificate, and a row has what was done
in each second. With --tune, which may be given several times, each model has a further row `tuned`: by the first unique implication point with
these numbers in the place of the search's own, as `--tune decay=900 --tune first_restart=50`; their names are the fields of `Parameters` in
crates/fzn_strategy/src/parameters.rt. OTHER is another solver, with its words, for the same files: it prints conf=, dec=, inf= and t= and ends by itself; `limit` among
its words is put in for the seconds."""
import argparse
import random
import re
import resource
import subprocess
import tempfile


def var(name, low, high):
    """The declaration of a variable."""
    return f'var {low}..{high}: {name};'


def ones(count):
    """So many coefficients 1."""
    return ','.join(['1'] * count)


def clauses(count):
    """Pigeons in one hole too few, a Boolean for each pair."""
    holes = count - 1
    lines = [f'var bool: p{p}_{h};' for p in range(count) for h in range(holes)]
    lines += [f'constraint bool_clause([{",".join(f"p{p}_{h}" for h in range(holes))}],[]);' for p in range(count)]
    lines += [f'constraint bool_clause([],[p{p}_{h},p{q}_{h}]);' for h in range(holes) for p in range(count) for q in range(p)]
    return lines + ['solve satisfy;']


def sums(count):
    """Items into bins, by sums of Booleans, with a sum that is to be small."""
    draw, bins = random.Random(5), count // 3
    sizes = [draw.randint(11, 39) for _ in range(count)]
    pairs = [f'{i}_{b}' for i in range(count) for b in range(bins)]
    lines = [f'var bool: x{pair};' for pair in pairs] + [f'var 0..1: y{pair};' for pair in pairs]
    lines += [f'constraint bool2int(x{pair},y{pair});' for pair in pairs]
    for i in range(count):
        lines.append(f'constraint int_lin_eq([{ones(bins)}],[{",".join(f"y{i}_{b}" for b in range(bins))}],1);')
    for b in range(bins):
        names = ','.join(f'y{i}_{b}' for i in range(count))
        lines.append(f'constraint int_lin_le([{",".join(map(str, sizes))}],[{names}],{sum(sizes) // bins + 1});')
    costs = [draw.randint(1, 50) for _ in pairs]
    names = ','.join(f'y{pair}' for pair in pairs)
    lines += [var('cost', 0, sum(costs)), f'constraint int_lin_eq([{",".join(map(str, costs))},-1],[{names},cost],0);']
    return lines + ['solve minimize cost;']


def builtins(count):
    """Products of neighbours, all different, and how far neighbours lie apart in all, which is to be much."""
    lines = [var(f'x{i}', 1, 9) for i in range(count)] + [var(f'p{i}', 1, 81) for i in range(count)]
    lines += [var(f'd{i}', -8, 8) for i in range(count)] + [var(f'a{i}', 0, 8) for i in range(count)]
    for i in range(count):
        j = (i + 1) % count
        lines += [f'constraint int_times(x{i},x{j},p{i});', f'constraint int_lin_eq([1,-1,-1],[x{i},x{j},d{i}],0);',
                  f'constraint int_abs(d{i},a{i});']
    products = ','.join(f'p{i}' for i in range(count))
    lines += [f'constraint fzn_all_different_int([{products}]);', var('most', 0, 81), f'constraint array_int_maximum(most,[{products}]);']
    distances = ','.join(f'a{i}' for i in range(count))
    lines += [var('total', 0, 81 * count), f'constraint int_lin_eq([{ones(count)},-1],[{distances},total],0);']
    return lines + ['solve maximize total;']


def tables(count):
    """Places, each with two others a row of a random table, whose sum is to be small."""
    draw = random.Random(7)
    lines = [var(f'x{i}', 1, 12) for i in range(count)]
    for i in range(count):
        rows = sorted({(draw.randint(1, 12), draw.randint(1, 12), draw.randint(1, 12)) for _ in range(260)})
        numbers = ','.join(f'{a},{b},{c}' for a, b, c in rows)
        lines.append(f'constraint fzn_table_int([x{i},x{(i + 1) % count},x{(i + 5) % count}],[{numbers}]);')
    names = ','.join(f'x{i}' for i in range(count))
    lines += [var('total', 0, 12 * count), f'constraint int_lin_eq([{ones(count)},-1],[{names},total],0);']
    return lines + ['solve minimize total;']


def spent_in(run):
    """The processor time of the programs that a call runs, and what it gives."""
    before = resource.getrusage(resource.RUSAGE_CHILDREN).ru_utime
    done = run()
    return max(resource.getrusage(resource.RUSAGE_CHILDREN).ru_utime - before, 0.01), done


def ours(solve, words, seconds, path):
    """Seconds, conflicts, decisions and inferences of our solver."""
    def limited():
        resource.setrlimit(resource.RLIMIT_CPU, (seconds, seconds + 1))

    with tempfile.NamedTemporaryFile(suffix='.fzc') as certificate:
        command = [solve, '--progress', '--cert', certificate.name, *words, path]
        spent, done = spent_in(lambda: subprocess.run(command, stdout=subprocess.DEVNULL, stderr=subprocess.PIPE, text=True, preexec_fn=limited))
    told = re.findall(r'(\d+) nodes, (\d+) conflicts, (\d+) inferences', done.stderr)
    decisions, conflicts, inferences = map(int, told[-1]) if told else (0, 0, 0)
    return spent, conflicts, decisions, inferences


def others(words, seconds, path):
    """The same of another solver."""
    command = [word.replace('limit', f'limit={seconds}') for word in words] + [path]
    spent, done = spent_in(lambda: subprocess.run(command, capture_output=True, text=True))
    return spent, *(int((re.findall(name + r'=(\d+)', done.stdout) or ['0'])[0]) for name in ('conf', 'dec', 'inf'))


def main():
    parser = argparse.ArgumentParser(description=__doc__, formatter_class=argparse.RawDescriptionHelpFormatter)
    parser.add_argument('--seconds', type=int, default=5)
    parser.add_argument('--tune', action='append', default=[], metavar='NAME=NUMBER')
    parser.add_argument('solve')
    parser.add_argument('other', nargs=argparse.REMAINDER)
    options = parser.parse_args()
    print(f'{"model":10} {"learn":6} {"seconds":>9} {"conflicts/s":>14} {"decisions/s":>14} {"inferences/s":>14}')
    for name, lines in (('clauses', clauses(12)), ('sums', sums(21)), ('builtins', builtins(11)), ('tables', tables(30))):
        with tempfile.NamedTemporaryFile('w', suffix='.fzn') as file:
            file.write('\n'.join(sorted(lines, key=lambda line: not line.startswith('var'))) + '\n')
            file.flush()
            for learn in ('plain', 'first'):
                runs = [(learn, ours(options.solve, ['--learn', learn], options.seconds, file.name))]
                if options.tune and learn == 'first':
                    words = [word for number in options.tune for word in ('--tune', number)]
                    runs.append(('tuned', ours(options.solve, words, options.seconds, file.name)))
                if options.other:
                    runs.append(('other', others(options.other + ['uip=0'] * (learn == 'plain'), options.seconds, file.name)))
                for label, (spent, *counts) in runs:
                    print(f'{name:10} {label:6} {spent:9.2f}' + ''.join(f' {count / spent:14.0f}' for count in counts), flush=True)


if __name__ == '__main__':
    main()
