#!/usr/bin/env python3
"""Instructions of `fzncheck` for each term of a step, for each rule, at 1,000 and 10,000 terms; and the same for solutions.

A case is run with one step and with several; the difference, divided by the steps and the terms, is printed for both sizes with their
ratio. A ratio near 1 is linear, one near 10 is quadratic. Instructions are counted by `valgrind --tool=callgrind`."""
import os, subprocess, sys, tempfile

HERE = os.path.dirname(os.path.abspath(__file__))
CHECK = os.path.join(HERE, '..', 'crates', 'fzncheck', 'out', 'fzncheck')
SIZES = (1_000, 10_000)
STEPS = 4


def names(n, letter='x'):
    return [f'{letter}{k}' for k in range(1, n + 1)]


def listed(items):
    return '[' + ','.join(map(str, items)) + ']'


def variables(kind, n, letter='x'):
    return ''.join(f'var {kind}: {name};\n' for name in names(n, letter))


def each(kinds, letter='x'):
    return ''.join(f'var {kind}: {name};\n' for kind, name in zip(kinds, names(len(kinds), letter)))


# A case gives the declarations, the constraint and the step for n terms.
def lin(n):
    return variables('0..1', n), f'int_lin_le({listed([1] * n)},{listed(names(n))},-1)', 'lin'


def lin_clause(n):
    return variables('bool', n), f'bool_clause({listed(names(n))},[])', 'lin ;' + ''.join(f' {k}>=1' for k in range(1, n + 1))


def rows_element(n):
    return f'var 1..{n}: i;\nvar 5..9: c;\n' + variables('0..1', n), f'array_var_int_element(i,{listed(names(n))},c)', 'rows'


def rows_maximum(n):
    return 'var 5..9: m;\n' + variables('0..1', n), f'array_int_maximum(m,{listed(names(n))})', 'rows'


def rows_table(n):
    return variables('1..5', 10), f'fzn_table_int({listed(names(10))},{listed([1, 2, 3, 4, 5, 1, 2, 3, 4, 9] * (n // 10))})', 'rows'


def rows_circuit(n):
    return each(['1..2'] * (n - 1) + [f'{n + 1}..{n + 2}']), f'fzn_circuit({listed(names(n))})', 'rows'


def rows_inverse(n):
    return each(['1..2'] * (n - 1) + [f'{n + 1}..{n + 2}']), f'fzn_inverse({listed(range(1, n + 1))},{listed(names(n))})', 'rows'


def rows_cumulative(n):
    return each(['0..1'] * (n - 1) + ['-2..-1']), f'fzn_cumulative({listed([0] * n)},{listed(names(n))},{listed([1] * n)},1)', 'rows'


def box(n):
    values = '{' + ','.join(str(3 * k) for k in range(1, n + 1)) + '}'
    return f'var {values}: a;\nvar {values}: b;\nvar 0..8: c;\n', 'int_times(a,b,c)', 'box'


def fixed(n):
    return variables('1..1', n), f'int_lin_eq({listed([1] * n)},{listed(names(n))},0)', 'fixed'


def enumerated(n):
    return each(['0..1'] * 3 + ['1..1'] * (n - 3)), f'int_lin_eq({listed([1] * n)},{listed(names(n))},0)', 'enum'


def hall(n):
    return variables(f'1..{n - 1}', n), f'fzn_all_different_int({listed(names(n))})', f'hall 1 {n - 1}'


def tasks(n):
    return variables('0..0', n), f'fzn_cumulative({listed(names(n))},{listed([1] * n)},{listed([1] * n)},{n - 1})'


def load(n):
    return *tasks(n), 'load 0'


def energy(n):
    return *tasks(n), 'energy 0 1'


def cut(n):
    half = n // 2
    kinds = [str(k % half + 1) + '..' + str(k % half + 1) for k in range(1, half + 1)] + [f'1..{n}'] * (n - half)
    return each(kinds), f'fzn_circuit({listed(names(n))})', 'cut ' + ' '.join(map(str, range(1, half + 1)))


def cut_wide(n):
    half = n // 2
    return each([f'1..{half}'] * half + [f'1..{n}'] * (n - half)), f'fzn_circuit({listed(names(n))})', 'cut ' + ' '.join(map(str, range(1, half + 1)))


def pair(n):
    f = each([f'{n}..{n}'] + [f'1..{n}'] * (n - 1))
    g = each([f'1..{n}'] * (n - 1) + [f'2..{n}'], 'y')
    return f + g, f'fzn_inverse({listed(names(n))},{listed(names(n, "y"))})', f'pair 1 {n}'


CASES = [lin, lin_clause, rows_element, rows_maximum, rows_table, rows_circuit, rows_inverse, rows_cumulative, box, fixed, enumerated,
         hall, load, energy, cut, cut_wide, pair]


# A solution's case gives the declarations, the constraint and the values for n terms.
def different(n):
    return variables(f'1..{n}', n), f'fzn_all_different_int({listed(names(n))})', range(n, 0, -1)


def table(n):
    rows = [1] * n + [2] * n
    return variables('1..2', n), f'fzn_table_int({listed(names(n))},{listed(rows)})', [2] * n


def cumulative(n):
    return variables(f'0..{n}', n), f'fzn_cumulative({listed(names(n))},{listed([2] * n)},{listed([1] * n)},2)', range(n)


def circuit(n):
    return variables(f'1..{n}', n), f'fzn_circuit({listed(names(n))})', [k % n + 1 for k in range(1, n + 1)]


def inverse(n):
    both = variables(f'1..{n}', n) + variables(f'1..{n}', n, 'y')
    return both, f'fzn_inverse({listed(names(n))},{listed(names(n, "y"))})', [n + 1 - k for k in range(1, n + 1)] * 2


def clause(n):
    return variables('bool', n), f'bool_clause({listed(names(n))},[])', [0] * (n - 1) + [1]


def total(n):
    return variables('0..1', n), f'int_lin_le({listed([1] * n)},{listed(names(n))},{n})', [1] * n


def element(n):
    return f'var 1..{n}: i;\nvar 0..1: c;\n' + variables('0..1', n), f'array_var_int_element(i,{listed(names(n))},c)', [n] + [1] * (n + 1)


def maximum(n):
    return 'var 0..1: m;\n' + variables('0..1', n), f'array_int_maximum(m,{listed(names(n))})', [1] * (n + 1)


SOLUTIONS = [total, clause, element, maximum, different, table, cumulative, circuit, inverse]


def instructions(folder, model, certificate):
    paths = []
    for name, text in (('m.fzn', model), ('c.fzc', certificate)):
        paths.append(os.path.join(folder, name))
        with open(paths[-1], 'w') as out:
            out.write(text)
    command = ['valgrind', '--tool=callgrind', '--callgrind-out-file=/dev/null', CHECK] + paths
    done = subprocess.run(command, stdout=subprocess.PIPE, stderr=subprocess.PIPE, text=True)
    if done.returncode != 0:
        sys.exit(f'refused: {done.stderr[-300:]}')
    return int(done.stderr.split('Collected :')[1].split()[0])


def certificate(model, lines, closed):
    counts = f'vars {model.count("var ")} cons 1'
    return '\n'.join(['fzc 1', counts] + lines + ['e closed' if closed else 'e open']) + '\n'


def of_rule(folder, case, n):
    declarations, constraint, step = case(n)
    model = f'{declarations}constraint {constraint};\nsolve satisfy;\n'
    line = f'i 1 {step}' if ';' in step else f'i 1 {step} ;'
    few, many = (instructions(folder, model, certificate(model, [line] * count, False)) for count in (1, 1 + STEPS))
    return (many - few) / STEPS / n


def of_solution(folder, case, n):
    declarations, constraint, values = case(n)
    model = f'var 0..{STEPS}: z;\n{declarations}constraint {constraint};\nsolve minimize z;\n'
    values = ' '.join(map(str, values))
    lines = [f's {z} {values}' for z in range(STEPS, -1, -1)]
    few, many = (instructions(folder, model, certificate(model, lines[:count], False)) for count in (1, 1 + STEPS))
    return (many - few) / STEPS / n


def main():
    only = sys.argv[1:]
    with tempfile.TemporaryDirectory() as folder:
        for title, cases, measure in (('rule', CASES, of_rule), ('solution', SOLUTIONS, of_solution)):
            print(f'{title:16}' + ''.join(f'{size:>10,}' for size in SIZES) + '     ratio   (instructions a term and step)')
            for case in cases:
                if only and case.__name__ not in only:
                    continue
                small, large = (measure(folder, case, size) for size in SIZES)
                print(f'{case.__name__:16}{small:10.1f}{large:10.1f}{large / max(small, 0.001):10.2f}', flush=True)


main()
