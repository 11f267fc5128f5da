#!/usr/bin/env python3
"""Instructions of `fznsolve` for one pass of a propagator, for each name of a constraint, at 10, 100 and 1,000 places, rows or values.

A model has a search annotation and one constraint, or the same a few times. Each of its decisions wakes a propagator, which is asked
until a pass finds nothing. Each model is run with one decision and with four, and so is the same model without constraints;
what three decisions cost more with them, divided by the passes, is printed for each size, and behind it how many passes a decision leads
to: where these are two or more, a pass has its share of what the inferences cost beyond it, and where it is 0, as of a sum that has room,
the figure is what a decision costs. Constraints of Booleans of a fixed number have one size. `bool_lt` has no row: it has no choice left
before the first decision. Instructions and passes are counted by `valgrind --tool=callgrind`.

    bench/propagators.py [--solve PATH] [--sizes N,N] [KIND..]

takes the kinds that are named, or all. Each line is a row of a table."""
import argparse
import functools
import os
import re
import subprocess
import tempfile

HERE = os.path.dirname(os.path.abspath(__file__))
SOLVE = os.path.join(HERE, '..', 'crates', 'fznsolve', 'out', 'fznsolve')
SIZES = (10, 100, 1_000)
DECISIONS = 3
COPIES = 6


def names(n, letter='x'):
    return [f'{letter}{k}' for k in range(1, n + 1)]


def listed(items):
    return '[' + ','.join(map(str, items)) + ']'


def variables(kinds, letter='x'):
    return ''.join(f'var {kind}: {name};\n' for kind, name in zip(kinds, names(len(kinds), letter)))


def values(numbers):
    return '{' + ','.join(map(str, sorted(numbers))) + '}'


class Model:
    """Declarations and constraints, which variables are decided and how."""

    def __init__(self, declared, constraint, decided, choice='indomain_min', search='int_search'):
        self.declared, self.decided, self.choice, self.search = declared, decided, choice, search
        self.constraints = [constraint] if isinstance(constraint, str) else constraint

    def text(self, with_constraints):
        constraints = ''.join(f'constraint {constraint};\n' for constraint in self.constraints if with_constraints)
        return f'{self.declared}{constraints}solve :: {self.search}({listed(self.decided)}, input_order, {self.choice}) satisfy;\n'


def booleans(n, constraint, choice='indomain_min', more=''):
    xs = names(n)
    return Model(''.join(f'var bool: {x};\n' for x in xs) + more, constraint, xs, choice, 'bool_search')


def numbered(template, letters, k):
    """The template with the names of one copy's variables: x3 for {x} in the third."""
    for letter in letters:
        template = template.replace('{' + letter + '}', f'{letter}{k}')
    return template


def copies(kinds, constraint, choice='indomain_min'):
    """The same constraint a few times, each on variables of its own, named in order x, y, z; each decision fixes the first of one of them."""
    numbers = range(1, COPIES + 1)
    letters = 'xyz'[:len(kinds)]
    declared = ''.join(f'var {kind}: {letter}{k};\n' for k in numbers for kind, letter in zip(kinds, letters))
    constraints = [numbered(constraint, letters, k) for k in numbers]
    search = 'bool_search' if kinds[0] == 'bool' else 'int_search'
    return Model(declared, constraints, [f'x{k}' for k in numbers], choice, search)


def lin_le(n):
    return Model(variables(['0..9'] * n), f'int_lin_le({listed([-1] * n)},{listed(names(n))},-1)', names(n))


def lin_eq(n):
    return Model(variables(['0..9'] * n), f'int_lin_eq({listed([1] * n)},{listed(names(n))},9)', names(n))


def lin_ne(n):
    return Model(variables(['0..9'] * n), f'int_lin_ne({listed([1] * n)},{listed(names(n))},9)', names(n))


def lin_le_reif(n):
    return Model('var bool: r;\n' + variables(['0..9'] * n), f'int_lin_le_reif({listed([1] * n)},{listed(names(n))},9,r)', names(n))


def lin_eq_reif(n):
    return Model('var bool: r;\n' + variables(['0..9'] * n), f'int_lin_eq_reif({listed([1] * n)},{listed(names(n))},9,r)', names(n))


def lin_ne_reif(n):
    return Model('var bool: r;\n' + variables(['0..9'] * n), f'int_lin_ne_reif({listed([1] * n)},{listed(names(n))},9,r)', names(n))


def bool_lin_eq(n):
    return booleans(n, f'bool_lin_eq({listed([1] * n)},{listed(names(n))},c)', more=f'var 1..{n}: c;\n')


def bool_lin_le(n):
    return booleans(n, f'bool_lin_le({listed([-1] * n)},{listed(names(n))},-1)')


def clause(n):
    return booleans(n, f'bool_clause({listed(names(n))},[])')


def array_bool_and(n):
    return booleans(n, f'array_bool_and({listed(names(n))},r)', 'indomain_max', 'var bool: r;\n')


def array_bool_or(n):
    return booleans(n, f'array_bool_or({listed(names(n))},r)', 'indomain_min', 'var bool: r;\n')


def xor(n):
    return booleans(n, f'array_bool_xor({listed(names(n))})')


def maximum(n):
    return Model('var 0..9: m;\n' + variables(['0..9'] * n), f'array_int_maximum(m,{listed(names(n))})', names(n))


def minimum(n):
    return Model('var 0..9: m;\n' + variables(['0..9'] * n), f'array_int_minimum(m,{listed(names(n))})', names(n), 'indomain_max')


def element(n):
    return Model(f'var 1..{n}: i;\nvar 0..9: c;\n' + variables(['0..9'] * n), f'array_var_int_element(i,{listed(names(n))},c)', names(n))


def bool_element(n):
    return booleans(n, f'array_var_bool_element(i,{listed(names(n))},c)', more=f'var 1..{n}: i;\nvar bool: c;\n')


def constant_element(n):
    return copies([f'1..{n}', f'1..{n}'], f'array_int_element({{x}},{listed(range(1, n + 1))},{{y}})')


def constant_bool_element(n):
    entries = ['true' if k % 2 else 'false' for k in range(n)]
    return copies([f'1..{n}', 'bool'], f'array_bool_element({{x}},{listed(entries)},{{y}})')


def all_different(n):
    return Model(variables([f'{k}..{k + n}' for k in range(1, n + 1)]), f'fzn_all_different_int({listed(names(n))})', names(n))


def all_different_narrow(n):
    """Four values for each place, so that full intervals are looked for."""
    return Model(variables([f'{k}..{k + 3}' for k in range(1, n + 1)]), f'fzn_all_different_int({listed(names(n))})', names(n))


def table(places, rows):
    """Each decision rules out one row, and leaves support to all other values."""
    entries = [[1 if row == k else 0 for k in range(6)] + [row % 2] * (places - 6) for row in range(rows)]
    return Model(variables(['0..1'] * places), f'fzn_table_int({listed(names(places))},{listed(sum(entries, []))})', names(6))


def table_places(n):
    return table(n, 10)


def table_rows(n):
    return table(10, n)


def inverse(n):
    """By two and two: each decision fixes the other three of its four places."""
    kinds = [f'{k - (k + 1) % 2}..{k + k % 2}' for k in range(1, n + 1)]
    return Model(variables(kinds) + variables(kinds, 'y'), f'fzn_inverse({listed(names(n))},{listed(names(n, "y"))})', names(n)[::2])


def cumulative(n):
    """Tasks of use 1, of which four never reach the capacity."""
    declared = variables([f'0..{10 * n}'] * n)
    return Model(declared, f'fzn_cumulative({listed(names(n))},{listed([2] * n)},{listed([1] * n)},8)', names(n))


def cumulative_parts(n):
    """Tasks one behind the other, each of which surely runs for a part of its time."""
    kinds = [f'{8 * k}..{8 * k + 3}' for k in range(n)]
    return Model(variables(kinds), f'fzn_cumulative({listed(names(n))},{listed([6] * n)},{listed([2] * n)},4)', names(n))


def cumulative_energy(n):
    """Tasks of which no part surely runs, in windows that nest: all of them together just fit."""
    kinds = [f'{n - k}..{n + k + 1}' for k in range(1, n + 1)]
    return Model(variables(kinds), f'fzn_cumulative({listed(names(n))},{listed([2] * n)},{listed([1] * n)},4)', names(n)[::-1])


def circuit(n):
    """Two successors for each place; the decided ones lead where nobody else does."""
    kinds = [values((k + step - 1) % n + 1 for step in ((1, 2) if k % 2 else (1, 3))) for k in range(1, n + 1)]
    return Model(variables(kinds), f'fzn_circuit({listed(names(n))})', names(n)[2:-1:2] if n > 20 else names(n)[:-1:2])


def circuit_dense(n):
    """Half of the places may follow any; each of the others follows one place alone. That one may not lead back then."""
    half = n // 2
    common = range(1, half + 1)
    kinds = [values([*common, half + k] if k <= half else common) for k in range(1, n + 1)]
    return Model(variables(kinds), f'fzn_circuit({listed(names(n))})', names(n)[:half], 'indomain_max')


# Kinds of so many terms, by the sizes of their sets; those of Booleans alone have one size.
def pairs(name, choice='indomain_min', above=0):
    return lambda n: copies([f'1..{n}', f'{1 + above}..{n + above}'], name + '({x},{y})', choice)


def reified(name, choice='indomain_min'):
    return lambda n: copies([f'1..{n}', f'1..{n}', 'bool'], name + '({x},{y},{z})', choice)


def triples(name, first, second, third, choice='indomain_min'):
    return lambda n: copies([kind(n) for kind in (first, second, third)], name + '({x},{y},{z})', choice)


def from_one(n):
    return f'1..{n}'


def some_values(n):
    return values(range(2, 2 * n + 1, 2))


def switches(name, count):
    return lambda n: copies(['bool'] * count, name + '({x},{y},{z})' if count == 3 else name + '({x},{y})')


KINDS = {
    'int_eq': pairs('int_eq'),
    'int_ne': pairs('int_ne'),
    'int_le': pairs('int_le', 'indomain_max'),
    'int_lt': pairs('int_lt', 'indomain_max', 1),
    'int_eq_reif': reified('int_eq_reif'),
    'int_ne_reif': reified('int_ne_reif'),
    'int_le_reif': reified('int_le_reif', 'indomain_max'),
    'int_lt_reif': reified('int_lt_reif', 'indomain_max'),
    'int_plus': triples('int_plus', from_one, from_one, lambda n: f'2..{2 * n}'),
    'int_times': triples('int_times', from_one, from_one, lambda n: f'1..{n * n}', 'indomain_max'),
    'int_div': triples('int_div', from_one, lambda n: '2..3', lambda n: f'0..{n}'),
    'int_mod': triples('int_mod', from_one, lambda n: '2..3', lambda n: '0..2'),
    'int_min': triples('int_min', from_one, from_one, from_one, 'indomain_max'),
    'int_max': triples('int_max', from_one, from_one, from_one),
    'int_abs': lambda n: copies([f'-{n}..{n}', f'0..{n}'], 'int_abs({x},{y})'),
    'set_in': lambda n: copies([f'1..{2 * n}'], f'set_in({{x}},{some_values(n)})'),
    'set_in_reif': lambda n: copies([f'1..{2 * n}', 'bool'], f'set_in_reif({{x}},{some_values(n)},{{y}})'),
    'array_int_element': constant_element,
    'array_bool_element': constant_bool_element,
    'bool2int': lambda n: copies(['bool', '0..1'], 'bool2int({x},{y})'),
    'bool_eq': switches('bool_eq', 2),
    'bool_le': lambda n: copies(['bool', 'bool'], 'bool_le({x},{y})', 'indomain_max'),
    'bool_not': switches('bool_not', 2),
    'bool_and': switches('bool_and', 3),
    'bool_or': switches('bool_or', 3),
    'bool_xor': switches('bool_xor', 3),
    'bool_eq_reif': switches('bool_eq_reif', 3),
    'bool_le_reif': switches('bool_le_reif', 3),
    'bool_lt_reif': switches('bool_lt_reif', 3),
    'int_lin_le': lin_le,
    'int_lin_eq': lin_eq,
    'int_lin_ne': lin_ne,
    'int_lin_le_reif': lin_le_reif,
    'int_lin_eq_reif': lin_eq_reif,
    'int_lin_ne_reif': lin_ne_reif,
    'bool_lin_eq': bool_lin_eq,
    'bool_lin_le': bool_lin_le,
    'bool_clause': clause,
    'array_bool_and': array_bool_and,
    'array_bool_or': array_bool_or,
    'array_bool_xor': xor,
    'array_int_maximum': maximum,
    'array_int_minimum': minimum,
    'array_var_int_element': element,
    'array_var_bool_element': bool_element,
    'fzn_all_different_int': all_different,
    'fzn_all_different_int, 4 values each': all_different_narrow,
    'fzn_table_int, 10 rows': table_places,
    'fzn_table_int, 10 places, by rows': table_rows,
    'fzn_inverse': inverse,
    'fzn_cumulative': cumulative,
    'fzn_cumulative, parts that surely run': cumulative_parts,
    'fzn_cumulative, none that surely runs': cumulative_energy,
    'fzn_circuit, 2 successors each': circuit,
    'fzn_circuit, half of all': circuit_dense,
}


def asks(name):
    """Whether a function asks a propagator of one kind or of another."""
    return 'EitherPropagator::propagate' in name


def passes(profile):
    """How often a propagator was asked: the calls of the function that asks one of any kind, but for those of itself for fewer kinds."""
    count, names, caller, called = 0, {}, '', ''
    with open(profile) as lines:
        for line in lines:
            found = re.match(r'(c?fn)=\((\d+)\)(?: (.*))?', line)
            if found:
                if found[3]:
                    names[found[2]] = found[3]
                if found[1] == 'cfn':
                    called = names[found[2]]
                else:
                    caller = names[found[2]]
            elif line.startswith('calls=') and asks(called) and not asks(caller):
                count += int(line[len('calls='):].split()[0])
    return count


@functools.lru_cache(maxsize=None)
def run(solve, text, nodes):
    """The instructions and passes of one run."""
    with tempfile.TemporaryDirectory() as folder:
        path, profile = os.path.join(folder, 'm.fzn'), os.path.join(folder, 'callgrind')
        with open(path, 'w') as file:
            file.write(text)
        command = ['valgrind', '--tool=callgrind', f'--callgrind-out-file={profile}', solve, '--nodes', str(nodes), path]
        done = subprocess.run(command, capture_output=True, text=True)
        if done.returncode:
            raise SystemExit(f'fznsolve ends with status {done.returncode}: {done.stderr.strip()[-200:]}')
        if '=====UNKNOWN=====' not in done.stdout:
            raise SystemExit(f'fznsolve ends before the limit of {nodes}: {done.stdout[-200:]}')
        return int(done.stderr.split('Collected :')[1].split()[0]), passes(profile)


def each_pass(solve, model):
    """Instructions for each pass that three decisions lead to, or for each of these where none is made, and how many passes one of them does."""
    (more, many), (less, few) = [run(solve, model.text(True), nodes) for nodes in (1 + DECISIONS, 1)]
    plain = run(solve, model.text(False), 1 + DECISIONS)[0] - run(solve, model.text(False), 1)[0]
    return (more - less - plain) / ((many - few) or DECISIONS), (many - few) / DECISIONS


def main():
    parser = argparse.ArgumentParser(usage='bench/propagators.py [--solve PATH] [--sizes N,N] [KIND..]')
    parser.add_argument('--solve', default=SOLVE)
    parser.add_argument('--sizes', default=','.join(map(str, SIZES)))
    parser.add_argument('kinds', nargs='*')
    words = parser.parse_args()
    sizes = [int(size) for size in words.sizes.split(',')]
    for name, model in KINDS.items():
        if words.kinds and not any(kind in name for kind in words.kinds):
            continue
        costs = [each_pass(words.solve, model(n)) for n in (sizes if model(10).text(True) != model(20).text(True) else sizes[:1])]
        shown = ' | '.join(f'{cost:,.0f}' for cost, _ in costs)
        print(f'| `{name}` | {shown} | {costs[-1][1]:.0f} |', flush=True)


main()
