"""Small models that are drawn, the same in each run: one predicate of the library each, over domains, constants and lengths of all kinds.

fzn-gecode takes them with MiniZinc's own decompositions, and has to find the same solutions. Some have wide domains or many places, of which the
rest of the constraint leaves a few: there the library says the predicate in other words than where the file is short. The rest stands behind it
in one item, since the compiler looks at an item that is about single variables before the others."""
import random

SEED, COUNT, FEWER = 5, 4, 2
LARGE = ('wide', 'many')
END = 'solve satisfy;\n'


class Draw:
    """Draws models; each method `of_..` gives the text of one."""

    def __init__(self, seed):
        self.random = random.Random(seed)

    def domain(self, least, greatest, fewest=1):
        """A set of numbers, at most four of them, as MiniZinc writes it."""
        values = sorted(self.random.sample(range(least, greatest + 1), self.random.randint(fewest, min(4, greatest - least + 1))))
        return f'{values[0]}..{values[-1]}' if self.random.random() < 0.5 else '{%s}' % ', '.join(map(str, values))

    def numbers(self, count, least, greatest):
        return [self.random.randint(least, greatest) for _ in range(count)]

    def variables(self, name, count, least, greatest):
        """The declarations of variables with domains of their own, and the text of their list. Now and then one is a constant."""
        names, text = [], ''
        for k in range(1, count + 1):
            if self.random.random() < 0.15:
                names.append(str(self.random.randint(least, greatest)))
            else:
                names.append(f'{name}{k}')
                text += f'var {self.domain(least, greatest)}: {name}{k};\n'
        return text, f'[{", ".join(names)}]'

    def stated(self, call, rest=''):
        """A predicate as a constraint, or within a formula, and the rest of the constraint."""
        way = self.random.choice(['%s', '%s', 'r <-> %s', 'r -> %s', 'r \\/ not %s'])
        return ('var bool: r;\n' if 'r ' in way else '') + f'constraint ({way % call}){rest};\n'

    def beside(self, values, first):
        """A list with an index set that begins with a number."""
        return f'array1d({first}..{first + len(values) - 1}, {values})'

    def of_bin_packing(self):
        count = self.random.randint(1, 4)
        text, bins = self.variables('b', count, -1, 3)
        return f'include "bin_packing.mzn";\n{text}' + self.stated(f'bin_packing({self.random.randint(0, 8)}, {bins}, {self.numbers(count, 0, 5)})')

    def of_bin_packing_of_any_weights(self):
        count = self.random.randint(1, 4)
        text, bins = self.variables('b', count, 0, 2)
        return f'include "bin_packing.mzn";\n{text}constraint fzn_bin_packing({self.random.randint(-2, 5)}, {bins}, {self.numbers(count, -3, 5)});\n'

    def of_bin_packing_capa(self):
        count = self.random.randint(1, 4)
        text, bins = self.variables('b', count, 0, 4)
        capacities = self.beside(self.numbers(self.random.randint(1, 3), 0, 8), self.random.randint(0, 2))
        return f'include "bin_packing_capa.mzn";\n{text}' + self.stated(f'bin_packing_capa({capacities}, {bins}, {self.numbers(count, 0, 5)})')

    def of_bin_packing_capa_of_any_weights(self):
        count = self.random.randint(1, 4)
        text, bins = self.variables('b', count, 0, 4)
        capacities = self.beside(self.numbers(self.random.randint(1, 3), -2, 6), self.random.randint(0, 2))
        return f'include "bin_packing_capa.mzn";\n{text}constraint fzn_bin_packing_capa({capacities}, {bins}, {self.numbers(count, -3, 5)});\n'

    def of_bin_packing_load(self):
        count, bins = self.random.randint(1, 4), self.random.randint(1, 3)
        text, items = self.variables('b', count, 0, 3)
        first = self.random.randint(0, 2)
        text += ''.join(f'var {self.random.randint(-2, 3)}..{self.random.randint(3, 9)}: l{k};\n' for k in range(bins))
        loads = f'array1d({first}..{first + bins - 1}, [{", ".join(f"l{k}" for k in range(bins))}])'
        least = self.random.choice([0, 0, 0, -3])
        call, weights = 'fzn_bin_packing_load' if least else 'bin_packing_load', self.numbers(count, least, 5)
        call = f'{call}({loads}, {items}, {weights})'
        return f'include "bin_packing_load.mzn";\n{text}' + (f'constraint {call};\n' if least else self.stated(call))

    def of_lex(self):
        """The compiler fails at `r <-> lex_less(x, y)` over constants, whatever the library."""
        least = self.random.randint(-1, 1)
        greatest = least + self.random.choice([1, 1, 2])
        lengths = [self.random.randint(1, 4) for _ in range(2)]
        text = ''.join(f'var {self.domain(least, greatest, 2)}: {name}{k};\n' for name, length in zip('xy', lengths) for k in range(length))
        x, y = (f'[{", ".join(f"{name}{k}" for k in range(length))}]' for name, length in zip('xy', lengths))
        call = self.random.choice(['lex_less', 'lex_lesseq'])
        return f'include "{call}.mzn";\n{text}' + self.stated(f'{call}({x}, {y})')

    def of_lex_of_booleans(self):
        call, x, y = self.random.choice(['lex_less', 'lex_lesseq']), self.random.randint(1, 4), self.random.randint(1, 4)
        return (f'include "{call}.mzn";\narray[1..{x}] of var bool: x;\narray[1..{y}] of var bool: y;\n' +
                self.stated(f'{call}(x, y)'))

    def of_lex2(self):
        rows, columns = self.random.randint(1, 3), self.random.randint(1, 3)
        return f'include "lex2.mzn";\narray[1..{rows}, 1..{columns}] of var 0..1: x;\nconstraint lex2(x);\n'

    def in_other_words(self, begin, call, same, rest=''):
        """A model with a predicate, and behind it the same with a formula in its place, since MiniZinc has no word for it in a formula."""
        stated = self.stated('%s', rest)
        return begin + stated.replace('%s', call), begin + stated.replace('%s', same)

    def of_value_precede(self):
        text, x = self.variables('x', self.random.randint(1, 4), 0, 3)
        s, t = self.numbers(2, 0, 3)
        return self.in_other_words(f'include "value_precede.mzn";\n{text}', f'value_precede({s}, {t}, {x})', before(s, t, x))

    def of_value_precede_chain(self):
        text, x = self.variables('x', self.random.randint(1, 4), 0, 4)
        chain = self.random.sample(range(0, 5), self.random.randint(1, 4))
        same = ' /\\ '.join(['true'] + [before(s, t, x) for s, t in zip(chain, chain[1:])])
        return self.in_other_words(f'include "value_precede_chain.mzn";\n{text}', f'value_precede_chain({chain}, {x})', f'({same})')

    def of_alldifferent_except(self):
        text, x = self.variables('x', self.random.randint(1, 4), 0, 4)
        call = self.random.choice(['alldifferent_except_0(%s)', 'alldifferent_except(%s, {1, 2})', 'alldifferent_except(%s, {0, 3, 4})'])
        return f'include "alldifferent_except.mzn"; include "alldifferent_except_0.mzn";\n{text}' + self.stated(call % x)

    def of_sliding_sum(self):
        count = self.random.randint(1, 5)
        text, x = self.variables('x', count, -1, 2)
        low = self.random.randint(-2, 2)
        call = f'sliding_sum({low}, {low + self.random.randint(0, 3)}, {self.random.randint(1, count)}, {x})'
        return f'include "sliding_sum.mzn";\n{text}constraint {call};\n'

    def of_disjunctive(self):
        count = self.random.randint(2, 3)
        starts, s = self.variables('s', count, 0, 4)
        lengths, d = self.variables('d', count, 0, 2)
        call = self.random.choice(['disjunctive', 'disjunctive_strict'])
        return f'include "{call}.mzn";\n{starts}{lengths}constraint {call}({s}, {d});\n'

    def of_counts(self):
        """Counts of values: of one value, which may be variable, of a set, and of a list."""
        count = self.random.randint(1, 4)
        text, x = self.variables('x', count, 0, 3)
        counts, c = self.variables('c', 2, 0, count)
        values, y = self.variables('y', 2, -1, 4)
        call = self.random.choice([f'count({x}, {self.random.randint(-1, 4)}, {c}[1])', f'count({x}, {y}[2], {c}[1])', f'among({c}[2], {x}, {{1, 3, 5}})',
                                   f'distribute({c}, {y}, {x})', f'distribute({c}, {self.random.sample(range(-1, 5), 2)}, {x})'])
        return f'include "count.mzn"; include "among.mzn"; include "distribute.mzn";\n{text}{counts}{values}' + self.stated(call)

    def of_global_cardinality(self):
        count, many = self.random.randint(1, 4), self.random.randint(1, 4)
        text, x = self.variables('x', count, 0, 4)
        counts, c = self.variables('c', many, -1, count)
        cover = self.random.sample(range(0, 6), many) if self.random.random() < 0.7 else self.numbers(many, 0, 4)
        low = self.numbers(many, -1, 1)
        call = self.random.choice([f'global_cardinality({x}, {cover}, {c})', f'global_cardinality_closed({x}, {cover}, {c})'] + [
            f'global_cardinality_low_up{closed}({x}, {cover}, {low}, {[a + self.random.randint(0, 3) for a in low]})' for closed in ('', '_closed')])
        return f'include "{call.partition("(")[0]}.mzn";\n{text}{counts}' + self.stated(call)

    def of_nvalue(self):
        text, x = self.variables('x', self.random.randint(1, 4), 0, 4)
        number, n = self.variables('n', 1, 0, 4)
        far = self.random.choice(['v', '500 * v', '2000 * v'])
        return f'include "nvalue.mzn";\n{number}{text}' + self.stated(f'nvalue({n}[1], [ {far} | v in {x} ])')

    def of_diffn(self):
        count, call = self.random.randint(2, 3), self.random.choice(['diffn', 'diffn_nonstrict'])
        drawn = [self.variables(name, count, 0, most) for name, most in (('x', 3), ('y', 2), ('w', 2), ('h', 2))]
        return f'include "{call}.mzn";\n' + ''.join(text for text, _ in drawn) + self.stated(f'{call}({", ".join(list_ for _, list_ in drawn)})')

    def of_diffn_k(self):
        sides, call = self.random.randint(1, 3), self.random.choice(['diffn_k', 'diffn_nonstrict_k'])
        places, p = self.variables('p', 2 * sides, 0, 2)
        sizes, s = self.variables('s', 2 * sides, 0, 2) if self.random.random() < 0.5 else ('', str(self.numbers(2 * sides, 0, 2)))
        boxes = ', '.join(f'array2d(1..2, 1..{sides}, {entries})' for entries in (p, s))
        return f'include "{call}.mzn";\n{places}{sizes}' + self.stated(f'{call}({boxes})')

    def of_wide_bin_packing(self):
        weights, capacity = self.numbers(3, 1, 5), self.random.randint(4, 9)
        return (f'include "bin_packing.mzn";\narray[1..3] of var 1..7000: b;\nconstraint bin_packing({capacity}, b, {weights}) /\\ '
                'forall (v in b) (v in {1, 4000, 7000});\n')

    def of_wide_bin_packing_capa(self):
        weights, capacities = self.numbers(3, 1, 5), self.numbers(3, 0, 9)
        listed = f'[ if k = 2 then {capacities[0]} elseif k = 7000 then {capacities[1]} else {capacities[2]} endif | k in 1..7000 ]'
        return (f'include "bin_packing_capa.mzn";\narray[1..3] of var 0..7001: b;\nconstraint bin_packing_capa({listed}, b, {weights}) /\\ '
                'forall (v in b) (v in {0, 2, 4000, 7000});\n')

    def of_wide_bin_packing_load(self):
        weights, most = self.numbers(30, 0, 2), self.random.randint(18, 24)
        return (f'include "bin_packing_load.mzn";\narray[1..30] of var 1..700: b;\narray[1..700] of var 0..{most}: l;\n'
                f'constraint bin_packing_load(l, b, {weights}) /\\ '
                'forall (i in 1..27) (b[i] = 1 + 349 * (i mod 2)) /\\ forall (i in 28..30) (b[i] in {1, 350, 700});\n')

    def of_wide_alldifferent_except(self):
        return ('include "alldifferent_except.mzn";\narray[1..3] of var 0..20000: x;\n'
                f'constraint alldifferent_except(x, {self.random.choice(["{0}", "{5, 20000}", "{0, 5}"])}) /\\ '
                'forall (v in x) (v in {0, 5, 20000});\n')

    def of_wide_global_cardinality(self):
        """Places 4 to 60 have values of their own, 40 to 600, and the first three 1 to 3, or, where the cover ends before, 998 too."""
        call, last = self.random.choice([('global_cardinality', 1000), ('global_cardinality', 995), ('global_cardinality_closed', 1000)])
        begin = f'include "{call}.mzn";\narray[1..60] of var 1..1000: x;\n' + ''.join(f'var {self.domain(-1, 3, 2)}: c{k};\n' for k in (1, 2, 3))
        left = f'forall (i in 1..60) (if i > 3 then x[i] = 10 * i else x[i] in 1..3{"" if last == 1000 else " union {998}"} endif)'
        cover = f'[ 1 + 7 * k mod {last} | k in 0..{last - 1} ]'
        counts = f'[ if a <= 3 then [c1, c2, c3][a] else bool2int(a mod 10 = 0 /\\ a in 40..600) endif | a in {cover} ]'
        return (f'{begin}constraint {call}(x, {cover}, {counts}) /\\ {left};\n',
                f'{begin}constraint {left} /\\ {call}([x[1], x[2], x[3]], [1, 2, 3], [c1, c2, c3]);\n')

    def of_wide_global_cardinality_low_up(self):
        low = self.numbers(3, 0, 1) if self.random.random() < 0.5 else [0, 0, 0]
        up = [a + self.random.randint(0, 2) for a in low]
        begin = 'include "global_cardinality_low_up.mzn";\narray[1..60] of var 1..1000: x;\n'
        left = 'forall (i in 1..60) (if i > 3 then x[i] = 10 * i else x[i] in {1, 2, 3, 990} endif)'
        bounds = ', '.join(f'[ if a <= 3 then {some}[a] else {others} endif | a in 1..980 ]' for some, others in ((low, 0), (up, 1)))
        return (f'{begin}constraint global_cardinality_low_up(x, [ a | a in 1..980 ], {bounds}) /\\ {left};\n',
                f'{begin}constraint {left} /\\ global_cardinality_low_up([x[1], x[2], x[3]], [1, 2, 3], {low}, {up});\n')

    def of_wide_nvalue(self):
        """Places 4 to 330 have seven values, near each other or far apart."""
        far = self.random.choice([1, 1, 1000])
        begin = f'include "nvalue.mzn";\narray[1..330] of var 0..{329 * far}: x;\nvar {self.domain(7, 10)}: n;\n'
        left = f'forall (i in 1..330) (if i > 3 then x[i] = {far} * (i mod 7) else x[i] in {{0, {5 * far}, {9 * far}, {20 * far}}} endif)'
        return (f'{begin}constraint nvalue(n, x) /\\ {left};\n',
                f'{begin}constraint {left} /\\ nvalue(n, [x[1], x[2], x[3]] ++ [ {far} * k | k in 0..6 ]);\n')

    def of_long_chain(self):
        chain = self.random.sample(range(0, 120), 110) if self.random.random() < 0.5 else list(range(1, 121))
        values = sorted(self.random.sample(range(0, 120), 2) + chain[:3])
        same = ' /\\ '.join(before(s, t, 'x') for s, t in zip(chain, chain[1:]))
        rest = ' /\\ forall (v in x) (exists (a in {%s}) (v = a))' % ', '.join(map(str, values))  # not in the declared sets
        return self.in_other_words('include "value_precede_chain.mzn";\narray[1..4] of var 0..120: x;\n', f'value_precede_chain({chain}, x)',
                                   f'({same})', rest)

    def of_wide_sliding_sum(self):
        low, width = self.random.randint(0, 2), self.random.randint(40, 60)
        return ('include "sliding_sum.mzn";\narray[1..200] of var -1..2: x;\n'
                f'constraint sliding_sum({low}, {low + 3}, {width}, x) /\\ '
                'forall (i in 1..200) (if i mod 40 = 1 then true else x[i] = bool2int(i mod 37 = 0) endif);\n')

    def of_many_branches(self):
        return ('array[1..25] of var bool: c;\narray[1..26] of var bool: x;\nvar bool: y;\n'
                'constraint fzn_if_then_else_var_bool(c ++ [true], x, y) /\\ '
                f'forall (i in 1..25) (i mod {self.random.randint(7, 9)} = 0 \\/ not c[i]);\n'
                'constraint forall (i in 1..26) (x[i] <-> i mod 2 = 0);\n')

    def of_many_tasks(self):
        return ('include "disjunctive.mzn";\narray[1..60] of var 0..900: s;\narray[1..60] of var 0..2: d;\nconstraint disjunctive(s, d) /\\ '
                'forall (i in 3..60) (s[i] = 10 * i /\\ d[i] = i mod 3);\n'
                'constraint s[1] in 97..102 /\\ s[2] in 98..101;\n')

    def of_many_points(self):
        begin = 'include "disjunctive_strict.mzn";\narray[1..60] of var 0..900: s;\narray[1..60] of var 0..2: d;\n'
        left = 'forall (i in 3..60) (s[i] = 10 * i /\\ d[i] = i mod 3) /\\ s[1] in 107..112 /\\ s[2] in 108..111'
        return (f'{begin}constraint disjunctive_strict(s, d) /\\ {left};\n',
                f'{begin}constraint {left} /\\ disjunctive_strict([ s[i] | i in 1..12 ], [ d[i] | i in 1..12 ]);\n')

    def of_many_boxes(self):
        """Boxes 3 to 160 have places, and the first two lie among the nearest of these."""
        call = self.random.choice(['diffn', 'diffn_nonstrict', 'diffn_k', 'diffn_nonstrict_k'])
        wide, high = self.random.choice([('1 + i mod 3', '1 + i mod 2'), ('if i < 3 then w[i] else 1 + i mod 3 endif', '1 + i mod 4'),
                                         ('2 + i mod 2', 'if i < 3 then w[i] else 2 + i mod 2 endif')])
        begin = f'include "{call}.mzn";\narray[1..160] of var 0..60: x;\narray[1..160] of var 0..60: y;\narray[1..2] of var 1..2: w;\n'
        left = (f'forall (i in 3..160) (x[i] = 4 * (i mod 13) /\\ y[i] = 4 * (i div 13)) /\\ '
                f'forall (i in 1..2) (x[i] in {{0, {self.random.randint(1, 4)}, 7}} /\\ y[i] in {{0, {self.random.randint(1, 4)}, 6}})')

        def boxes(those):
            if call.endswith('k'):
                return ', '.join(f'array2d(1..{those[1]}, 1..2, [ [{one}, {other}][k] | i in {those[0]}, k in 1..2 ])' for one, other in (('x[i]', 'y[i]'), (wide, high)))
            return ', '.join(f'[ {one} | i in {those[0]} ]' for one in ('x[i]', 'y[i]', wide, high))

        near = [i for i in range(1, 161) if i < 3 or i % 13 < 3 and i // 13 < 3]
        return (f'{begin}constraint {call}({boxes(("1..160", 160))}) /\\ {left};\n',
                f'{begin}constraint {left} /\\ {call}({boxes((str(near), len(near)))});\n')

    def of_many_places(self):
        count = self.random.randint(3, 5)
        begin = 'include "subcircuit.mzn";\narray[1..101] of var 1..101: x;\n'
        left = f'forall (i in {count + 1}..101) (x[i] = i) /\\ forall (i in 1..{count}) (x[i] <= {count})'
        return f'{begin}constraint subcircuit(x) /\\ {left};\n', f'{begin}constraint {left} /\\ subcircuit([ x[i] | i in 1..{count} ]);\n'


def before(s, t, x):
    """A formula that says that t stands nowhere before the first s."""
    return f'({s} = {t} \\/ let {{ array[int] of var int: y = {x} }} in forall (k in index_set(y)) (y[k] = {t} -> exists (i in 1..k - 1) (y[i] = {s})))'


def models(names):
    """The models whose names begin with one of the names, or all: name, None, text."""
    for method in sorted(name for name in vars(Draw) if name.startswith('of_')):
        for k in range(1, (FEWER if method[3:].startswith(LARGE) else COUNT) + 1):
            name = f'drawn_{method[3:]}_{k}'
            if not names or any(name.startswith(one) for one in names):
                drawn = getattr(Draw(f'{SEED} {name}'), method)()
                model, same = drawn if isinstance(drawn, tuple) else (drawn, '')
                yield name, None, model + END + (f'-- the same\n{same}{END}' if same else '')
