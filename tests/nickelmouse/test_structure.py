"""Structure: what decides, what shares a constraint, what the objective adds up, from the items of small files."""
import unittest

from nickelmouse.items import parsed
from nickelmouse.structure import ends_of, structure_of


def items(variables, constraints, goal, search='', arrays=()):
    """Items without places: variables as `name set [marks]`, constraints as `name [defines V] : arguments`."""
    lines = [f'var {number} {" ".join(one.split()[:1] + (["bool"] if one.split()[1] == "bool" else ["int", one.split()[1]]))} bytes 1..1 '
             f'{" ".join(one.split()[2:])}'.strip() for number, one in enumerate(variables, 1)]
    lines += [f'array {one.split(" :")[0]} bytes 1..1 :{one.split(" :")[1]}' for one in arrays]
    for number, one in enumerate(constraints, 1):
        front, arguments = one.split(' :')
        name, _, defines = front.partition(' ')
        lines.append(f'constraint {number} {name} line 1 column 1 bytes 1..1 {defines}'.strip() + f' :{arguments}')
    lines += [f'search input_order indomain_min :{search}'] if search else []
    lines += [f'goal {goal} bytes 2..3', f'end parameters 0 variables {len(variables)} arrays {len(arrays)} constraints {len(constraints)} mended 0']
    return parsed('\n'.join(lines) + '\n')


class StructureTest(unittest.TestCase):
    """Small models."""

    def test_assignment(self):
        """Costs are elements of what is decided; the objective is their sum."""
        found = structure_of(items(['x 1..3 output', 'y 1..3 output', 'c 4..9 defined', 'd 2..8 defined', 'z 0..99 defined'],
                                   ['fzn_all_different_int : q', 'array_int_element defines 3 : 1 3', 'array_int_element defines 4 : 2 4',
                                    'int_lin_eq defines 5 : 3 4 5'], 'minimize 5', ' 1 2', ['q : 1 2']))
        self.assertEqual((found.units, found.scopes, found.at), ([1, 2], [(0, 1)], [[0], [0]]))
        self.assertEqual(found.costs, [3, 4])
        self.assertEqual([(term.variable, term.ideal, term.units) for term in found.terms], [(3, 4, (0,)), (4, 2, (1,))])

    def test_which_decide(self):
        """Those of annotations, else those that are printed, else all: but for those that are defined, and the objective."""
        variables = ['x 1..3 output', 'y 1..3', 'z 1..3 output', 'w 1..3 defined', 'v bool output']
        for search, wanted in ((' 2 1 4 2', [2, 1]), ('', [1, 5]), (' 2', [1, 5])):
            self.assertEqual(structure_of(items(variables, [], 'maximize 3', search)).units, wanted)
        bare = [one.replace(' output', '') for one in variables]
        self.assertEqual(structure_of(items(bare, [], 'maximize 3')).units, [1, 2, 5])

    def test_tasks(self):
        """Starts, and the Booleans that order them; tasks that nothing orders are a chain."""
        found = structure_of(items(['s 0..9', 't 0..9', 'u 0..9', 'b bool defined', 'c bool defined', 'end 0..20'],
                                   ['int_lin_le_reif defines 4 : 1 2 4', 'int_lin_le_reif defines 5 : 2 1 5', 'fzn_cumulative : q',
                                    'array_bool_or : 4 5'], 'minimize 6', ' 1 2 3', ['q : 1 2 3']))
        self.assertEqual((found.units, found.starts, found.chains), ([1, 2, 3], {0, 1, 2}, [2]))
        self.assertEqual([(one.boolean, one.one, one.other) for one in found.orders], [(4, 0, 1), (5, 1, 0)])
        self.assertEqual(found.scopes, [(0, 1), (0, 1, 2)])

    def test_sums_of_sums(self):
        """Terms through sums and greatest values; a term that nothing defines follows from what a constraint ties it to."""
        found = structure_of(items(['x 0..3', 'y 0..3', 'a 0..9', 'b 0..9 defined', 'c 0..9 defined', 'z 0..99 defined', 'p 0..9'],
                                   ['fzn_table_int : 1 3', 'int_lin_eq defines 4 : 3 2 4', 'int_times defines 5 : 1 2 5',
                                    'array_int_maximum defines 6 : 6 4 5 7'], 'maximize 6', ' 1 2'))
        self.assertEqual([(term.variable, term.ideal, term.units) for term in found.terms], [(3, 9, (0,)), (2, 3, (1,)), (5, 9, (1, 0))])
        self.assertEqual(found.costs, [3, 2, 5, 7])

    def test_circuit(self):
        found = structure_of(items([f's{place} 1..5' for place in range(4)] + ['z 0..9'], ['fzn_circuit : q'], 'minimize 5', ' 4 3 2 1',
                                   ['q : 1 2 =5 3 4']))
        self.assertEqual(found.circuits, [[3, 2, None, 1, 0]])

    def test_cycles(self):
        """Variables that define each other stand for nothing."""
        found = structure_of(items(['x 0..3', 'y 0..3', 'a 0..9 defined', 'b 0..9 defined', 'z 0..9 defined'],
                                   ['int_abs defines 3 : 4 3', 'int_abs defines 4 : 3 4', 'int_plus defines 5 : 3 5 5'], 'minimize 5', ' 1 2'))
        self.assertEqual((found.costs, found.terms, found.scopes), ([3], [], []))

    def test_ends(self):
        self.assertEqual([ends_of(text) for text in (None, '-3..7', '{1,5,9}', '{-4}')], [(0, 1), (-3, 7), (1, 9), (-4, -4)])


if __name__ == '__main__':
    unittest.main()
