"""Fixing: what a neighbourhood adds to a file."""
import unittest

from nickelmouse.fixing import Insertion
from nickelmouse.items import Goal, Items, Span, Variable
from nickelmouse.kinds import View
from nickelmouse.sharing import Solution
from nickelmouse.structure import Order, Structure

TEXT = b'var 0..9: s; var 0..9: t; var 0..9: u; var bool: b; var bool: c; var 0..9: x; var bool: y; var 0..99: z;\nsolve minimize z;\n'
DECLARED = [('s', '0..9'), ('t', '0..9'), ('u', '0..9'), ('b', None), ('c', None), ('x', '0..9'), ('y', None), ('z', '0..99')]


def items(word='minimize'):
    """The items of the text, as far as they are needed."""
    first = TEXT.index(b'solve')
    return Items(variables=[Variable(number, name, declared, Span(0, 0), False, False) for number, (name, declared) in enumerate(DECLARED, 1)],
                 goal=Goal(word, 8, None, Span(first, len(TEXT) - 1)))


class InsertionTest(unittest.TestCase):
    """Constraints in front of the solve item."""

    def added(self, structure, values, free, word='minimize'):
        """What is added, a constraint a line."""
        insertion = Insertion(items(word), TEXT, structure)
        found = insertion.neighbourhood(View(structure, values), Solution(b'', values[7]), free)
        text = insertion.text(found)
        self.assertTrue(text.startswith(TEXT[:TEXT.index(b'solve')]) and text.endswith(b'solve minimize z;\n'))
        return [one.strip() for one in found]

    def test_values(self):
        structure = Structure(units=[6, 7])
        self.assertEqual(self.added(structure, (0, 0, 0, 0, 0, 5, 1, 40), set()),
                         ['constraint int_eq(x,5);', 'constraint bool_eq(y,true);', 'constraint int_le(z,39);'])
        self.assertEqual(self.added(structure, (0, 0, 0, 0, 0, 5, 0, 40), {0}, word='maximize'),
                         ['constraint bool_eq(y,false);', 'constraint int_le(41,z);'])

    def test_orders(self):
        """Starts are never fixed: the order of two is, unless one of them is free."""
        structure = Structure(units=[1, 2, 3], starts={0, 1, 2}, orders=[Order(4, 0, 1), Order(5, 1, 0)], chains=[2])
        for free, stands in ((set(), True), ({0}, False), ({0, 1}, False), ({1, 2}, False), ({2}, True)):
            self.assertEqual(self.added(structure, (0, 3, 7, 1, 0, 0, 0, 9), free),
                             ['constraint bool_eq(b,true);'] * stands + ['constraint int_le(z,8);'])

    def test_chains(self):
        """Tasks that no Boolean orders begin one after the other as before."""
        structure = Structure(units=[1, 2, 3], starts={0, 1, 2}, chains=[0, 1, 2])
        self.assertEqual(self.added(structure, (4, 0, 2, 0, 0, 0, 0, 9), set())[:2], ['constraint int_le(t,u);', 'constraint int_le(u,s);'])
        self.assertEqual(self.added(structure, (4, 0, 2, 0, 0, 0, 0, 9), {2})[:1], ['constraint int_le(t,s);'])

    def test_by_cost(self):
        for word, costs, wanted in (('minimize', [1, 2, 4], b'solve :: int_search([s,t],smallest,indomain_min,complete) minimize z;'),
                                    ('maximize', [1, 2], b'solve :: int_search([s,t],largest,indomain_max,complete) maximize z;'),
                                    ('minimize', [1, 4], None)):
            insertion = Insertion(items(word), TEXT, Structure(costs=costs))
            self.assertEqual(insertion.by_cost, wanted)
            if wanted:
                self.assertTrue(insertion.text([], wanted).endswith(b';\n' + wanted + b'\n'))


if __name__ == '__main__':
    unittest.main()
