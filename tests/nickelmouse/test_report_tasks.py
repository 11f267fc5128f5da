"""Cumulatives and circuits: arguments by asking, loads, tours, names, and what is drawn of them."""
import os
import tempfile
import unittest
from types import SimpleNamespace

from nickelmouse.items import parsed
from nickelmouse.report import charts
from nickelmouse.report.asking import Asking, Listed, Unknown, place_in
from nickelmouse.report.naming import Names, index_of
from nickelmouse.report.orders import Orders, common_indices, pairs_of, rows_of
from nickelmouse.report.reader import Reader
from nickelmouse.report.tasks import CIRCUIT, CUMULATIVE, Cumulative, Known, Task, tour_of
from nickelmouse.running import Broken, Fault, Refused

TEXT = b"""array [1..2] of int: d = [3,4];
var 0..9: a;
var 0..9: b;
array [1..2] of var int: s :: output_array([1..1,3..4]) = [a,b];
constraint fzn_cumulative(s,d,[1, 1],2);
solve satisfy;
"""
PRINTED = """parameter d bytes 1..31
var 1 a int 0..9 bytes 33..44
var 2 b int 0..9 bytes 46..57
array s bytes 59..122 output 1..1 3..4 : 1 2
constraint 1 fzn_cumulative line 5 column 1 bytes 124..163 : s
goal satisfy bytes 165..178
end parameters 1 variables 2 arrays 1 constraints 1 mended 0
"""


class Answering(Asking):
    """Asks of the file above, whose answers are known: where a value that begins with some bytes ends."""

    def __init__(self):
        super().__init__(SimpleNamespace(check='', solve=''), None, TEXT, parsed(PRINTED), '')
        self.texts = []

    def behind(self, front, rest):
        wanted = b'[' if b'array' in front else None
        start = len(rest) - len(rest.lstrip())
        if front.startswith(b'var bool') or front.startswith(b'predicate'):
            return rest.index(b'(' if front.startswith(b'var bool') else b'=')
        if (rest[start:start + 1] == b'[') != (wanted == b'['):
            return start
        return rest.index(b']') + 1 if wanted else min(place for place in (rest.find(b','), rest.find(b')')) if place > 0)

    def read(self, text):
        self.texts.append(text)
        names = [word.split()[-2] for word in text.decode().split('= ')[:-1]]
        names = [name for name in names if name.startswith('nickelmouse')] or names
        lists = {'nickelmouse_list_1': '=3 =4', 'nickelmouse_list_2': '=1 =1', 'nickelmouse_list_3': '=2'}
        lines = ''.join(f'array {name} bytes 1..2 : {entries}\n' for name, entries in lists.items())
        return parsed(lines + 'goal satisfy bytes 1..2\nend parameters 0 variables 0 arrays 3 constraints 0 mended 0\n')


class AskingTest(unittest.TestCase):
    """What the reader is asked, and what is made of its answers."""

    def test_arguments(self):
        asking = Answering()
        self.assertEqual(asking.arguments(asking.items.constraints[0], 4), [b's', b'd', b'[1, 1]', b'2'])

    def test_lists(self):
        asking = Answering()
        found = asking.lists([(b's', 2), (b'd', 2), (b'[1, 1]', 2), (b'[2]', 1)])
        self.assertEqual(found[0], Listed((1, 2), (None, None)))
        self.assertEqual([one.values((7, 8)) for one in found], [[7, 8], [3, 4], [1, 1], [2]])
        text, = asking.texts
        self.assertIn(b' array [1..2] of var int: nickelmouse_list_1 = [3,4]; array [1..2] of var int: nickelmouse_list_2 = [1, 1];', text)
        self.assertNotIn(b'constraint', text)
        self.assertTrue(text.endswith(b'solve satisfy;\n'))

    def test_length(self):
        asking = Answering()
        self.assertEqual(asking.length([b'd', b's']), 2)

    def test_place(self):
        text = b'ab\ncd\nef'
        self.assertEqual([text[place_in(text, Fault(line, column, 3)):] for line, column in ((1, 1), (2, 2), (3, 3))], [text, b'd\nef', b''])


class ReaderTest(unittest.TestCase):
    """Many texts by one shell."""

    def script(self, folder, text):
        """The path of a program in the place of fzncheck."""
        path = os.path.join(folder, 'my check')
        with open(path, 'w', encoding='utf-8') as file:
            file.write('#!/bin/sh\n' + text)
        os.chmod(path, 0o755)
        return path

    def test_faults(self):
        with tempfile.TemporaryDirectory() as folder:
            check = self.script(folder, 'test "$1" = --items || exit 9\necho printed\nwhile read -r word number; do '
                                        'test "$word" = ok || echo "line $number column 2: fault 3 Syntax" >&2; done <"$2"\n')
            with Reader(check, folder) as reader:
                self.assertEqual([reader.fault(text) for text in (b'no 7\n', b'ok 1\n', b'no 8\nno 9\n')], [Fault(7, 2, 3), None, Fault(8, 2, 3)])

    def test_ended(self):
        with tempfile.TemporaryDirectory() as folder, Reader('/none', folder) as reader:
            self.assertIsNone(reader.fault(b''))
            reader.shell.kill()
            reader.shell.wait()
            with self.assertRaises(Broken):
                reader.fault(b'')


class TasksTest(unittest.TestCase):
    """Tasks under a solution."""

    def test_known(self):
        known = Known(Answering(), (5, 8), 9)
        self.assertEqual([task.end for task in known.cumulatives[0].tasks], [8, 12])
        self.assertEqual((known.cumulatives[0].capacity, known.unknown, known.passed_over), (2, 0, 0))
        self.assertEqual(Known(Answering(), (5, 8), 0).passed_over, 1)

    def test_unknown(self):
        for fault in (Unknown(), Refused(2, 'line 1 column 1: fault 3 Syntax')):
            asking = Answering()
            asking.value_in = lambda rest, fault=fault: (_ for _ in ()).throw(fault)
            self.assertEqual((Known(asking, (5, 8), 9).unknown, Known(asking, (5, 8), 9).cumulatives), (1, []))

    def test_refused(self):
        """Where the lists are refused together nothing is known of any constraint."""
        asking = Answering()
        asking.read = lambda text: (_ for _ in ()).throw(Refused(2, 'line 1 column 1: fault 18 FileTooLong'))
        known = Known(asking, (5, 8), 9)
        self.assertEqual((known.unknown, known.cumulatives), (1, []))

    def test_load(self):
        cumulative = Cumulative(None, (Task(1, 0, 4, 2), Task(2, 2, 2, 1), Task(3, 4, 1, 2), Task(4, 9, 0, 5), Task(5, 9, 1, 0)), 3)
        self.assertEqual(cumulative.load(), [(0, 2), (2, 3), (4, 2), (5, 0)])
        self.assertEqual(len(cumulative.working), 3)

    def test_one_at_a_time(self):
        for uses, capacity, wanted in (((1, 1), 1, True), ((1, 1), 2, False), ((2, 2, 1), 2, True), ((0, 1), 1, True), ((), 0, True)):
            tasks = tuple(Task(place, place, 1, use) for place, use in enumerate(uses))
            self.assertEqual(Cumulative(None, tasks, capacity).is_one_at_a_time(), wanted, uses)

    def test_tour(self):
        self.assertEqual([tour_of(one) for one in ((), (1,), (3, 1, 2), (2, 1, 3))], [(), (1,), (1, 3, 2), (1, 2)])

    def test_names_of_constraints(self):
        self.assertEqual((CUMULATIVE, CIRCUIT), ('fzn_cumulative', 'fzn_circuit'))


class NamesTest(unittest.TestCase):
    """What a planner calls things."""

    def test_index(self):
        self.assertEqual([index_of(4, ranges) for ranges in ((), ('3..9',), ('1..2', '0..2'), ('1..2', '1..2', '1..2'))],
                         ['5', '7', '2,1', '2,1,1'])

    def test_variables(self):
        printed = PRINTED.replace('var 1 a', 'var 1 X_INTRODUCED_0_').replace('var 2 b', 'var 2 X_INTRODUCED_1_')
        table = 'X_INTRODUCED_0_\tstart[Ann,2]\t/m.mzn|1|1|1|9|id|start;\n'
        names = Names(parsed(printed), table)
        self.assertEqual([names.variable(number) for number in (1, 2)], ['start[Ann,2]', 's[1,4]'])
        self.assertEqual([names.index(number) for number in (1, 2)], [['Ann', '2'], ['1', '4']])
        self.assertEqual(names.constraint(parsed(printed).constraints[0]), ('constraint 1 of the file', '', ''))


class Ordering:
    """Asks of a file in which three starts, 1 to 3, are ordered two by two by sums, whose constants are known."""

    def __init__(self, lasts):
        self.lasts = lasts
        lines = [f'var {number} a{number} int 0..9 bytes {number}..{number}' for number in (1, 2, 3)]
        lines += [f'var {number} b{number} bool bytes {number}..{number}' for number in range(4, 10)]
        halves = [(1, 2), (2, 1), (1, 3), (3, 1), (2, 3), (3, 2)]
        lines += [f'constraint {place} int_lin_le_reif line 1 column 1 bytes {20 + place}..{20 + place} : {one} {other} {place + 3}'
                  for place, (one, other) in enumerate(halves, 1)]
        lines += [f'constraint {7 + place} array_bool_or line 1 column 1 bytes {30 + place}..{30 + place} : {2 * place + 4} {2 * place + 5}'
                  for place in range(3)]
        lines += ['constraint 10 array_bool_or line 1 column 1 bytes 40..40 : 4 6', 'goal satisfy bytes 50..50']
        self.items = parsed('\n'.join([*lines, 'end parameters 0 variables 9 arrays 0 constraints 10 mended 0']))

    def arguments(self, constraint, count):
        return [(constraint, part) for part in range(count)]

    def lists(self, wanted):
        found = []
        for (argument, _) in wanted:
            if isinstance(argument, bytes):
                raise Unknown
            constraint, part = argument
            one, other, _ = constraint.arguments
            found.append([Listed((None, None), (1, -1)), Listed((one, other), (None, None)), Listed((None,), (-self.lasts[one],))][part])
        return found


class Sums(Ordering):
    """The same, where the last argument is a constant by itself."""

    def arguments(self, constraint, count):
        return [(constraint, 0), (constraint, 1), _Bracketed((constraint, 2))]


class _Bracketed(tuple):
    """What stands between brackets when it is declared."""

    def __radd__(self, _):
        return self

    def __add__(self, _):
        return self


class OrdersTest(unittest.TestCase):
    """Tasks that are ordered two by two."""

    def test_pairs(self):
        pairs = pairs_of(Ordering({}).items)
        self.assertEqual([(key, constraint.number, sorted(halves)) for key, (constraint, halves) in pairs.items()],
                         [((1, 2), 7, [1, 2]), ((1, 3), 8, [1, 3]), ((2, 3), 9, [2, 3])])

    def test_rows(self):
        self.assertEqual(rows_of([(1, 2), (1, 3), (2, 3), (3, 4), (5, 6)]), [[1, 2, 3], [3, 4], [5, 6]])
        self.assertEqual(rows_of([]), [])

    def test_durations(self):
        orders = Orders(Sums({1: 2, 2: 3, 3: 4}), (3, 0, 5, 0, 0, 0, 0, 0, 0))
        self.assertEqual([(task.variable, task.start, task.duration) for task in orders.rows[0].cumulative.tasks], [(2, 0, 3), (1, 3, 2), (3, 5, 4)])
        self.assertEqual((orders.unknown, len(orders.rows[0].constraints)), (0, 3))

    def test_no_row(self):
        """A row whose tasks would overlap is none."""
        orders = Orders(Sums({1: 3, 2: 3, 3: 4}), (3, 0, 5, 0, 0, 0, 0, 0, 0))
        self.assertEqual((orders.rows, orders.unknown), ([], 1))

    def test_labels(self):
        rows = Orders(Sums({1: 2, 2: 3, 3: 4}), (3, 0, 5, 0, 0, 0, 0, 0, 0)).rows
        names = SimpleNamespace(constraint=lambda one: ('', '', f'm = 3, i = {one.number}'))
        self.assertEqual(list(common_indices(rows, names)), ['m = 3'])


class Plain:
    """Names that are numbers."""

    def variable(self, number):
        return f'x[{number % 3},{number}]'

    def index(self, number):
        return [str(number % 3), str(number)]


class ChartsTest(unittest.TestCase):
    """What is drawn, and what is thinned out."""

    def test_merged(self):
        bars = [(0, 2, 1, 'a'), (2, 3, 1, 'b'), (5, 6, 2, 'c'), (6, 9, 1, 'd'), (5, 7, 2, 'e')]
        self.assertEqual(charts.merged(bars, 1), [(0, 3, 1, ''), (5, 9, 0, '')])

    def test_lanes(self):
        tasks = [Task(1, 0, 3, 1), Task(2, 0, 1, 1), Task(3, 1, 1, 1), Task(4, 3, 1, 1)]
        self.assertEqual([[task.variable for task in lane] for lane in charts.in_lanes(tasks)], [[2, 3, 4], [1]])

    def test_machines(self):
        one = Cumulative(None, (Task(1, 0, 2, 1), Task(2, 2, 2, 1)), 1)
        chart = charts.by_machine([one, one], ['m = 1', 'm = 2'], charts.Colours(Plain()))
        self.assertEqual(chart['bars'], [(0, 0, 2, 1, '1'), (0, 2, 4, 2, '2'), (1, 0, 2, 1, '1'), (1, 2, 4, 2, '2')])
        self.assertEqual((chart['rows'], chart['begin'], chart['end'], chart['load']), (['m = 1', 'm = 2'], 0, 4, None))

    def test_many(self):
        """Up to 60 tasks have a row each, up to 600 a bar each; of more, what touches is one bar."""
        for count, rows, bars, is_merged in ((60, 60, 60, False), (61, 2, 61, False), (600, 2, 600, False), (6000, 2, 2, True)):
            tasks = tuple(Task(number, number // 2, 1, 1) for number in range(count))
            chart = charts.of_cumulative(Cumulative(None, tasks, 2), Plain(), charts.Colours(Plain()))
            self.assertEqual((len(chart['rows']), len(chart['bars']), chart['merged']), (rows, bars, is_merged), count)
            self.assertLessEqual(len(chart['load']), 2 * charts.PARTS)

    def test_load(self):
        """Where the use is thinned out the greatest use is seen."""
        tasks = tuple(Task(number, 2 * number, 1, 1 + (number == 4001)) for number in range(9000))
        load = charts.load_of(Cumulative(None, tasks, 2))
        self.assertEqual((max(use for _, use in load), load[0], load[-1]), (2, (0, 1), (17999, 0)))

    def test_tour(self):
        self.assertEqual(charts.of_tour(['1', '3', '2'])['places'], ['1', '3', '2'])
        self.assertEqual(sum(map(bool, charts.of_tour(list(map(str, range(200))))['places'])), 67)
