"""A worker that searches neighbourhoods: a script stands for fznsolve."""
import os
import tempfile
import unittest

from nickelmouse import neighbourhoods
from nickelmouse.files import Files
from nickelmouse.items import parsed
from nickelmouse.neighbourhoods import MOST_FAULTS, Neighbourhoods, prepared
from nickelmouse.running import Programs
from nickelmouse.sharing import Shared

TEXT = b'var 0..9: x;\nvar 0..9: y;\nvar 0..9: c;\nvar 0..9: d;\nvar 0..18: z;\nconstraint int_lin_eq([1,1,-1],[c,d,z],0);\nsolve minimize z;\n'
ITEMS = """var 1 x int 0..9 bytes 1..12
var 2 y int 0..9 bytes 14..25
var 3 c int 0..9 bytes 27..38 defined
var 4 d int 0..9 bytes 40..51 defined
var 5 z int 0..18 bytes 53..65 defined
constraint 1 int_lin_eq line 6 column 1 bytes 67..108 defines 5 : 3 4 5
search input_order indomain_min : 1 2
goal minimize 5 bytes 110..126
end parameters 0 variables 5 arrays 0 constraints 1 mended 0
"""
HEAD = """for word; do [ "$before" = --cert ] && cert=$word; before=$word; model=$word; done
echo run >>"$0.runs"; printf 'fzc 2\\nvars 5 cons 1\\n' >$cert
"""


class NeighbourhoodsTest(unittest.TestCase):
    """What it starts, and what it takes."""

    def setUp(self):
        self.folder = tempfile.TemporaryDirectory()
        self.files = Files(self.folder.name)
        self.shared = Shared(5, False, self.files.path('hints'))
        self.model = prepared(parsed(ITEMS), TEXT)

    def tearDown(self):
        self.folder.cleanup()

    def worker(self, script, **options):
        """A worker over a script."""
        self.files.write('solve', b'#!/bin/sh\n' + (HEAD + script).encode())
        os.chmod(self.files.path('solve'), 0o755)
        return Neighbourhoods('worker2', options.pop('number', 0), Programs(self.files.path('solve'), None), self.files, self.shared,
                              lambda: self.model, 1, **options)

    def runs(self):
        """How many runs were started."""
        return self.files.read('solve.runs').count(b'\n')

    def test_manners(self):
        self.assertEqual(self.model.manners, {'free': (['-f'], None), 'annotated': ([], None), 'by cost': (
            [], b'solve :: int_search([c,d],smallest,indomain_min,complete) minimize z;')})
        self.assertEqual(set(prepared(parsed(ITEMS), TEXT, ('by cost', 'window')).manners), {'free', 'annotated'})
        self.assertEqual(set(prepared(parsed(ITEMS), TEXT, ('by cost', 'window')).kinds), {'random', 'stretch'})
        bare = ITEMS.replace('search input_order indomain_min : 1 2\n', '')
        self.assertEqual(set(prepared(parsed(bare), TEXT).manners), {'free', 'by cost'})

    def test_tried(self):
        """Whole `s` lines of all variables alone, how many decisions, and whether the end says closed."""
        cases = [
            # what the run writes and how it ends, its lines, decisions, whether it is closed
            ("printf 's 1 1 1 1 2\\ns 1 1 1 0 1\\ne closed\\n' >>$cert; echo in all 0.0 s, 7 nodes, 6 conflicts, 5 inferences, 2 solutions, best 1, "
             "9 bytes of certificate >&2", [b's 1 1 1 1 2\n', b's 1 1 1 0 1\n'], 7, True),
            ("printf 's 1 1 1 1 2\\ns 1 1 1 0' >>$cert; kill -9 $$", [b's 1 1 1 1 2\n'], 50, False),
            ("printf 's 1 1 2\\ne open\\n' >>$cert", [], 0, False),
            ('rm $cert; exit 2', [], 0, False),
        ]
        for script, lines, nodes, is_closed in cases:
            found = self.worker(script).tried(self.model, self.model.manners['free'], [], 50, 60)
            self.assertEqual((found.lines, found.nodes, found.is_closed), (lines, nodes, is_closed))

    def test_time(self):
        """A run that takes too long is ended, and what it has found is taken."""
        found = self.worker("printf 's 1 1 1 1 2\\n' >>$cert; exec sleep 60").tried(self.model, self.model.manners['free'], [], 50, 0.3)
        self.assertEqual((found.lines, found.nodes, found.is_closed), ([b's 1 1 1 1 2\n'], 50, False))

    def test_file(self):
        """What is searched is the file with these constraints and, by cost, another solve item."""
        worker = self.worker('cp $model $0.model')
        worker.tried(self.model, self.model.manners['by cost'], ['constraint int_eq(x,5); '], 50, 60)
        goal = b'solve minimize z;\n'
        self.assertEqual(self.files.read('solve.model'), TEXT.replace(goal, b'constraint int_eq(x,5); ' + self.model.manners['by cost'][1] + b'\n'))

    def test_faults(self):
        """One whose runs are refused, or die, ends."""
        self.shared.offer(b's 1 1 1 1 2\n')
        for number, script in enumerate(('exit 2', 'exit 5', 'kill -9 $$'), 1):
            self.worker(script).run()
            self.assertEqual(self.runs(), number * MOST_FAULTS)
        self.assertEqual([name for name in os.listdir(self.folder.name) if 'worker2' in name], [])

    def test_first(self):
        """Until there is a solution one manner comes after the other; the third worker looks for none where there is one."""
        worker = self.worker('[ $(grep -c run $0.runs) -lt 5 ] || printf "s 1 1 1 1 2\\n" >>$cert')
        worker.look_for_first(self.model)
        self.assertEqual((self.runs(), self.shared.best.value), (5, 2))
        self.worker('', number=neighbourhoods.FIRST).look_for_first(self.model)
        self.assertEqual(self.runs(), 5)

    def test_exhausted(self):
        """Of few units the first one ends where it may, once it has looked for a solution."""
        found = []
        self.shared.offer(b's 1 1 1 1 2\n')
        worker = self.worker('exit 0', exhausted=found.append)
        worker.run()
        self.assertEqual((found, self.runs(), worker.fault), ([worker], 1, None))

    def test_what_goes_wrong(self):
        """A fault of its own ends it alone."""
        worker = self.worker('exit 0')
        worker.prepare = lambda: 1 / 0
        worker.run()
        self.assertIsInstance(worker.fault, ZeroDivisionError)


if __name__ == '__main__':
    unittest.main()
