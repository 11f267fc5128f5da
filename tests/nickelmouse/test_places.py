"""Places: paths of the compiler, and what stands in a MiniZinc model."""
import os
import tempfile
import unittest

from nickelmouse.places import Source, Step, conjunct_of, in_one_line, items_in, path_of, table_of

MODEL = """enum Day = { Sat, Sun }; % work; rest
array[Day] of var 0..9: works; /* constraint; */
constraint forall (d in Day) (works[d] >= 2 /\\
  works[d] <= 5);
output ["solve; \\(works)\\n"];
"""


class PlacesTest(unittest.TestCase):
    """Paths and items."""

    def test_paths(self):
        steps = path_of('m.mzn|3|12|4|17|ca|forall;m.mzn|3|20|3|20|d=1;m.mzn|3|31|3|43|bin|\'>=\';|0|0|0|0|il|0;')
        self.assertEqual([step.kind for step in steps], ['ca|forall', 'd=1', "bin|'>='"])
        found, indices = conjunct_of(steps)
        self.assertEqual((found.begin, [(name, value) for _, name, value in indices]), ((3, 31), [('d', '1')]))

    def test_table(self):
        paths, titles = table_of('x\tworks[Sat]\tm.mzn|2|25|2|29|id|works;\n0\t0\t\n')
        self.assertEqual((paths['x'][0].begin, titles['x'], paths['0']), ((2, 25), 'works[Sat]', []))

    def test_items(self):
        self.assertEqual([in_one_line(MODEL[begin:end]) for begin, end in items_in(MODEL)], [
            'enum Day = { Sat, Sun };', 'array[Day] of var 0..9: works;',
            'constraint forall (d in Day) (works[d] >= 2 /\\ works[d] <= 5);', 'output ["solve; \\(works)\\n"];'])

    def test_source(self):
        with tempfile.TemporaryDirectory() as folder:
            path = os.path.join(folder, 'm.mzn')
            with open(path, 'w', encoding='utf-8') as file:
                file.write(MODEL)
            source = Source()
            self.assertEqual(source.text(Step(path, (3, 31), (3, 43), 'bin')), 'works[d] >= 2')
            self.assertEqual(source.text(Step(path, (2, 25), (2, 29), 'vd')), 'array[Day] of var 0..9: works')
            self.assertEqual([source.value(Step(path, (3, 20), (3, 20), ''), value) for value in ('2', '3')], ['Sun', '3'])
            self.assertEqual(source.text(Step(os.path.join(folder, 'none'), (1, 1), (1, 2), '')), '')


if __name__ == '__main__':
    unittest.main()
