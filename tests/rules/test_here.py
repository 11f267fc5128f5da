"""The rules on the repository itself, with a fault planted in what was read of it."""
import os
import unittest

import exports
import fields
import heads
import names
from tree import Tree

TOP = os.path.join(os.path.dirname(os.path.abspath(__file__)), '..', '..')


class HereTest(unittest.TestCase):
    """Each rule finds a fault that is planted; what else it finds is said by `run`."""

    @classmethod
    def setUpClass(cls):
        cls.tree = Tree(TOP)

    def found(self, rule, path, text):
        """Where the rule finds faults while a file has another text."""
        before = self.tree.text(path)
        self.tree.texts[path] = text
        try:
            return {(fault.path, fault.line) for fault in rule.faults(self.tree)}
        finally:
            self.tree.texts[path] = before

    def test_head(self):
        for crate in list(self.tree.libraries)[:3]:
            path = self.tree.head_file(crate)
            self.assertIn((path, 1), self.found(heads, path, self.tree.text(path).replace('In:', 'Into:')))

    def test_row(self):
        for crate, number in list(self.tree.lines_of_crates.items())[:3]:
            page = self.tree.text(heads.PAGE)
            self.assertIn(f'\n| `{crate}` |', page)
            self.assertIn(('crates.txt', number), self.found(heads, heads.PAGE, page.replace(f'\n| `{crate}` |', '\n| `none` |')))

    def test_name(self):
        """A definition with a name of another spec, behind the last line of one."""
        places = names.definitions(self.tree)
        name, ((first, _),) = next((name, found) for name, found in places.items() if len(found) == 1)
        path = next(path for crate in reversed(self.tree.libraries) for path in self.tree.specs(crate) if path != first)
        text = self.tree.text(path)
        self.assertIn((path, text.count('\n') + 1), self.found(names, path, f'{text}abbrev pub {name} : Type 0\n'))

    def test_field(self):
        path = self.tree.sources(next(iter(self.tree.libraries)))[0]
        text = self.tree.text(path)
        self.assertIn((path, text.count('\n') + 2), self.found(fields, path, text + 'pub struct Planted {\n    pub bare: u64,\n}\n'))

    def test_export(self):
        path = self.tree.head_file(next(iter(self.tree.libraries)))
        text = self.tree.text(path)
        self.assertIn((path, text.count('\n') + 2), self.found(exports, path, text + 'pub use planted::{\n    planted_by_a_test,\n};\n'))


if __name__ == '__main__':
    unittest.main()
