"""The rules, each on a small repository in which a fault is planted."""
import os
import tempfile
import unittest

import exports
import fields
import heads
import names
from tree import Tree

FILES = {
    'crates.txt': """# Below all.
fzn_low: smallvec

# Above.
fzn_high: fzn_low
fzn_top status=3: fzn_low fzn_high clap
""",
    'README.md': 'Call `promised` of `fzn_low`.\n\n```sh\n`quoted\n```\n',
    'docs/ARCHITECTURE.md': """# Architecture

| `fzn_old` | stands in another table |

## The crates

| Crate | In | Out | Proved against | Stands on |
|---|---|---|---|---|
| `fzn_low` | numbers | their sum | `specs/Sum` | |
| `fzn_high` | sums | one of them | `specs/Sum` of `fzn_low` | low |
| `fzn_top` | a command line | a program | | high |

## Beside the crates
""",
    'crates/fzn_low/src/lib.rt': """//! Sums.
//!
//! In: numbers. Out: their sum. Proved against
//! `specs/Sum.antt`.
#![tactic(auto)]

pub use sum::{
    Place, promised,
    sum,
};

mod sum;
""",
    'crates/fzn_low/src/sum.rt': """// A sum.
#[derive(Debug)]
pub struct Sum {
    /// The least: from 0 up.
    pub least: u64,
    // The greatest.
    #[doc(hidden)]
    pub greatest: u64,
    hidden: u64,
}

/// The place of a sum, from 1 up.
#[derive(Debug)]
pub struct Place(pub usize);

pub struct Unit;
""",
    'crates/fzn_low/specs/Sum.antt': """-- Sums.
abbrev pub IsSum : Type 0
IsSum = ⊤

abbrev hidden : Type 0

-- abbrev pub IsHigh : Type 0
pub record Sum : Type 0 where
  pub least : ℕ
""",
    'crates/fzn_high/src/lib.rt': """//! In: sums. Out, of `high`: one. Proved against `fzn_low`'s `specs/Sum.antt`.
use fzn_low::{inner::{self}, sum as of};
""",
    'crates/fzn_high/src/place.rt': 'ghost use Rattle.fzn_low.specs.declared.sum.Place.{Place};\n',
    'crates/fzn_high/specs/High.antt': 'abbrev pub IsHigh : Type 0\nabbrev hidden : Type 0\npub record High : Type 0 where\n  pub least : ℕ\n',
    'crates/fzn_top/src/main.rt': '//! In: a command line. Out: a program. What it prints is proved below.\n',
    'tests/rules/names.txt': '# Known.\n',
}


class RulesTest(unittest.TestCase):
    """A repository that keeps all rules, in a folder of its own."""

    def setUp(self):
        folder = tempfile.TemporaryDirectory()
        self.addCleanup(folder.cleanup)
        self.top = folder.name
        for path, text in FILES.items():
            self.write(path, text)

    def write(self, path, text):
        whole = os.path.join(self.top, path)
        os.makedirs(os.path.dirname(whole), exist_ok=True)
        with open(whole, 'w', encoding='utf-8') as file:
            file.write(text)

    def plant(self, path, old, new):
        """Puts other text in the place of one that is there."""
        self.assertIn(old, FILES[path])
        self.write(path, FILES[path].replace(old, new))

    def faults(self, rule):
        """Where the rule finds faults, in order."""
        return sorted(f'{fault.path}:{fault.line}' for fault in rule.faults(Tree(self.top)))

    def test_none(self):
        for rule in (heads, names, fields, exports):
            self.assertEqual(self.faults(rule), [], rule.__name__)

    def test_head(self):
        """A head says what comes in, what goes out and against what it is proved; its specs are there."""
        path = 'crates/fzn_low/src/lib.rt'
        for old, new in (('In: ', 'Of '), ('Out: ', 'Gives '), ('Proved against\n//! `specs/Sum.antt`', 'True'), ('Sum.antt', 'Sums.antt'),
                         ('//! Sums', '\n')):
            self.plant(path, old, new)
            self.assertEqual(set(self.faults(heads)), {path + ':1'}, new)

    def test_row(self):
        page = 'docs/ARCHITECTURE.md'
        for old, new, wanted in (
                ('| `fzn_low` | numbers', '| low | numbers', ['crates.txt:2']),
                ('| `fzn_top` |', '| `fzn_high` |', ['crates.txt:6', page + ':11', page + ':11']),
                ('| `fzn_low` | numbers |', '| `fzn_lower` | numbers |', ['crates.txt:2', page + ':9']),
                ('| numbers |', '| |', [page + ':9']),
                ('`specs/Sum` |', '`specs/Sums` |', [page + ':9']),
                ('| sums | one of them |', '| sums, of which one |', [page + ':10'])):
            self.plant(page, old, new)
            self.assertEqual(self.faults(heads), wanted, new)

    def test_stands_on(self):
        """A row names the topmost libraries, all of them and no others; those of others than the repository are left out."""
        page = 'docs/ARCHITECTURE.md'
        for cell in ('', 'low', 'low, high', 'high, top', 'clap, high'):
            self.plant(page, '| a program | | high |', f'| a program | | {cell} |')
            self.assertEqual(self.faults(heads), [page + ':11'], cell)
        self.plant(page, '| a program | | high |', '| a program | | `fzn_high` |')
        self.assertEqual(self.faults(heads), [])

    def test_crates(self):
        """A crate without a line, and a line without a crate."""
        self.write('crates/fzn_more/src/lib.rt', '')
        self.assertEqual(self.faults(heads), ['crates.txt:1'])
        self.plant('crates.txt', 'fzn_high: fzn_low\n', 'fzn_high: fzn_low\nfzn_none:\nfzn_more:\n')
        self.assertEqual(self.faults(heads), ['crates.txt:6', 'crates.txt:6', 'crates.txt:7'] + ['crates/fzn_more/src/lib.rt:1'] * 3)

    def test_names(self):
        path = 'crates/fzn_high/specs/High.antt'
        for text in ('abbrev pub IsSum : Type 0', 'pub record IsSum (a : ℕ) : Type 0 where', 'record pub IsSum : Type 0',
                     'unfoldable pub IsSum : ℕ', 'pub data IsSum : Type 0 where', 'def pub IsSum : ℕ', 'pub IsSum : ℕ',
                     'module _ where\n  abbrev pub IsSum : Type 0'):
            self.write(path, text + '\n')
            self.assertEqual(self.faults(names), [f'{path}:{len(text.splitlines())}'], text)

    def test_names_handed_on(self):
        """What two specs hand on with `pub use` is defined by neither."""
        for path in ('crates/fzn_low/specs/Sum.antt', 'crates/fzn_high/specs/High.antt'):
            self.write(path, FILES[path] + 'unfoldable pub use Rattle.fzn_low.specs.Part.{part}\npub use Rattle.fzn_low.specs.Whole\n')
        self.assertEqual(self.faults(names), [])

    def test_listed_names(self):
        """A listed name may be double, and has to be; the list is sorted."""
        self.plant('crates/fzn_high/specs/High.antt', 'IsHigh', 'IsSum')
        self.write('tests/rules/names.txt', '# Known.\nIsSum\n')
        self.assertEqual(self.faults(names), [])
        self.write('tests/rules/names.txt', '# Known.\nIsSum\nIsSum\n')
        self.assertEqual(self.faults(names), ['tests/rules/names.txt:3'])
        self.write('tests/rules/names.txt', 'IsSum\nSum\n')
        self.assertEqual(self.faults(names), ['tests/rules/names.txt:2'])
        self.write('tests/rules/names.txt', 'IsSum\nIsHigh\n')
        self.assertEqual(self.faults(names), ['tests/rules/names.txt:2'] * 2)

    def test_fields(self):
        path = 'crates/fzn_low/src/sum.rt'
        for old, line in (('    /// The least: from 0 up.\n', 4), ('    // The greatest.\n', 7), ('/// The place of a sum, from 1 up.\n', 13)):
            self.plant(path, old, '')
            self.assertEqual(self.faults(fields), [f'{path}:{line}'])
        self.plant(path, '    hidden: u64,\n', '    pub hidden: u64,\n')
        self.assertEqual(self.faults(fields), [path + ':9'])
        self.write('tests/rules/fields.txt', path + ' Sum\n')
        self.assertEqual(self.faults(fields), [])
        self.write(path, FILES[path])
        self.assertEqual(self.faults(fields), ['tests/rules/fields.txt:1'])

    def test_exports(self):
        """An item that nobody imports and no page promises; a block of a page promises nothing."""
        path = 'crates/fzn_low/src/lib.rt'
        for old, new, line in (('    sum,\n', '    sum,\n    other,\n', 10), ('    sum,\n', '    sum as sums,\n', 9),
                               ('    sum,\n', '    sum, inner::{deep},\n', 9), ('mod sum;\n', 'pub mod sums;\n', 12),
                               ('mod sum;\n', 'pub const fn quoted() {}\n', 12)):
            self.plant(path, old, new)
            self.assertEqual(self.faults(exports), [f'{path}:{line}'], new)
        self.write('tests/rules/exports.txt', 'fzn_low quoted\n')
        self.assertEqual(self.faults(exports), [])
        self.write(path, FILES[path])
        self.assertEqual(self.faults(exports), ['tests/rules/exports.txt:1'])

    def test_unneeded(self):
        """What was imported, named in contracts or promised, and is so no more; what lemmas name is needed too."""
        for path, old, line in (('crates/fzn_high/src/lib.rt', 'sum as of', 9), ('crates/fzn_high/src/place.rt', 'Place', 8),
                                ('README.md', 'promised', 8)):
            self.plant(path, old, 'none')
            self.assertEqual(self.faults(exports), [f'crates/fzn_low/src/lib.rt:{line}'], path)
            self.write(path, FILES[path])
        self.plant('crates/fzn_high/src/place.rt', 'Place', 'none')
        self.write('crates/fzn_high/proofs/Lemmas.antt', 'use Rattle.fzn_low.specs.declared.sum.{Place as P}\n')
        self.assertEqual(self.faults(exports), [])


if __name__ == '__main__':
    unittest.main()
