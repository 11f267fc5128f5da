"""The rule of exports: what a crate shows at its head, in src/lib.rt, is imported by another crate or promised on a page. What is neither,
and was not when the rule came, stands in exports.txt, each behind its crate."""
import re

from listed import faults_against
from tree import Fault, line_at, without_comments

LIST = 'exports.txt'
SHOWN = re.compile(r'^pub use ([^;]*);', re.M)
ITEM = re.compile(r'^pub (?:async |const |unsafe )*(?:fn|struct|enum|union|trait|type|const|static|mod) (\w+)', re.M)
IMPORT = re.compile(r'fzn\w+::')
GHOST = re.compile(r'Rattle\.(\w+)\.specs\.declared\.([\w.]+)(?:\{([^}]*)\})?')
FENCE = re.compile(r'^```.*?^```', re.M | re.S)
SPAN = re.compile(r'`(?:fzn_\w+::)?(\w+)[^`\n]*`')


def inside(text, place):
    """What stands between the brace at this place and the one that closes it."""
    depth = 0
    for at in range(place, len(text)):
        depth += (text[at] == '{') - (text[at] == '}')
        if depth == 0:
            return text[place + 1:at]
    return text[place + 1:]


def parts_of(text):
    """The parts of a list that commas separate, those in inner braces as one."""
    parts, depth = [''], 0
    for sign in text:
        depth += (sign == '{') - (sign == '}')
        if sign == ',' and depth == 0:
            parts.append('')
        else:
            parts[-1] += sign
    return [part.strip() for part in parts if part.strip()]


def names_brought(path):
    """The names that a path of `use` brings, each by the name that it has afterwards."""
    brace = path.find('{')
    parts = [path.strip()] if brace < 0 else parts_of(inside(path, brace))
    for part in parts:
        if '{' in part:
            yield from names_brought(part)
        else:
            yield re.split(r'::|\s+as\s+', part)[-1]


def shown_by(tree, crate):
    """The names that a library shows at its head, each with its line."""
    text = without_comments(tree.text(f'crates/{crate}/src/lib.rt'))
    for found in SHOWN.finditer(text):
        for name in names_brought(found[1]):
            named = re.compile(r'\b%s\b(?!::)' % re.escape(name)).search(text, found.start())
            yield name, line_at(text, named.start())
    for found in ITEM.finditer(text):
        yield found[1], line_at(text, found.start())


def imported_in(text, libraries):
    """The names that a text takes from libraries: pairs of a library and a name."""
    for found in IMPORT.finditer(text):
        library, rest = found[0][:-2], found.end()
        if library in libraries:
            parts = parts_of(inside(text, rest)) if text[rest] == '{' else [text[rest:rest + 200]]
            for part in parts:
                yield library, re.match(r'\w*', part)[0]


def named_in(text):
    """The types and constants of libraries that contracts, definitions and lemmas name: pairs of a library and a name."""
    for found in GHOST.finditer(text):
        for name in re.findall(r'\b[A-Z]\w*', found[2]) + re.findall(r'\w+', found[3] or ''):
            yield found[1], name


def taken_from_others(tree):
    """What the code and the definitions of any crate take from another: pairs of a library and a name."""
    taken = set()
    for crate in tree.libraries:
        for path in tree.sources(crate):
            taken.update(pair for pair in imported_in(without_comments(tree.text(path)), tree.libraries) if pair[0] != crate)
        for path in tree.sources(crate) + tree.specs(crate):
            taken.update(pair for pair in named_in(tree.text(path)) if pair[0] != crate)
    return taken


def is_in_proofs(tree, crate, name):
    """Whether the lemmas of a crate that uses this one name the item."""
    texts = (tree.text(path) for user, used in tree.libraries.items() if crate in used for path in tree.proofs(user))
    return any(name in text and (crate, name) in named_in(text) for text in texts)


def promised(tree):
    """What the pages name between signs of code, by the first word."""
    pages = tree.files('docs', '.md') + ['README.md']
    return {name for path in pages for name in SPAN.findall(FENCE.sub('', tree.text(path)))}


def faults(tree):
    """All items that have come to be shown to nobody, and all listed ones that are needed, or not shown any more."""
    broken, taken, pages = {}, taken_from_others(tree), promised(tree)
    for crate in tree.libraries:
        for name, line in shown_by(tree, crate):
            if (crate, name) not in taken and name not in pages and not is_in_proofs(tree, crate, name):
                said = f'no other crate imports {name} of {crate} and no page promises it: show it no more, or promise it in docs/PROMISES.md'
                broken[f'{crate} {name}'] = [Fault(f'crates/{crate}/src/lib.rt', line, said)]
    return faults_against(tree, LIST, broken, 'is imported or promised, or is shown no more')
