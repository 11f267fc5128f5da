"""How the compiled file grows with the model: each predicate of the library at rising sizes."""
import os
import re
import subprocess

HERE = os.path.dirname(os.path.abspath(__file__))
SECONDS = 60
# The sizes, and how many times as long the last file may be as the one before. The names in a file of ten times as many variables are longer too.
KINDS = {'linear': ((10, 100, 1000), 12), 'quadratic': ((10, 20, 40), 4.8)}


def read(path):
    """The predicates of a file: a line `== NAME KIND`, and then a model with `n`, but for its solve item. Gives name, kind and text."""
    with open(path, encoding='utf-8') as file:
        parts = re.split(r'^== (.*)\n', file.read(), flags=re.M)[1:]
    return [(*title.split(), text) for title, text in zip(parts[::2], parts[1::2])]


class Growth:
    """One predicate, compiled at each size, in a folder of its own."""

    def __init__(self, configuration, folder, name, kind, text):
        self.configuration, self.folder, self.name, self.text = configuration, os.path.join(folder, 'growth_' + name), 'growth_' + name, text
        self.sizes, self.most = KINDS[kind]

    def length(self, size):
        """The bytes of the compiled file. ValueError, where there is none."""
        flat = os.path.join(self.folder, f'{size}.fzn')
        words = ['minizinc', '-c', '--solver', self.configuration, '--no-output-ozn', '-D', f'n = {size}', '--fzn', flat,
                 os.path.join(self.folder, 'model.mzn')]
        try:
            done = subprocess.run(words, stdin=subprocess.DEVNULL, capture_output=True, text=True, timeout=SECONDS)
        except subprocess.TimeoutExpired as late:
            raise ValueError(f'not compiled within {SECONDS} s at n = {size}') from late
        if done.returncode != 0 or done.stderr:
            raise ValueError(f'at n = {size} the compiler says: {done.stderr.strip()[:600]}')
        length = os.path.getsize(flat)
        os.remove(flat)
        return length

    def run(self):
        """What is wrong, or None."""
        os.makedirs(self.folder, exist_ok=True)
        with open(os.path.join(self.folder, 'model.mzn'), 'w', encoding='utf-8') as model:
            model.write('int: n;\n' + self.text + 'solve satisfy;\n')
        try:
            lengths = [self.length(size) for size in self.sizes]
        except ValueError as why:
            return str(why)
        if lengths[-1] > self.most * lengths[-2]:
            return f'{lengths[-2]} bytes at n = {self.sizes[-2]}, {lengths[-1]} at {self.sizes[-1]}: more than {self.most} times as many'
        return None


def growths(configuration, folder, names):
    """The tests whose names begin with one of the names, or all."""
    tests = [Growth(configuration, folder, *one) for one in read(os.path.join(HERE, 'growth.txt'))]
    return [test for test in tests if not names or any(test.name.startswith(name) for name in names)]
