"""Solves a MiniZinc model with a certificate, has it checked, and prints the solutions as the model's output item wants them.

    nickelmouse-mzn [-a] [-n N] [-f] [--derive] [-r N] [--nodes N] [--learn WORD] [--progress] [--bounds N] [--keep FOLDER]
                    MODEL.mzn [DATA.dzn ..] [-D TEXT ..]
    nickelmouse-mzn --why [--nodes N] [--try-nodes N] [--bounds N] [--keep FOLDER] MODEL.mzn [DATA.dzn ..] [-D TEXT ..]

The words up to --progress go to fznsolve, those behind --keep and its folder to the compiler. --bounds N, 1 to 10^9, gives each integer
that the compiler leaves without bounds those of -N..N. --keep leaves the file that was solved (model.fzn), the answer (model.answer), the
certificate (model.fzc) and the table that says what comes from where in the model (model.paths) in FOLDER. The last line is 'checked',
where fzncheck has accepted the certificate and printed the same answer; 'checked within -N..N', where that is so and a variable needed
--bounds; or it says what is wrong. The status is 0 only in the first two cases.

--why prints the constraints of the model that have no solution together, or none better: each place with its text, below it the indices of
its loops, and behind them the declarations of the variables, whose sets count as given. The line that counts them says 'minimal' where it was
checked of each that without it there is another answer, else how many were not decided after --try-nodes decisions each (100000). The status
is 0 where there is such a list, and 1 where there are solutions and nothing to be improved, or nothing was found."""
import json
import os
import re
import signal
import subprocess
import sys
import tempfile
import threading
from dataclasses import dataclass, field

from nickelmouse.command import ended
from nickelmouse.explaining import Explaining, explain_refusal
from nickelmouse.files import Files
from nickelmouse.items import items_of
from nickelmouse.mending import mended
from nickelmouse.minizinc import configuration, read_bytes, write_configuration
from nickelmouse.running import Ended, Programs, Refused, output_of, program, say

FOLDER = 'NICKELMOUSE_FOLDER'
UNSATISFIABLE = '=====UNSATISFIABLE====='


class Faulty(Exception):
    """A faulty command line, and what is wrong with it."""


@dataclass
class Words:
    """The words of a command line, by whom they are for."""
    solving: list = field(default_factory=list)
    compiling: list = field(default_factory=list)
    beside: list = field(default_factory=list)
    nodes: int = 10_000_000
    try_nodes: int = None
    bounds: int = None
    keep: str = None
    explaining: bool = False
    every: bool = False
    counted: bool = False
    heard: object = None

    def take(self, word, rest):
        """Takes one word, and what it wants of those behind it."""
        if word == '--why':
            self.explaining = True
        elif word in ('-a', '-f', '--derive', '--progress'):
            self.every = self.every or word == '-a'
            self.solving.append(word)
            self.beside.append(word)
        elif word in ('-n', '-r', '--learn', '--nodes', '--try-nodes', '--bounds', '--keep'):
            if not rest:
                raise Faulty(f'{word} wants a value')
            self.take_value(word, rest.pop(0))
        else:
            self.compiling.append(word)

    def take_value(self, word, value):
        """Takes a word with its value."""
        if word == '--keep':
            self.keep = value
        elif word == '--bounds':
            self.bounds = self.bound(value)
        elif word == '--try-nodes':
            self.try_nodes = self.number(word, value)
        else:
            self.solving += [word, value]
            if word == '--nodes':
                self.nodes = self.number(word, value)
            else:
                self.beside.append(word)
            self.counted = self.counted or word == '-n'

    @staticmethod
    def number(word, value):
        """A number of decisions."""
        if not re.fullmatch('[0-9]+', value):
            raise Faulty(f'{word} wants a number')
        return int(value)

    @staticmethod
    def bound(value):
        """The bound of --bounds."""
        if not re.fullmatch('[0-9]+', value) or not 1 <= int(value) <= 1_000_000_000:
            raise Faulty('--bounds wants a number from 1 to 1000000000')
        return int(value)

    def check(self):
        """Whether the words go together."""
        if not self.compiling:
            raise Faulty('no model: nickelmouse-mzn --help')
        if self.explaining and self.beside or not self.explaining and self.try_nodes is not None:
            raise Faulty('--why goes with --nodes, --try-nodes, --bounds and --keep, and --try-nodes with --why')


def words_of(given):
    """The words of a command line."""
    words, rest = Words(), list(given)
    while rest:
        words.take(rest.pop(0), rest)
    words.check()
    return words


def followed(source, *targets):
    """Hands on what comes from a source to all targets, as it comes."""
    while piece := source.read1(1 << 16):
        for target in targets:
            target.write(piece)
            target.flush()


def solver_side(files, flat):
    """What MiniZinc starts as its solver: mends the compiled file, solves it, and hands on what the solver says. Returns the status."""
    task = json.loads(files.read('task'))
    model = mended(task['check'], read_bytes(flat), task['bounds'])
    files.write('model.fzn', model.text)
    if model.within:
        files.write('within', b'')
    words = [task['solve'], *task['words'], '--cert', files.path('model.fzc'), files.path('model.fzn')]
    with subprocess.Popen(words, stdout=subprocess.PIPE, stderr=subprocess.PIPE) as solver, \
            open(files.path('model.answer'), 'wb') as answer, open(files.path('said'), 'wb') as said:
        signal.signal(signal.SIGTERM, lambda *_: (solver.kill(), sys.exit(143)))
        aside = threading.Thread(target=followed, args=(solver.stderr, said, sys.stderr.buffer))
        aside.start()
        followed(solver.stdout, answer, sys.stdout.buffer)
        aside.join()
    files.write('status', str(solver.returncode).encode())
    return solver.returncode


class Run:
    """One run of nickelmouse-mzn over a folder."""

    def __init__(self, words, files):
        self.words, self.files = words, files
        self.programs = Programs(program('fznsolve'), program('fzncheck'))
        given = configuration()
        if given is None:
            say('MiniZinc does not know nickelmouse: run ./install')
            raise Ended(1)
        files.remove('status', 'within', 'model.fzn')
        self.configuration = files.path('nickelmouse.msc')
        write_configuration(given, self.configuration, os.path.realpath(sys.argv[0]))

    def explain(self):
        """Says why there is no solution, or none better."""
        Explaining(self.programs, self.files, self.words, self.configuration).explain_model()

    def solve(self):
        """Has MiniZinc compile, solve and print; and has the certificate checked."""
        files = self.files
        files.write('task', json.dumps({'check': self.programs.check, 'solve': self.programs.solve, 'words': self.words.solving,
                                        'bounds': self.words.bounds}).encode())
        words = ['minizinc', '--solver', self.configuration, '--output-paths-to-file', files.path('model.paths'), *self.words.compiling]
        with subprocess.Popen(words, stdout=subprocess.PIPE, env=dict(os.environ, **{FOLDER: files.folder})) as compiler, \
                open(files.path('shown'), 'wb') as shown:
            followed(compiler.stdout, shown, sys.stdout.buffer)
        files.remove('nickelmouse.msc', 'task')
        status = files.read('status')
        if not status:
            raise Ended(1, self.without_status())
        files.remove('shown')
        if int(status) != 0:
            explain_refusal(self.programs.check, files, files.read('said').decode('utf-8', 'replace'))
            raise Ended(1, 'not solved')
        files.remove('status', 'said')
        if compiler.returncode != 0:
            raise Ended(1, 'the solutions cannot be printed')
        self.check()

    def without_status(self):
        """The last line where the solver did not come to its end."""
        shown = self.files.read('shown').decode('utf-8', 'replace').splitlines()
        self.files.remove('shown')
        if os.path.exists(self.files.path('model.fzn')):
            return 'not ended'
        return 'found by the compiler, unchecked' if UNSATISFIABLE in shown else 'not compiled'

    def check(self):
        """Has the certificate checked, and compares the answers."""
        files, flat, cert = self.files, self.files.path('model.fzn'), self.files.path('model.fzc')
        # Of an optimisation only -a prints more than the last solution.
        every = self.words.every or self.words.counted and items_of(self.programs.check, flat).goal.word == 'satisfy'
        try:
            checked = output_of([self.programs.check, *(['-a'] if every else []), flat, cert])
        except Refused as fault:
            say(fault)
            raise Ended(1, 'the certificate is rejected') from fault
        if checked != files.read('model.answer'):
            raise Ended(1, 'the certificate shows another answer')
        within = os.path.exists(files.path('within'))
        files.remove('within')
        raise Ended(0, self.programs.checked(self.words.bounds if within else None))


def run_in(words, folder):
    """Runs a command line over a folder. Returns the status."""
    try:
        run = Run(words, Files(folder))
        run.explain() if words.explaining else run.solve()
    except Ended as end:
        sys.stdout.flush()
        for line in end.lines:
            print(line)
        return end.status


def command(words):
    """Runs a command line over the folder that is kept, or over one that is removed. Returns the status."""
    if words.keep is not None:
        os.makedirs(words.keep, exist_ok=True)
        return run_in(words, os.path.realpath(words.keep))
    with tempfile.TemporaryDirectory() as folder:
        return run_in(words, folder)


def main():
    """The command `nickelmouse-mzn`, and what MiniZinc starts for it."""
    if os.environ.get(FOLDER):
        return ended(lambda: solver_side(Files(os.environ[FOLDER]), sys.argv[-1]))
    if set(sys.argv[1:]) & {'-h', '--help'}:
        print(__doc__)
        return 0
    try:
        words = words_of(sys.argv[1:])
    except Faulty as fault:
        say(fault)
        return 3
    return ended(lambda: command(words))
