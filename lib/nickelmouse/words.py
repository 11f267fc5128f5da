"""The command line of `nickelmouse`."""
import argparse
import os
import re
from dataclasses import dataclass, field

from nickelmouse.command import Words
from nickelmouse.limits import seconds_in
from nickelmouse.machines import Machines, add_words, machines_of
from nickelmouse.machines import wrong_with as wrong_with_machines

DESCRIPTION = """Solves a model and has the answer checked: what is printed, fzncheck has accepted.

    nickelmouse [OPTION ..] MODEL [DATA ..]
    nickelmouse --why [OPTION ..] MODEL [DATA ..]
    nickelmouse check FOLDER

MODEL is a MiniZinc model (.mzn), with its data (.dzn, .json), or a FlatZinc file (.fzn). The last line is `checked`; `checked within -N..N`
where a variable needed --bounds; or it says what is wrong. `, by programs not yet proved on this machine` stands behind it where fzncheck was
built without proof. Where a better answer may be left, the line above says how much better it can be at most. A time limit, Ctrl-C and SIGTERM
end the search, and what it has found is checked and printed; a second Ctrl-C ends all. `nickelmouse check FOLDER` checks again what --keep
has left."""
# The words that go to the compiler: those with a value, and those without.
VALUED = ('-D', '--cmdline-data', '--cmdline-json-data', '-d', '--data', '-I', '--search-dir', '--stdlib-dir', '--output-mode', '--only-sections',
          '--not-sections', '--pre-passes')
BARE = ('-O0', '-O1', '-O2', '-O3', '-O4', '-O5', '--no-optimize', '--no-optimise', '--two-pass', '--use-gecode', '--shave', '--sac',
        '--no-chain-compression', '--only-range-domains', '--allow-multiple-assignments', '--no-half-reifications', '--output-objective',
        '--output-output-item', '--verbose-compilation', '--compiler-statistics', '-Werror')
# Without --jobs there are no more workers than these, however many processors there are.
MOST_JOBS = 8
MODELS, DATA = ('.mzn', '.fzn'), ('.dzn', '.json', '.mpc')


@dataclass
class Asked:
    """What a command line asks for: the words for the compiler and for the search, and the rest. `heard` is called with what --why
    finds."""
    files: list
    compiling: list = field(default_factory=list)
    solving: list = field(default_factory=list)
    every: bool = False
    nodes: int = 10_000_000
    try_nodes: int = None
    bounds: int = None
    keep: str = None
    explaining: bool = False
    unchecked: bool = False
    time_limit: float = None
    start: str = None
    intermediate: bool = False
    statistics: bool = False
    jobs: int = 1
    wanted: int = 1
    report: str = None
    heard: object = None
    machines: Machines = Machines()

    @property
    def is_flat(self):
        """Whether the model is a FlatZinc file."""
        return self.files[0].endswith('.fzn')


class ForTheCompiler(argparse.Action):
    """Hands a word on to the compiler, in its order."""

    def __call__(self, parser, options, values, word=None):
        options.compiling = (options.compiling or []) + [word] + ([] if values in (None, []) else [values])


def number(least, greatest):
    """What reads a number from the least to the greatest."""
    def read(text):
        if not re.fullmatch('[0-9]{1,20}', text) or not least <= int(text) <= greatest:
            raise argparse.ArgumentTypeError(f'a number from {least} to {greatest} is wanted, not {text!r}')
        return int(text)
    return read


def duration(text):
    """A time, in seconds."""
    try:
        return seconds_in(text)
    except ValueError as fault:
        raise argparse.ArgumentTypeError(str(fault)) from fault


def parser():
    """The parser of the command line."""
    words = Words(prog='nickelmouse', usage=argparse.SUPPRESS, description=DESCRIPTION)
    words.add_argument('files', nargs='*', metavar='MODEL, DATA', help=argparse.SUPPRESS)
    solving = words.add_argument_group('the search')
    solving.add_argument('-a', action='store_true', help='every solution; in an optimisation each better one too')
    solving.add_argument('-n', type=number(1, 10 ** 9), metavar='N', help='N solutions; an optimisation goes on to its end')
    solving.add_argument('-f', action='store_true', help="the search need not follow the model's annotations")
    solving.add_argument('--derive', action='store_true', help='derive constraints from those of the model before the search; not with cubes')
    solving.add_argument('-r', type=number(0, 2 ** 64 - 1), metavar='SEED', help='break ties by chance, from this seed')
    solving.add_argument('--nodes', '-node', type=number(0, 10 ** 12), metavar='N',
                         help='make at most N decisions (10000000); -node is the word of Gecode')
    solving.add_argument('--time-limit', type=duration, metavar='T', help='end the search after T: seconds, or as 10m, 2h')
    solving.add_argument('-t', type=number(0, 10 ** 11), metavar='MS', help='end the search after MS milliseconds; 0 is no limit')
    solving.add_argument('--start', metavar='FILE', help='begin with this plan: values by name, as NAME = VALUE; or a folder of --keep')
    solving.add_argument('--jobs', '-p', type=number(1, 1000), metavar='N',
                         help='search with N workers side by side (one for each processor, 8 at most); 1 is one run')
    solving.add_argument('--learn', choices=['first', 'plain'], help='which clause is learned (first)')
    solving.add_argument('--progress', '-v', action='store_true', help='tell on standard error how far the search has come')
    answer = words.add_argument_group('the answer')
    answer.add_argument('-i', action='store_true', help='in an optimisation, each better solution too')
    answer.add_argument('-s', action='store_true', help='print statistics of the search, as MiniZinc does')
    answer.add_argument('--bounds', type=number(1, 10 ** 9), metavar='N', help='integers without bounds lie in -N..N')
    answer.add_argument('--keep', metavar='FOLDER', help='leave the compiled file, the certificate and the answer in FOLDER, a new or an empty one')
    answer.add_argument('--report', metavar='FILE.html',
                        help='write a page about the answer: its search, its tasks over time, what was checked')
    answer.add_argument('--unchecked', action='store_true', help='print solutions as they are found; they are checked at the end all the same')
    answer.add_argument('--why', action='store_true', help='say why there is no solution, or none better')
    answer.add_argument('--try-nodes', type=number(0, 10 ** 12), metavar='N',
                        help='with --why: at most N decisions for the question whether one constraint is needed (100000)')
    add_words(words)
    compiling = words.add_argument_group('words that go to MiniZinc', f'{" ".join(VALUED)}, each with a value; {" ".join(BARE)}')
    for word in VALUED:
        compiling.add_argument(word, action=ForTheCompiler, dest='compiling', help=argparse.SUPPRESS)
    for word in BARE:
        compiling.add_argument(word, action=ForTheCompiler, dest='compiling', nargs=0, help=argparse.SUPPRESS)
    return words


def search_words(options):
    """The words for fznsolve."""
    words = [word for word, is_there in (('-a', options.a), ('-f', options.f), ('--derive', options.derive), ('--progress', options.progress)) if is_there]
    for word, value in (('-n', options.n), ('-r', options.r), ('--nodes', options.nodes), ('--learn', options.learn)):
        words += [word, str(value)] if value is not None else []
    return words


def processors():
    """How many processors we may use."""
    return len(os.sched_getaffinity(0))


def default_jobs():
    """How many workers there are where the words do not say."""
    return min(MOST_JOBS, processors())


def time_limit_of(options):
    """The shorter one of both time limits, in seconds, or nothing."""
    return min([seconds for seconds in (options.time_limit, options.t and options.t / 1000) if seconds], default=None)


def wrong_with(options):
    """What is wrong with words that are each right, or nothing."""
    models = [path for path in options.files if path.endswith(MODELS)]
    others = [path for path in options.files if not path.endswith(MODELS + DATA)]
    alone = (options.a, options.n, options.f, options.r, options.jobs, options.i, options.s, options.learn, options.derive, options.progress, options.unchecked,
             options.start)
    if others:
        return f'{others[0]}: the name of a model ends in .mzn or .fzn, that of data in .dzn or .json'
    if not models:
        return 'no model: nickelmouse --help'
    if any(path.endswith('.fzn') for path in models) and (len(options.files) > 1 or options.compiling):
        return 'a FlatZinc file has no data, and nothing of it is compiled'
    if options.report is not None:
        from nickelmouse.report import target
        wrong = target.wrong_with(options.report, target.read_by(options.files, options.compiling or [], options.start))
        if wrong is not None:
            return wrong
    if options.why and any(word not in (None, False) for word in alone):
        return '--why goes with --nodes, --try-nodes, --bounds, --keep, --report and the words for MiniZinc alone'
    if options.try_nodes is not None and not options.why:
        return '--try-nodes goes with --why'
    return wrong_with_machines(options)


def asked(given):
    """What a command line asks for. A faulty one ends the program with one line and status 3."""
    words, last = parser(), given.index('--') if '--' in given else len(given)
    options = words.parse_intermixed_args(given[:last])
    options.files += given[last + 1:]
    wrong = wrong_with(options)
    if wrong is not None:
        words.error(wrong)
    # MiniZinc takes a name that begins like a word for one.
    files = [os.path.join('.', path) if path.startswith('-') else path for path in options.files]
    return Asked(files, (options.compiling or []) + files, search_words(options), options.a,
                 10_000_000 if options.nodes is None else options.nodes, options.try_nodes, options.bounds, options.keep, options.why,
                 options.unchecked, time_limit_of(options), options.start, options.i, options.s,
                 options.jobs or default_jobs(), None if options.a else options.n or 1, options.report,
                 machines=machines_of(options))
