"""The words of the command line for more machines."""
import argparse
from dataclasses import dataclass

from nickelmouse.through import words_in

MOST, MOST_NODES = 10_000, 10_000_000


@dataclass(frozen=True)
class Machines:
    """What runs the solver: the words before each of its runs, how many cubes are searched at a time, the file of hosts, the folder for
    what is temporary, and the budget of decisions of the first cube."""
    through: tuple = ()
    cubes: int = None
    hosts: str = None
    folder: str = None
    budget: int = 1_000

    @property
    def has_cubes(self):
        """Whether the search goes by cubes."""
        return self.cubes is not None or self.hosts is not None

    def temporary(self):
        """The folder below which that for temporary files is made. Programs on other machines share the folder that we were started in, if
        any."""
        return self.folder if self.folder is not None or not self.through else '.'

    def search(self, programs, files, words, checking, keeps, tells):
        """The search by cubes."""
        from nickelmouse.hosts import read_hosts
        from nickelmouse.searching import CubeSearch
        return CubeSearch(programs, files, words, checking, keeps, self, read_hosts(self.hosts) if self.hosts is not None else (), tells)


def launcher(text):
    """The words before a run of the solver."""
    try:
        return words_in(text)
    except ValueError as fault:
        raise argparse.ArgumentTypeError(f'{text!r}: {fault}') from fault


def number(most):
    """What reads a number from 1 on."""
    def read(text):
        if not text.isascii() or not text.isdigit() or len(text) > 20 or not 1 <= int(text) <= most:
            raise argparse.ArgumentTypeError(f'a number from 1 to {most} is wanted, not {text!r}')
        return int(text)
    return read


def add_words(parser):
    """Adds the words to a parser."""
    words = parser.add_argument_group('more machines')
    words.add_argument('--through', type=launcher, default=(), metavar='WORDS',
                       help="put these words before each run of the solver, as 'srun -n1 -c1'; it shares our folder")
    words.add_argument('--cubes', type=number(MOST), metavar='N', help='cut the search into cubes, and search N of them at a time')
    words.add_argument('--cube-nodes', type=number(MOST_NODES), metavar='N', help='the budget of decisions of the first cube (1000)')
    words.add_argument('--hosts', metavar='FILE',
                       help='search cubes on the hosts in FILE, one a line as 8/HOST for 8 at a time, by GNU parallel')
    words.add_argument('--folder', metavar='PATH',
                       help='make the folder for temporary files below PATH (with --through: where we are started)')


def machines_of(options):
    """What the words say."""
    return Machines(options.through, options.cubes, options.hosts, options.folder, options.cube_nodes or Machines.budget)


def wrong_with(options):
    """What is wrong with words that are each right, or nothing."""
    machines = machines_of(options)
    if options.why and (machines.through or machines.has_cubes):
        return '--why does not go with --through, --cubes and --hosts'
    if options.cube_nodes is not None and not machines.has_cubes:
        return '--cube-nodes goes with --cubes and --hosts'
    if options.hosts is not None and (options.through or options.cubes is not None):
        return '--hosts does not go with --through and --cubes: its file says how many cubes are searched at a time'
    if machines.has_cubes and options.jobs is not None:
        return '--jobs does not go with --cubes and --hosts'
    if machines.has_cubes and options.unchecked:
        return '--unchecked does not go with --cubes and --hosts'
    return None
