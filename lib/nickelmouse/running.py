"""The two proved programs: where they are, how they are run, and what they say."""
import contextlib
import os
import re
import subprocess
import sys
from dataclasses import dataclass

from nickelmouse.processes import PROCESSES
from nickelmouse.proved import UNPROVED, is_proved

REJECTED = 'the certificate is rejected'
FAULT_AT = re.compile(r'^line (\d+) column (\d+): fault (\d+) ', re.M)


class Refused(Exception):
    """A program that ended with a fault: its status, and what it said."""

    def __init__(self, status, said):
        super().__init__(said or f'status {status}')
        self.status = status


class Broken(Exception):
    """A program that said what it never says, so that nothing can be told."""


class Ended(Exception):
    """How a run ends: its status, and the lines that it prints last, if there are any."""

    def __init__(self, status, *lines):
        super().__init__('\n'.join(lines))
        self.status, self.lines = status, lines


def say(line):
    """Says a line on standard error, where that can be written."""
    with contextlib.suppress(OSError):
        print(line, file=sys.stderr, flush=True)


@dataclass(frozen=True)
class Programs:
    """The paths of the solver and of the checker, and the words that stand before each run of the solver."""
    solve: str
    check: str
    through: tuple = ()

    def checked(self, within=None):
        """The last line of an answer that the checker has accepted, where a variable needed bounds within these."""
        line = 'checked' if within is None else f'checked within -{within}..{within}'
        return line if is_proved(self.check) else f'{line}, {UNPROVED}'


@dataclass(frozen=True)
class Fault:
    """A fault that stands at a place of a file."""
    line: int
    column: int
    number: int


def fault_in(said):
    """The first fault with a place in what a program said, or nothing."""
    found = FAULT_AT.search(said)
    return Fault(*map(int, found.groups())) if found else None


def launcher_folder():
    """The folder of the script that was started."""
    return os.path.dirname(os.path.realpath(sys.argv[0]))


def program(name):
    """The path of a program of ours: as the environment says, beside the script that was started, or where ./build puts it. Where there is none,
    one that ./install has built without proof."""
    here = launcher_folder()
    paths = [os.path.join(here, *folder, name) for folder in ((), ('crates', name, 'out'), ('share', 'quick'))]
    return os.environ.get(name.upper()) or next(filter(os.path.isfile, paths), paths[1])


def started(words, **options):
    """Starts a program, which ends with us. Refused, where it is not there."""
    try:
        return PROCESSES.start(words, **options)
    except OSError as fault:
        raise Refused(4, f'{words[0]}: {fault.strerror}') from fault


def output_of(words):
    """What a program prints, to its end. A status other than 0 is a refusal."""
    process = started(words, stdin=subprocess.DEVNULL, stdout=subprocess.PIPE, stderr=subprocess.PIPE)
    printed, said = PROCESSES.heard(process)
    if process.returncode != 0:
        raise Refused(process.returncode, said.decode('utf-8', 'replace').strip())
    return printed
