"""The command `nickelmouse`, from its words to its status."""
import contextlib
import os
import sys
from dataclasses import replace

from nickelmouse import kept
from nickelmouse.answering import Answering
from nickelmouse.command import Words, ended, written_out
from nickelmouse.files import Files
from nickelmouse.folders import Temporary
from nickelmouse.limits import Limits
from nickelmouse.processes import PROCESSES
from nickelmouse.running import Ended, Programs, Refused, program, say
from nickelmouse.words import asked


def programs():
    """The two proved programs. Refused, where one is not there."""
    found = Programs(program('fznsolve'), program('fzncheck'))
    for path in (found.solve, found.check):
        if not os.access(path, os.X_OK):
            raise Refused(4, f'{path} is not there, or cannot be run: ./build, then ./install')
    return found


def to_its_end(run, mark=''):
    """Runs to the end, and prints the last lines, each behind a mark. Returns the status."""
    try:
        run()
    except Ended as end:
        sys.stdout.flush()
        for line in end.lines:
            print(mark + line)
        sys.stdout.flush()
        return end.status


def page_of(words, programs):
    """The page that is asked for, or nothing."""
    if words.report is None:
        return contextlib.nullcontext()
    from nickelmouse.report.reporting import Reporting
    return Reporting(words, programs)


def answered(words, mark=''):
    """Answers a command line, its last lines behind a mark. Returns the status."""
    for path in words.files:
        with open(path, 'rb'):
            pass
    found = replace(programs(), through=words.machines.through)
    kept_folder = contextlib.nullcontext(kept.empty_folder(words.keep)) if words.keep is not None else None
    with page_of(words, found) as page, Limits(words.time_limit) as limits, kept_folder or Temporary(words.machines.temporary()) as folder:
        status = None
        try:
            run = Answering(words, found, Files(folder), limits).run
            status = to_its_end(run if page is None else page.around(run, Files(folder)), mark)
            return status
        finally:
            limits.close()
            PROCESSES.cleared()
            if words.keep is not None:
                kept.tidy(Files(folder), status)


def checked_again(given):
    """Checks a kept folder again. Returns the status."""
    words = Words(prog='nickelmouse check', usage='nickelmouse check FOLDER', description=kept.__doc__)
    words.add_argument('folder', metavar='FOLDER')
    folder = words.parse_args(given).folder
    return to_its_end(lambda: kept.check_again(programs(), Files(folder)))


def settled(command):
    """Runs a command, and gives its status: whatever goes wrong that is nobody's fault here is one line and 4."""
    try:
        status = ended(command)
    except Exception as fault:
        say(f'nickelmouse: {type(fault).__name__}: {" ".join(str(fault).split())}')
        return written_out(4)
    return 4 if status == 2 else status


def main():
    """The command."""
    given = sys.argv[1:]
    if given[:1] == ['check']:
        return settled(lambda: checked_again(given[1:]))
    words = asked(given)
    return settled(lambda: answered(words))


def main_of_solver():
    """What MiniZinc starts as its solver: the last line is a comment, which MiniZinc hands on."""
    words = asked(sys.argv[1:])
    return settled(lambda: answered(words, '% '))
