"""The words of the commands that have no others than their own, and how a command ends."""
import argparse
import os
import sys
import tempfile

from nickelmouse.processes import Interrupted
from nickelmouse.running import Broken, Programs, Refused, program, say


class Words(argparse.ArgumentParser):
    """A parser whose faults are one line and status 3."""

    def __init__(self, **options):
        super().__init__(formatter_class=argparse.RawDescriptionHelpFormatter, allow_abbrev=False, **options)

    def error(self, message):
        self.exit(3, f'{self.prog}: {message}\n')


def written_out(status):
    """The status of a command once all that it printed is written: 4 where that can't be. Nothing is left to be written then, since Python
    would try so again at its end, and complain."""
    for stream in (sys.stdout, sys.stderr):
        try:
            stream.flush()
        except OSError as fault:
            os.dup2(os.open(os.devnull, os.O_WRONLY), stream.fileno())
            if not isinstance(fault, BrokenPipeError) and status in (0, 1):
                say(f'standard output: {fault.strerror}')
            status = status if status > 1 else 4
    return status


def ended(command):
    """Runs a command, and gives its status: 2 for a refusal, 4 where a file or a program is not there, 130 at Ctrl-C."""
    try:
        status = command()
    except Refused as fault:
        say(fault)
        status = 4 if fault.status == 4 else 2
    except Broken as fault:
        say(fault)
        status = 2
    except BrokenPipeError:
        status = 4
    except OSError as fault:
        say(f'{fault.filename or "a file"}: {fault.strerror}')
        status = 4
    except Interrupted as fault:
        say(fault)
        status = fault.status
    except KeyboardInterrupt:
        status = 130
    return written_out(status)


def explained(options):
    """Tells why the file of the words has no better answer. Returns the status."""
    from nickelmouse import why
    with open(options.model, 'rb') as file:
        text = file.read()
    table = None
    if options.paths:
        with open(options.paths, encoding='utf-8') as file:
            table = file.read()
    with tempfile.TemporaryDirectory() as folder:
        asked = why.Asked(Programs(options.solve, options.check), folder, options.nodes, options.try_nodes)
        return why.told(asked, text, table)


def main_of_why():
    """The command `why`."""
    from nickelmouse import why
    words = Words(prog='why', description=why.__doc__)
    words.add_argument('model')
    words.add_argument('--nodes', type=int, default=10_000_000)
    words.add_argument('--try-nodes', type=int, default=100_000)
    words.add_argument('--paths', metavar='TABLE')
    words.add_argument('--solve', default=program('fznsolve'))
    words.add_argument('--check', default=program('fzncheck'))
    options = words.parse_args()
    return ended(lambda: explained(options))
