"""MiniZinc as we call it: our configuration, and what it says of a model."""
import os
import subprocess

from nickelmouse.processes import PROCESSES
from nickelmouse.running import launcher_folder, started

NAME = 'nickelmouse-mzn'
INCONSISTENT = b'model inconsistency detected'
BY_THE_COMPILER = 'found by the compiler, unchecked'


def configuration():
    """The path of our configuration as ./install has put it, or nothing."""
    here = launcher_folder()
    beside = [os.path.join(here, folder, 'solvers', 'nickelmouse.msc') for folder in ('..', os.path.join('..', 'share', 'minizinc'))]
    paths = [os.environ.get('NICKELMOUSE', ''), *beside, os.path.expanduser('~/.minizinc/solvers/nickelmouse.msc')]
    return next(filter(os.path.isfile, paths), None)


def write_configuration(given, path, executable):
    """Writes our configuration anew, for another program that solves."""
    import json
    with open(given, encoding='utf-8') as file:
        words = json.load(file)
    words.update(executable=executable, id=NAME)
    with open(path, 'w', encoding='utf-8') as file:
        json.dump(words, file)


def compile_model(words, path, warned):
    """Compiles a model to the file at a path. Gives the compiler's status and what it warned of; `warned` is a file for that."""
    with open(warned, 'wb') as file:
        status = PROCESSES.wait(started(['minizinc', '-c', *words, '--fzn', path, '--no-output-ozn'], stdin=subprocess.DEVNULL, stderr=file))
    with open(warned, 'rb') as file:
        return status, file.read()


def read_bytes(path):
    """The bytes of a file; none, where it is not there."""
    try:
        with open(path, 'rb') as file:
            return file.read()
    except FileNotFoundError:
        return b''
