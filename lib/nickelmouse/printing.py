"""How an answer is printed: as it stands, or by a printer that MiniZinc stands behind."""
import sys
import threading

from nickelmouse.processes import PROCESSES

PIECE = 1 << 16


class Plain:
    """Prints an answer as it stands."""

    def write(self, piece):
        """Prints a piece."""
        sys.stdout.buffer.write(piece)
        sys.stdout.buffer.flush()

    def close(self):
        """Nothing is left to be printed."""


def print_rest(files, name, printer, shown, behind=b''):
    """Prints an answer of a folder behind its first bytes, which were shown already, and something behind it."""
    with open(files.path(name), 'rb') as file:
        file.seek(shown)
        while piece := file.read(PIECE):
            PROCESSES.go_on()
            printer.write(piece)
    if behind:
        printer.write(behind)
    printer.close()


def begins_with(files, name, front):
    """Whether one file of a folder begins with another one."""
    with open(files.path(name), 'rb') as whole, open(files.path(front), 'rb') as begin:
        while piece := begin.read(PIECE):
            if whole.read(len(piece)) != piece:
                return False
    return True


class Copies(threading.Thread):
    """Hands on what comes from a program to others as it comes. One that fails gets no more, and `failed` is called."""

    def __init__(self, source, targets, failed):
        super().__init__(daemon=True)
        self.source, self.targets, self.failed, self.fault = source, list(targets), failed, None

    def run(self):
        while piece := self.source.read1(PIECE):
            for target in list(self.targets):
                try:
                    target.write(piece)
                    if hasattr(target, 'flush'):
                        target.flush()
                except OSError as fault:
                    self.fault = fault
                    self.targets.remove(target)
                    self.failed()
