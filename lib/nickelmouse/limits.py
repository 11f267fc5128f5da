"""What ends a search before its own end: a time limit, Ctrl-C, SIGTERM, the end of its terminal."""
import re
import signal
import threading
import time

from nickelmouse.early import BEGIN
from nickelmouse.processes import ENDING, PROCESSES, Interrupted
from nickelmouse.running import Ended

UNITS = {'': 1, 's': 1, 'm': 60, 'h': 3600}
LONGEST = 10 ** 8
# MiniZinc and a terminal may both send a signal for one Ctrl-C.
PAUSE = 1.0


def seconds_in(text):
    """The seconds that are written as a number with `s`, `m`, `h` or no unit behind it. A fault is a ValueError."""
    found = re.fullmatch(r'([0-9]{1,9}(?:\.[0-9]{1,9})?)([smh]?)', text)
    seconds = float(found[1]) * UNITS[found[2]] if found else 0
    if not 0 < seconds <= LONGEST:
        raise ValueError(f'a time is wanted, as 90, 10m or 2h, not {text!r}')
    return seconds


def left_of(seconds):
    """What is left of a time that began with the command."""
    return max(0.0, seconds - (time.monotonic() - BEGIN))


class Limits:
    """The limits of one run. Before there is a search each of them ends the run; from then on the first cuts the search, and what it has found
    is checked. A signal that comes more than a second behind the first one ends the run in any case."""

    def __init__(self, seconds=None):
        self.cut, self.first = None, None
        self.timer = threading.Timer(left_of(seconds), self.late) if seconds is not None else None

    def __enter__(self):
        for number in ENDING:
            signal.signal(number, self.came)
        if self.timer is not None:
            self.timer.daemon = True
            self.timer.start()
        return self

    def __exit__(self, *_):
        self.close()

    def close(self):
        """From now on a signal changes nothing: what is left to be done is to leave nothing behind."""
        for number in ENDING:
            signal.signal(number, signal.SIG_IGN)
        if self.timer is not None:
            self.timer.cancel()

    def came(self, number, _):
        """Takes a signal."""
        now = time.monotonic()
        if self.first is None and self.cut is not None:
            self.first = now
            self.cut()
        elif self.first is None or now - self.first > PAUSE:
            PROCESSES.end(Interrupted(number))

    def late(self):
        """The time is over."""
        if self.cut is not None:
            self.cut()
        else:
            PROCESSES.end(Ended(1, 'not solved within the time limit'))
