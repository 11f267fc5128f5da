"""Programs that start the solver: the words of --through stand before each run of it, as `srun -n1 -c1`, `taskset -c 3` or `nice`."""
import contextlib
import os
import shlex
import signal
import subprocess
import threading

from nickelmouse.running import Refused, started

SECONDS = 2
# Ends when nobody can write to its standard input any more, which is when we end; then the session goes. Behind the name of a program,
# /proc has its state, its parent, its group and its session.
KEEPER = ['sh', '-c', r'''trap "" INT TERM HUP
read _
for time in 1 2; do
    kill -9 $(sed -n "s/^\([0-9]*\) (.*) [A-Za-z] [0-9]* [0-9]* $1 .*/\1/p" /proc/[0-9]*/stat 2>/dev/null) 2>/dev/null
done''', 'sh']
FAULT = 'fault '


def words_in(text):
    """The words before a run of the solver. A fault is a ValueError."""
    words = shlex.split(text)
    if not words:
        raise ValueError('the words that start a program are wanted')
    return tuple(words)


def members(session):
    """The numbers of the programs of a session."""
    found = []
    for name in filter(str.isdigit, os.listdir('/proc')):
        with contextlib.suppress(OSError):
            with open(f'/proc/{name}/stat', 'rb') as file:
                if int(file.read().rpartition(b') ')[2].split()[3]) == session:
                    found.append(int(name))
    return found


class Session(subprocess.Popen):
    """A program with all that it starts: a session of its own, which ends with us."""

    def __init__(self, words, **options):
        self.keeper = None
        super().__init__(words, **options)
        try:
            self.keeper = subprocess.Popen([*KEEPER, str(self.pid)], stdin=subprocess.PIPE, stdout=subprocess.DEVNULL,
                                           stderr=subprocess.DEVNULL, start_new_session=True, cwd='/')
        except OSError:
            self.send(signal.SIGKILL)
            super().wait()
            raise

    def send(self, number):
        """Sends a signal to all of the session."""
        for member in members(self.pid):
            with contextlib.suppress(ProcessLookupError, PermissionError):
                os.kill(member, number)

    def kill(self):
        """Ends all of it: what starts programs elsewhere may have something to end there, so that it has some time for it."""
        if self.keeper is not None:
            self.send(signal.SIGTERM)
            timer = threading.Timer(SECONDS, self.kill_rest)
            timer.daemon = True
            timer.start()

    def kill_rest(self):
        """Ends what is left."""
        if self.keeper is not None:
            self.send(signal.SIGKILL)

    def wait(self, timeout=None):
        """Waits for the end of the program, and ends what it has left behind."""
        status = super().wait(timeout)
        if self.keeper is not None:
            self.send(signal.SIGKILL)
            keeper, self.keeper = self.keeper, None
            keeper.kill()
            keeper.stdin.close()
            keeper.wait()
        return status


def launched(through, words, **options):
    """Starts a program, behind the words that start it, if there are any."""
    if not through:
        return started(words, **options)
    return started([*through, *words], kind=Session, end=Session.kill, is_alone=True, **options)


def refused_by(through, told):
    """What is wrong where a run has ended without a fault of the solver's own, so that the words before it are at fault; or nothing."""
    if not through or FAULT in told.said or told.status < 0:
        return None
    return Refused(4, f'{through[0]}: {told.last()}')
