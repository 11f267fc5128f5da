"""The programs that we have started: none of them outlives us."""
import contextlib
import os
import signal
import subprocess

from nickelmouse.parents import dies_with_its_parent

ENDING = (signal.SIGINT, signal.SIGTERM, signal.SIGHUP)
# By how much a program that can be spared is nicer than others.
NICER = 5


class Interrupted(Exception):
    """A signal that ended a run before there was an answer."""

    def __init__(self, number):
        super().__init__('interrupted')
        self.status = 128 + number


def give_way():
    """Has the machine end this process before others where memory is short, and run others first where processors are."""
    os.nice(NICER)
    with contextlib.suppress(OSError), open('/proc/self/oom_score_adj', 'wb', buffering=0) as file:
        file.write(b'1000')


def in_the_child(parent, is_alone, is_spare):
    """Has the program end where we are killed, and leaves to us what a signal to the whole group means: where it is alone, it gets none."""
    if is_alone:
        os.setsid()
    if is_spare:
        give_way()
    for number in ENDING:
        signal.signal(number, signal.SIG_DFL if is_alone else signal.SIG_IGN)
    dies_with_its_parent()
    if os.getppid() != parent:
        os._exit(1)


class Processes:
    """The programs that were started and have not ended yet, and the exception that all of them were ended for."""

    def __init__(self):
        self.going, self.ended_for = {}, None

    def start(self, words, end=subprocess.Popen.kill, is_alone=False, is_spare=False, kind=subprocess.Popen, **options):
        """Starts a program, which ends with the thread that starts it. `end` ends it, without waiting; where it is alone, it has a group of its
        own; where it can be spared, it gives way to others when memory or processors are short. `kind` makes it."""
        parent = os.getpid()
        process = kind(words, preexec_fn=lambda: in_the_child(parent, is_alone, is_spare), **options)
        self.going[process] = end
        if self.ended_for is not None:
            end(process)
        return process

    def end(self, reason):
        """Ends all of them, and those that are started from now on. Who waits for one gets the exception."""
        self.ended_for = reason
        for process, end in list(self.going.items()):
            end(process)

    def go_on(self):
        """Raises the exception that all of them were ended for, if they were."""
        if self.ended_for is not None:
            raise self.ended_for

    def left(self, process):
        """Takes note that a program has ended."""
        self.going.pop(process, None)
        self.go_on()

    def wait(self, process):
        """Waits for the end of a program, and gives its status."""
        status = process.wait()
        self.left(process)
        return status

    def heard(self, process):
        """What a program printed on standard output and on standard error, to its end."""
        try:
            heard = process.communicate()
        except BaseException:
            process.kill()
            process.wait()
            self.going.pop(process, None)
            raise
        self.left(process)
        return heard

    def cleared(self):
        """Ends those that go on, and waits for their ends."""
        for process, end in list(self.going.items()):
            end(process)
            process.wait()
            self.going.pop(process, None)


PROCESSES = Processes()
