"""A search whose certificate is checked while it is written."""
import contextlib
import subprocess
import sys

from nickelmouse.bound import BOUND, cut_from
from nickelmouse.counts import counted, printed_items
from nickelmouse.following import Follower, Lines
from nickelmouse.printing import Copies
from nickelmouse.processes import PROCESSES
from nickelmouse.running import REJECTED, Ended, Refused, say, started
from nickelmouse.through import refused_by
from nickelmouse.workers import Told, Worker


def told_in(process, files, name):
    """Waits for a program that says its faults in a file of the folder, which is removed."""
    status = PROCESSES.wait(process)
    said = files.read(name).decode('utf-8', 'replace').strip()
    files.remove(name)
    return Told(status, said)


def check_end(files, name, told):
    """Whether fzncheck has accepted a certificate. Raises what ends the run where it has not."""
    if told.status == 0:
        return
    files.remove(f'{name}.answer')
    if told.status == 1:
        say(told.last())
        raise Ended(1, REJECTED)
    if told.status == 4:
        raise Refused(4, told.last())
    raise Ended(1, f'not checked: {told.last()}')


class Search:
    """One search over a folder that has `model.fzn`, by a worker whose certificate is checked. It leaves the certificate in `NAME.fzc`, and in
    `NAME.answer` what fzncheck printed once it had accepted it; the certificate only where it is kept. `words` go to fznsolve, `checking` to
    fzncheck; what --bound says there is left in `bound`; `value` is that of the objective, where fznsolve has not told of it. What fznsolve prints meanwhile goes to `shown`, if that is given, and is left in
    `NAME.shown`; where it `tells`, what it says goes on to standard error. `heard` is called with each solution that the certificate shows.
    `before` and `is_spare` are those of the worker; `model` is the file that it reads, if it is another one with the same certificates."""

    def __init__(self, programs, files, words, checking, keeps, shown=None, tells=False, name='model', heard=None, before=(),
                 is_spare=False, model='model.fzn'):
        self.programs, self.files, self.checking, self.name = programs, files, checking, name
        self.keeps, self.shown, self.tells, self.heard = keeps, shown, tells, heard
        self.words, self.checker = words, None
        self.worker = Worker(programs.solve, words, files.path(model), self.path('fzc'), before, is_spare)
        self.bound, self.value, self.told, self.lines = None, None, None, Lines()

    def path(self, ending):
        """The path of one of its files."""
        return self.files.path(f'{self.name}.{ending}')

    def cut(self):
        """Ends the search now."""
        self.worker.cut()

    def end(self):
        """Ends the search now, and its check."""
        self.cut()
        if self.checker is not None:
            self.checker.kill()

    def is_closed(self):
        """Whether its certificate says that there is nothing better, or nothing else."""
        return self.lines.is_closed()

    def remove(self):
        """Removes what it has left."""
        self.files.remove(*(f'{self.name}.{ending}' for ending in ('fzc', 'answer', 'shown', 'said', 'checking')))

    def run(self):
        """Searches and checks. Gives how fznsolve ended."""
        self.files.remove(f'{self.name}.fzc')
        with open(self.path('answer'), 'wb') as answer, open(self.path('checking'), 'wb') as checking:
            checker = self.checker = started([self.programs.check, *self.checking, self.files.path('model.fzn'), '/dev/stdin'],
                              is_spare=self.worker.is_spare, stdin=subprocess.PIPE, stdout=answer, stderr=checking)
        follower = Follower(self.path('fzc'), checker.stdin, self.cut, self.heard)
        self.lines = follower.lines
        told = self.told = self.searched(follower)
        if told.is_faulty():
            self.give_up(checker, told)
        if follower.fault is None:
            self.end_certificate(told, follower)
        if told.status != 0 and not self.worker.is_cut and not self.worker.is_spare:
            say(f'the search ended early: {told.last()}')
        with contextlib.suppress(BrokenPipeError):
            checker.stdin.close()
        check_end(self.files, self.name, told_in(checker, self.files, f'{self.name}.checking'))
        if BOUND in self.checking:
            self.bound = cut_from(self.path('answer'))
        return told

    def searched(self, follower):
        """Runs fznsolve to its end, or until the search is cut, and has its certificate followed. Gives how it ended."""
        with open(self.path('said'), 'wb') as said:
            self.worker.start(subprocess.DEVNULL if self.shown is None else subprocess.PIPE)
            solver = self.worker.process
            follower.start()
            copies = [Copies(solver.stderr, [said, sys.stderr.buffer] if self.tells else [said], self.cut)]
            with contextlib.ExitStack() as stack:
                if self.shown is not None:
                    file = stack.enter_context(open(self.path('shown'), 'wb'))
                    copies.append(Copies(solver.stdout, [file, self.shown], self.cut))
                for one in copies:
                    one.start()
                for one in copies:
                    one.join()
        told = told_in(solver, self.files, f'{self.name}.said')
        follower.finish()
        for one in copies:
            if one.fault is not None:
                raise one.fault
        return told

    def give_up(self, checker, told):
        """Ends the checker, and tells why nothing was solved."""
        checker.kill()
        with contextlib.suppress(BrokenPipeError):
            checker.stdin.close()
        PROCESSES.wait(checker)
        self.remove()
        raise refused_by(self.programs.through, told) or Refused(told.status, told.last())

    def missing_end(self, told, lines):
        """What a certificate wants behind its whole lines: where a search has left it without an end, these say what is known."""
        if told.status == 0 or lines.has_end():
            return b''
        return self.missing_heading(lines) + b'e open\n'

    def missing_heading(self, lines):
        """What wants in front of the steps. A sum of no constraints stands for each that was to be derived."""
        if lines.heading >= 2:
            return b'c lin ;\n' * (lines.wanted - lines.heading)
        counts = counted(printed_items(self.programs.check, self.files.path('model.fzn')))
        second = b'vars %d cons %d%s\n' % (counts.variables, counts.constraints, b' new 0' if lines.is_third else b'')
        return second if lines.heading == 1 else b'fzc 2\n' + second

    def end_certificate(self, told, follower):
        """Ends a certificate, as the checker reads it and in its file."""
        end = self.missing_end(told, follower.lines)
        with contextlib.suppress(BrokenPipeError):
            follower.sink.write(end)
            follower.sink.flush()
        if not self.keeps:
            self.files.remove(f'{self.name}.fzc')
        elif end or follower.lines.rest:
            with open(self.path('fzc'), 'ab') as file:
                file.truncate(follower.lines.bytes)
                file.write(end)
