"""A worker: one run of fznsolve over a file, which writes its certificate to another one. What is done with the certificate, others say."""
import subprocess
from dataclasses import dataclass

from nickelmouse.processes import PROCESSES
from nickelmouse.statistics import without_progress
from nickelmouse.through import launched

# The statuses of fznsolve behind which its certificate may be worth something: its own end, a file that it cannot write, want of memory.
USEFUL = (0, 4, 5)


@dataclass(frozen=True)
class Told:
    """How a program ended: its status, and what it said on standard error."""
    status: int
    said: str

    def last(self):
        """The last line that it said, or how it ended without one."""
        said = without_progress(self.said)
        if said:
            return said.splitlines()[-1]
        return f'killed by signal {-self.status}' if self.status < 0 else f'status {self.status}'

    def is_faulty(self):
        """Whether its certificate is worth nothing: it refused its file or its words."""
        return self.status >= 0 and self.status not in USEFUL


class Worker:
    """One run of fznsolve over the file `model`, with these words. `before` are words in front of the command, which start it in another way
    or elsewhere. One that can be spared gives way to others where memory or processors are short."""

    def __init__(self, solve, words, model, certificate, before=(), is_spare=False):
        self.command = [*before, solve, *words, '--cert', certificate, model]
        self.certificate, self.before, self.is_spare = certificate, before, is_spare
        self.process, self.is_cut = None, False

    def start(self, stdout=subprocess.DEVNULL, stderr=subprocess.PIPE):
        """Starts it, unless it was cut before, which ends it at once."""
        self.process = launched(self.before, self.command[len(self.before):], is_spare=self.is_spare, stdin=subprocess.DEVNULL,
                                stdout=stdout, stderr=stderr)
        if self.is_cut:
            self.process.kill()

    def cut(self):
        """Ends it now."""
        self.is_cut = True
        if self.process is not None:
            self.process.kill()

    def run(self):
        """Runs it to its end, and gives how it ended, with what it said."""
        self.start()
        _, said = PROCESSES.heard(self.process)
        return Told(self.process.returncode, said.decode('utf-8', 'replace').strip())
