"""Cubes on other machines, by GNU parallel: each run of it sends the solver and the file of one cube to one host, and fetches the
certificate as it is written. A host where that fails is left out."""
import os
import re
import shlex
import shutil
import subprocess
from dataclasses import dataclass

from nickelmouse.minizinc import read_bytes
from nickelmouse.running import Refused, say, started
from nickelmouse.slots import Slots, how_ended
from nickelmouse.through import Session

# A line as GNU parallel has it in a file for --sshloginfile: a number and a host, `8/ada` or `8/ada@host`, or this machine, `8/:`.
LINE = re.compile(r'(?:([1-9][0-9]{0,3})/)?(:|[A-Za-z0-9_][A-Za-z0-9_.@-]*)')
# What is said behind the end of a run on a host, however it has ended; without it the host was not reached, or was lost.
ENDED = re.compile(r'^ended ([0-9]+)$', re.M)
# What a host does: it takes the solver, so many bytes, from what it is sent, and the file of the cube is the rest.
SCRIPT = '''d=$(mktemp -d) && trap 'rm -rf "$d"' EXIT && trap 'exit 143' HUP INT TERM &&
head -c {length} >"$d/fznsolve" && chmod +x "$d/fznsolve" && "$d/fznsolve" {words} --cert /dev/fd/3 /dev/stdin 3>&1 >/dev/null
echo "ended $?" >&2'''
SSH = 'ssh -o BatchMode=yes -o ConnectTimeout=10 -o ServerAliveInterval=10'
PARALLEL = ['parallel', '--will-cite', '--ungroup', '--pipe', '--block', '1G']


@dataclass(frozen=True)
class Host:
    """A host, and how many cubes are searched there at a time."""
    name: str
    slots: int


def hosts_in(text, path):
    """The hosts in the text of a file, each once. Of a line that names none one line is said."""
    found = {}
    for number, line in enumerate(text.splitlines(), 1):
        line = line.partition('#')[0].strip()
        told = LINE.fullmatch(line)
        if told is not None:
            found[told[2]] = found.get(told[2], 0) + int(told[1] or 1)
        elif line:
            say(f'{path} line {number}: passed over, for a number and a host are wanted, as 8/HOST, not {line[:60]!r}')
    return [Host(name, slots) for name, slots in found.items()]


def read_hosts(path):
    """The hosts in a file. Refused, where it cannot be read or names none."""
    try:
        with open(path, encoding='utf-8', errors='replace') as file:
            hosts = hosts_in(file.read(), path)
    except OSError as fault:
        raise Refused(4, f'{path}: {fault.strerror}') from fault
    if not hosts:
        raise Refused(4, f'{path}: no host is named')
    if shutil.which(PARALLEL[0]) is None:
        raise Refused(4, 'parallel is not there: on Debian, apt-get install parallel')
    return hosts


class HostSlots(Slots):
    """The slots of one host. The folder is for what GNU parallel leaves."""

    def __init__(self, programs, files, host, folder):
        super().__init__(programs, files, host.slots)
        self.host, self.folder, self.failures, self.has_served = host.name, folder, 0, False
        # It may be replaced by a proved one meanwhile.
        self.solver = read_bytes(programs.solve)

    def started(self, task, words, said):
        """The program that has a cube searched there."""
        path = self.files.path(task.name('sent'))
        with open(path, 'wb') as sent:
            sent.write(self.solver)
            sent.write(self.files.read(task.name('fzn')))
        command = [*PARALLEL, '--ssh', os.environ.get('PARALLEL_SSH', SSH), '--sshlogin', f'1/{self.host}',
                   SCRIPT.format(length=len(self.solver), words=shlex.join(words))]
        environment = dict(os.environ, PARALLEL_HOME=self.folder, PARALLEL_SHELL='/bin/sh', TMPDIR=self.folder)
        with open(path, 'rb') as sent, open(self.files.path(task.name('fzc')), 'wb') as certificate:
            return started(command, kind=Session, end=Session.kill, is_alone=True, stdin=sent, stdout=certificate, stderr=said,
                           env=environment)

    def ended(self, task):
        """Waits for the end of a run, and gives the solver's status, or nothing where it is not known, and what was said."""
        _, said = super().ended(task)
        found = ENDED.search(said)
        status = int(found[1]) if found is not None else None
        if status == 0:
            self.has_served, self.failures = True, 0
        return status, ENDED.sub('', said).strip()

    def fault(self, status, said):
        """What is wrong with the host: it was not reached, or no run has ended well there so far, or two in a row have not."""
        self.failures += 1
        if status is not None and self.has_served and self.failures < 2:
            return None
        return f'{self.host} is left out: {how_ended(status, said)}'
