"""The proved reader over many small texts: by one shell that runs it again and again, since a start from here costs ten times as much."""
import contextlib
import os
import subprocess

from nickelmouse.processes import PROCESSES
from nickelmouse.running import Broken, fault_in, started

LOOP = 'while read -r _; do "$0" --items "$1" 2>&1 >/dev/null; echo .; done'


class Reader:
    """Reads texts over a folder, as long as it is entered."""

    def __init__(self, check, folder):
        self.check, self.path, self.shell = check, os.path.join(folder, 'read.fzn'), None

    def __enter__(self):
        self.shell = started(['sh', '-c', LOOP, self.check, self.path], stdin=subprocess.PIPE, stdout=subprocess.PIPE,
                             stderr=subprocess.DEVNULL)
        return self

    def __exit__(self, *_):
        # What the shell was not told any more is lost with it.
        with contextlib.suppress(BrokenPipeError):
            self.shell.stdin.close()
        self.shell.stdout.close()
        PROCESSES.wait(self.shell)

    def fault(self, text):
        """The first fault of a text with a place, or nothing."""
        with open(self.path, 'wb') as file:
            file.write(text)
        said = b''
        try:
            self.shell.stdin.write(b'\n')
            self.shell.stdin.flush()
            while (line := self.shell.stdout.readline()) != b'.\n':
                if not line:
                    raise BrokenPipeError
                said += line
        except BrokenPipeError as fault:
            PROCESSES.go_on()
            raise Broken('fzncheck --items does not come to its end') from fault
        return fault_in(said.decode('utf-8', 'replace'))
