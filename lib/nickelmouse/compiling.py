"""MiniZinc over a whole run: it compiles a model, is held while the compiled file is solved and checked, and then prints the solutions.

MiniZinc takes the relay (`relay.py`) for its solver. So the solutions are printed by the output item of the very model that was compiled, with
the names of its enums."""
import errno
import json
import os
import select
import signal
import subprocess
import sys
import threading
import time

from nickelmouse.processes import PROCESSES
from nickelmouse.relay import FOLDER, PIECE
from nickelmouse.running import Ended, Refused, started

SECONDS = 3


def is_full(folder):
    """Whether the disk of a folder has no room for a file of MiniZinc's."""
    disk = os.statvfs(folder)
    return disk.f_bavail * disk.f_frsize < PIECE


class Shower(threading.Thread):
    """Shows what MiniZinc prints once it is let, and keeps it where a file is given. One of both that fails does not stop the other."""

    def __init__(self, source, kept):
        super().__init__(daemon=True)
        self.source, self.is_let, self.fault, self.printed = source, False, None, b''
        self.targets = [sys.stdout.buffer] if kept is None else [sys.stdout.buffer, kept]

    def run(self):
        while piece := self.source.read1(PIECE):
            self.printed += piece
            if self.is_let:
                self.show(self.printed)
                self.printed = b''

    def show(self, piece):
        """Shows a piece, and keeps it."""
        for target in list(self.targets):
            try:
                target.write(piece)
                target.flush()
            except OSError as fault:
                self.fault = fault
                self.targets.remove(target)


class Compiler:
    """MiniZinc, over a folder. It is a printer: `write` and `close`."""

    def __init__(self, files, configuration, words, kept=None):
        self.files, self.relay, self.answer = files, None, None
        with open(configuration, encoding='utf-8') as file:
            ours = json.load(file)
        ours.update(id='nickelmouse-relay', executable=os.path.realpath(sys.argv[0]), stdFlags=['-a'], extraFlags=[])
        files.write('relay.msc', json.dumps(ours).encode())
        for name in ('compiled.pipe', 'answer.pipe'):
            os.mkfifo(files.path(name))
        self.told = os.open(files.path('compiled.pipe'), os.O_RDONLY | os.O_NONBLOCK)
        with open(files.path('warned'), 'wb') as warned:
            self.program = started(['minizinc', '--solver', files.path('relay.msc'), '--output-paths-to-file', files.path('model.paths'), *words],
                                   end=self.end, is_alone=True, stdin=subprocess.DEVNULL, stdout=subprocess.PIPE, stderr=warned,
                                   env=dict(os.environ, TMPDIR=files.folder, **{FOLDER: files.folder}))
        self.shower = Shower(self.program.stdout, kept)
        self.shower.start()

    def compiled(self):
        """Waits for the compiled file. Gives its bytes, or nothing where MiniZinc has ended without it, and what MiniZinc warned of."""
        ended = os.pidfd_open(self.program.pid)
        try:
            told = b''
            while not told.endswith(b'\n'):
                ready, _, _ = select.select([self.told, ended], [], [])
                if self.told in ready:
                    told += os.read(self.told, PIECE)
                if not told and ended in ready:
                    break
        finally:
            os.close(ended)
            os.close(self.told)
        text = None
        if told:
            number, _, path = told.decode().rstrip('\n').partition(' ')
            self.relay = int(number)
            with open(path, 'rb') as file:
                text = file.read()
            # MiniZinc says nothing where it cannot write.
            if not text.endswith(b'\n'):
                raise Refused(4, f'{path}: MiniZinc has not written it to its end')
        warned = self.files.read('warned')
        self.files.remove('warned', 'compiled.pipe', 'relay.msc')
        if text is None:
            PROCESSES.wait(self.program)
            if not warned and is_full(self.files.folder):
                raise Refused(4, f'{self.files.folder}: {os.strerror(errno.ENOSPC)}')
        return text, warned

    def end(self, program):
        """Ends MiniZinc, so that it removes its files: without the relay it has nothing left to do. One that goes on is killed."""
        try:
            if self.relay is not None:
                os.kill(self.relay, signal.SIGKILL)
            else:
                program.terminate()
        except ProcessLookupError:
            pass
        late = threading.Timer(SECONDS, program.kill)
        late.daemon = True
        late.start()

    def write(self, piece):
        """Hands on a piece of an answer."""
        if self.answer is None:
            self.shower.is_let = True
            self.answer = self.opened()
        self.answer.write(piece)

    def opened(self):
        """The pipe to the relay, once that reads it."""
        while True:
            try:
                pipe = os.open(self.files.path('answer.pipe'), os.O_WRONLY | os.O_NONBLOCK)
            except OSError as fault:
                if fault.errno != errno.ENXIO:
                    raise
                if self.program.poll() is not None:
                    raise Ended(1, 'the solutions cannot be printed') from fault
                time.sleep(0.01)
                continue
            os.set_blocking(pipe, True)
            return open(pipe, 'wb', buffering=0)

    def close(self):
        """Waits until all is printed."""
        if self.answer is not None:
            self.answer.close()
        status = PROCESSES.wait(self.program)
        self.shower.join()
        self.files.remove('answer.pipe')
        if self.shower.fault is not None:
            raise self.shower.fault
        if status != 0:
            raise Ended(1, 'the solutions cannot be printed')
