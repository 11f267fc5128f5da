"""Whether fznsolve derives constraints from those of a file: then a run with --derive serves, and is not the same search once more."""
import threading

from nickelmouse.following import THIRD
from nickelmouse.workers import Worker

DERIVE = '--derive'
# So many seconds are waited for what is derived.
SECONDS = 0.5


class Deriving(threading.Thread):
    """A run that derives and decides nothing, in a thread of its own, which puts itself behind the events at its end, soon in any case. It leaves
    nothing."""

    def __init__(self, programs, files, before, events):
        super().__init__(daemon=True)
        self.files, self.events, self.derives = files, events, False
        self.worker = Worker(programs.solve, [DERIVE, '--nodes', '0'], files.path('model.fzn'), files.path('derived.fzc'), before, True)

    def cut(self):
        """Ends it now."""
        self.worker.cut()

    def run(self):
        limit = threading.Timer(SECONDS, self.cut)
        limit.daemon = True
        limit.start()
        try:
            if self.worker.run().status == 0:
                with open(self.worker.certificate, 'rb') as lines:
                    self.derives = lines.readline().rstrip() == THIRD
        except OSError:
            self.derives = False
        finally:
            limit.cancel()
            self.files.remove('derived.fzc')
            self.events.put(self)
