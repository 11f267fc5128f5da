"""When a certificate had how many bytes, while other programs write it and others like it; so of the file of hints that workers share."""
import bisect
import os
import threading
import time

ENDING, START, HINTS = '.fzc', 'start.fzc', 'hints'
# Between two looks: at first, and once there has been a certificate for a second; and how many sizes are kept of each: where there are
# more, every second one is let go.
SHORT, SECONDS, MOST = 0.004, 0.02, 20_000


class Growth(threading.Thread):
    """Looks at the sizes of the certificates in a folder, from the moment that the first one is there. Each is known by itself and not by
    its name, so that one that takes another's name at the end has its own times. `now` tells the time in seconds."""

    def __init__(self, folder, now=time.monotonic):
        super().__init__(daemon=True)
        self.folder, self.now, self.begin, self.marks, self.ended = folder, now, None, {}, threading.Event()
        self.pause = SHORT

    def run(self):
        while not self.ended.wait(self.pause):
            self.look()

    def clock(self):
        """The second of the search that it is now."""
        return self.now() - self.begin if self.begin is not None else 0.0

    def look(self):
        """Takes note of the sizes that have become greater."""
        found = {}
        try:
            for one in os.scandir(self.folder):
                if one.name == HINTS or one.name.endswith(ENDING) and one.name != START:
                    found[one.inode()] = one.stat().st_size
        except OSError:
            return
        if not found:
            return
        if self.begin is None:
            self.begin = self.now()
        seconds = self.clock()
        for key, size in found.items():
            marks = self.marks.setdefault(key, [])
            if not marks or size > marks[-1][1]:
                marks.append((seconds, size))
            if len(marks) > MOST:
                self.marks[key], self.pause = marks[::2], 2 * self.pause
        if self.pause == SHORT and seconds > 1:
            self.pause = SECONDS

    def finish(self):
        """Ends the looking, with a last look."""
        self.ended.set()
        if self.ident is not None:
            self.join()
        self.look()

    def seconds(self):
        """The second of the search at which the last certificate has grown."""
        return max((marks[-1][0] for marks in self.marks.values()), default=0.0)

    def times_of(self, path):
        """What tells of a certificate the second at which so many bytes were first seen to stand there."""
        marks = self.marks.get(os.stat(path).st_ino, [])

        def when(place):
            at = bisect.bisect_left(marks, place, key=lambda mark: mark[1])
            return marks[min(at, len(marks) - 1)][0] if marks else 0.0
        return when
