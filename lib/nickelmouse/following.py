"""A certificate that is checked while it is written: its whole lines go to the checker as they come."""
import os
import re
import threading

PIECE = 1 << 20
SECONDS = 0.02
CLOSED = b'e closed\n'
THIRD = b'fzc 3'
DERIVED = re.compile(rb'vars \d+ cons \d+ new (\d+)')


class Lines:
    """The whole lines of a text that comes in pieces: how many bytes they have, how many of those in front of the steps there are and how many
    there have to be, whether they are of version three, how the last begins, and what is left behind them."""

    def __init__(self):
        self.bytes, self.heading, self.wanted, self.is_third = 0, 0, 2, False
        self.last, self.rest, self.tail = b'', b'', b''

    def take(self, piece):
        """Takes a piece, and gives what is whole now and was not before."""
        text = self.rest + piece
        behind = text.rfind(b'\n') + 1
        whole, self.rest = text[:behind], text[behind:]
        if whole:
            self.bytes += len(whole)
            if self.heading < self.wanted:
                self.take_heading(whole.split(b'\n')[:-1])
            begin = whole.rfind(b'\n', 0, -1) + 1
            self.last = whole[begin:begin + 2]
            self.tail = whole[-len(CLOSED):]
        return whole

    def take_heading(self, lines):
        """Takes the next lines, as far as they stand in front of the steps: two, and in version three as many as the second says."""
        for line in lines[:max(0, 2 - self.heading)]:
            if self.heading == 0:
                self.is_third = line == THIRD
            elif self.is_third and (derived := DERIVED.fullmatch(line)) is not None:
                self.wanted += int(derived[1])
            self.heading, lines = self.heading + 1, lines[1:]
        self.heading += min(self.wanted - self.heading, len(lines))

    def has_end(self):
        """Whether the last whole line is the one that ends a certificate."""
        return self.heading == self.wanted and self.last == b'e '

    def is_closed(self):
        """Whether that line says that there is nothing better, or nothing else."""
        return self.has_end() and self.tail == CLOSED


def solutions_in(lines):
    """The `s` lines among whole lines of a certificate, in order."""
    text = b'\n' + lines
    begin = text.find(b'\ns ')
    while begin >= 0:
        behind = text.index(b'\n', begin + 1)
        yield text[begin + 1:behind + 1]
        begin = text.find(b'\ns ', behind)


class Follower(threading.Thread):
    """Hands on what another program writes to a file, until that program has ended. `refused` is called where nobody reads any more; `heard`,
    if it is given, with each solution of a certificate: its `s` line."""

    def __init__(self, path, sink, refused, heard=None):
        super().__init__(daemon=True)
        self.path, self.sink, self.refused, self.heard = path, sink, refused, heard
        self.lines, self.ended, self.fault = Lines(), threading.Event(), None

    def run(self):
        try:
            file = self.opened()
            if file is not None:
                with file:
                    self.follow(file)
                # Of a file in a folder that machines share, who opens it anew sees what was written last.
                with open(self.path, 'rb', buffering=0) as file:
                    file.seek(self.lines.bytes + len(self.lines.rest))
                    self.follow(file)
        except OSError as fault:
            self.fault = fault
            self.refused()

    def opened(self):
        """The file once it is there, or nothing, where the program ended without it."""
        while True:
            is_last = self.ended.is_set()
            if os.path.exists(self.path):
                return open(self.path, 'rb', buffering=0)
            if is_last:
                return None
            self.ended.wait(SECONDS)

    def follow(self, file):
        """Hands on each piece, and waits where there is none, until the program has ended and all was read."""
        while True:
            is_last = self.ended.is_set()
            piece = file.read(PIECE)
            if piece:
                whole = self.lines.take(piece)
                self.sink.write(whole)
                self.sink.flush()
                if self.heard is not None:
                    for line in solutions_in(whole):
                        self.heard(line)
            elif is_last:
                return
            else:
                self.ended.wait(SECONDS)

    def finish(self):
        """Hands on what is left once the program has ended."""
        self.ended.set()
        self.join()
