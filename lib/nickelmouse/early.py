"""Signals that come before there is anything to be ended, and when that was. It is imported first, since the other modules take a while."""
import os
import signal
import time

BEGIN = time.monotonic()


def end_at_once(number, _):
    """Ends with one line."""
    os.write(2, b'interrupted\n')
    os._exit(128 + number)


def catch():
    """Has Ctrl-C and SIGTERM end us at once."""
    for number in (signal.SIGINT, signal.SIGTERM, signal.SIGHUP):
        signal.signal(number, end_at_once)
