"""Programs that end where the one that started them ends."""
import ctypes
import signal

PR_SET_PDEATHSIG = 1
LIBC = ctypes.CDLL(None)


def dies_with_its_parent():
    """Has this process killed where the one that started it ends."""
    LIBC.prctl(PR_SET_PDEATHSIG, signal.SIGKILL)
