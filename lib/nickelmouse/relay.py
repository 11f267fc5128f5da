"""What MiniZinc takes for its solver while ours works: it tells where the compiled file lies, and hands on the answer once there is one."""
import os
import sys

from nickelmouse.parents import dies_with_its_parent

FOLDER = 'NICKELMOUSE_RELAY'
PIECE = 1 << 16


def is_asked():
    """Whether MiniZinc has started us for the relay."""
    return bool(os.environ.get(FOLDER))


def hand_on(folder):
    """Tells our number and the path of the compiled file, and hands on the answer."""
    with open(os.path.join(folder, 'compiled.pipe'), 'wb') as told:
        told.write(f'{os.getpid()} {sys.argv[-1]}\n'.encode())
    with open(os.path.join(folder, 'answer.pipe'), 'rb', buffering=0) as answer:
        while piece := answer.read(PIECE):
            sys.stdout.buffer.write(piece)
            sys.stdout.buffer.flush()


def relay():
    """The relay. Returns the status."""
    dies_with_its_parent()
    try:
        hand_on(os.environ[FOLDER])
    except OSError as fault:
        os.write(2, f'{fault.filename or "a pipe"}: {fault.strerror}\n'.encode())
        return 4
    return 0
