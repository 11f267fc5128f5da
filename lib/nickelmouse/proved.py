"""How a program that is not proved is known: it ends in a mark, which goes along wherever it is copied to."""
import os

MARK = b'\nbuilt without proof\n'
UNPROVED = 'by programs not yet proved on this machine'


def is_proved(path):
    """Whether a program does not end in the mark of those that are built without proof."""
    with open(path, 'rb') as file:
        length = file.seek(0, os.SEEK_END)
        file.seek(max(0, length - len(MARK)))
        return file.read() != MARK
