"""The file of a page: which one may be written, and how."""
import os
import tempfile

from nickelmouse.running import Refused

MARK = b'<!doctype html>\n<html lang="en">\n<meta charset="utf-8">\n<meta name="generator" content="nickelmouse">\n'


def is_same(one, other):
    """Whether two paths lead to one file."""
    try:
        return os.path.samefile(one, other)
    except OSError:
        return os.path.realpath(one) == os.path.realpath(other)


def read_by(files, words, start):
    """The paths that a command line has read: of the model and its data, data among the words for the compiler, the start."""
    data = [path for word, path in zip(words, words[1:]) if word in ('-d', '--data')]
    return [*files, *data, *([start] if start is not None else [])]


def wrong_with(path, read):
    """What is wrong with a path for a page, where these files are read; or nothing."""
    if not path.endswith(('.html', '.htm')):
        return f'{path}: the name of a page ends in .html'
    same = next((other for other in read if is_same(path, other)), None)
    return f'{path}: a file that is read is never written' if same is not None else None


def claim(path):
    """Looks whether a page can be written to a path. Refused, where it can't, or where something else stands there."""
    path = os.path.realpath(path)
    try:
        if os.path.lexists(path):
            if not os.path.isfile(path):
                raise Refused(4, f'{path}: no file that a page can be written to')
            with open(path, 'rb') as file:
                begin = file.read(len(MARK))
            if begin not in (MARK, b''):
                raise Refused(4, f'{path} is there and no page of nickelmouse: it is not written over')
        with tempfile.NamedTemporaryFile(dir=os.path.dirname(path)):
            pass
    except OSError as fault:
        raise Refused(4, f'{path}: {fault.strerror}') from fault


def put(path, text):
    """Puts a page at a path in one step, so that nobody reads half of it, and what stood there stays where it can't be written."""
    path = os.path.realpath(path)
    try:
        handle, made = tempfile.mkstemp(dir=os.path.dirname(path))
        try:
            with open(handle, 'wb') as file:
                file.write(text)
            os.chmod(made, 0o666 & ~umask())
            os.replace(made, path)
        except BaseException:
            os.remove(made)
            raise
    except OSError as fault:
        raise Refused(4, f'{path}: {fault.strerror}') from fault


def umask():
    """The bits that a new file does without."""
    mask = os.umask(0)
    os.umask(mask)
    return mask
