"""What stands at the foot of a page: what was checked, by which programs, and how to check it again."""
import hashlib
import os
import shlex
from dataclasses import dataclass

from nickelmouse.proved import is_proved
from nickelmouse.report.html import element, said, section, table
from nickelmouse.running import Refused, output_of

PIECE = 1 << 20


def sum_of(path):
    """The SHA-256 sum of a file and how many bytes it has, or nothing of both where it can't be read."""
    found, length = hashlib.sha256(), 0
    try:
        with open(path, 'rb') as file:
            while piece := file.read(PIECE):
                found.update(piece)
                length += len(piece)
    except OSError:
        return '', None
    return found.hexdigest(), length


def version_of(path):
    """What a program calls itself."""
    try:
        return output_of([path, '--version']).decode('utf-8', 'replace').strip()
    except Refused:
        return os.path.basename(path)


@dataclass(frozen=True)
class Checked:
    """What was checked: the files of the command line, those of the run with what they are, the folder that was kept, if one was, and the
    words that make such a page again."""
    read: list
    made: list
    kept: str
    again: list
    is_explained: bool = False

    def files(self):
        """A row for each file."""
        rows = [('read', path, path) for path in self.read]
        for what, path in self.made:
            rows.append((what, os.path.join(self.kept, os.path.basename(path)) if self.kept is not None else 'not kept', path))
        for what, name, path in rows:
            number, length = sum_of(path)
            if length is not None:
                yield what, name, f'{length:,}', number

    def how(self):
        """How to check it again."""
        if self.is_explained:
            return said('p', 'To ask again:') + said('pre', shlex.join(self.again))
        if self.kept is not None:
            return said('p', 'To check it again:') + said('pre', shlex.join(['nickelmouse', 'check', self.kept]))
        return (said('p', 'The certificate was not kept. To find and check an answer again, and keep all that checking it wants:')
                + said('pre', shlex.join(self.again)))


def programs_of(programs):
    """A row for each program."""
    for path in (programs.check, programs.solve):
        yield version_of(path), f'{path}, ' + ('proved' if is_proved(path) else 'built without proof'), sum_of(path)[0]


def foot(checked, programs, lead):
    """The section."""
    tables = table(['file', 'name', 'bytes', 'SHA-256'], checked.files(), [2], class_='sums')
    tables += table(['program', 'path', 'SHA-256'], programs_of(programs), class_='sums')
    sums = element('details', said('summary', 'files, programs and their sums') + tables, open='open')
    return section('What was checked', said('p', lead), checked.how(), sums)
