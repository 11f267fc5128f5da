"""The folder that --keep leaves: all that is wanted to check an answer again."""
import os
from dataclasses import asdict, dataclass

from nickelmouse.bound import BOUND, bound_in, lines_of, narrowed, without_last_line
from nickelmouse.printing import Plain, print_rest
from nickelmouse.running import REJECTED, Ended, Refused, output_of, say

RECORD, PRINTED = 'kept.json', 'model.printed'
# The certificate of another worker, which has proved a better bound than that of the answer.
BOUND_CERTIFICATE = 'bound.fzc'
KEPT = (RECORD, PRINTED, 'model.answer', 'model.fzc', 'model.fzn', 'model.paths', BOUND_CERTIFICATE)


@dataclass(frozen=True)
class Record:
    """What the files of a folder do not say of themselves: whether every solution is printed, the bounds that a variable needed, and whether
    it was asked how good an answer can be."""
    every: bool
    bounds: int
    bound: bool

    def checking(self):
        """The words for fzncheck."""
        return ['-a'] * self.every + [BOUND] * self.bound


def empty_folder(path):
    """Makes a folder, and gives its path. Refused, where something is there already."""
    try:
        os.makedirs(path, exist_ok=True)
        names = os.listdir(path)
    except OSError as fault:
        raise Refused(4, f'{path}: {fault.strerror}') from fault
    if names:
        raise Refused(4, f'{path} is not empty: --keep wants a new folder or an empty one')
    return os.path.realpath(path)


def tidy(files, status):
    """Leaves in a folder what belongs to an answer, or to a certificate that was rejected; and nothing, where a run has ended otherwise."""
    is_worth = status == 0 or status == 1 and os.path.exists(files.path('model.fzc'))
    for name in os.listdir(files.folder):
        if not is_worth or name not in KEPT:
            files.remove(name)


def write_record(files, record):
    """Writes the record of a folder, which is whole then."""
    import json
    files.write(RECORD, json.dumps(asdict(record)).encode() + b'\n')


def record_of(files):
    """The record of a folder."""
    import json
    try:
        with open(files.path(RECORD), 'rb') as file:
            words = json.load(file)
        # Folders that were kept before there was a bound do not speak of it.
        record = Record(words['every'], words['bounds'], words.get('bound', False))
    except OSError as fault:
        raise Refused(4, f'{files.folder}: no answer was kept there') from fault
    except (AttributeError, KeyError, TypeError, ValueError) as fault:
        raise Refused(4, f'{files.path(RECORD)}: not as --keep has written it') from fault
    if not (isinstance(record.every, bool) and isinstance(record.bound, bool) and isinstance(record.bounds, int | None)):
        raise Refused(4, f'{files.path(RECORD)}: not as --keep has written it')
    return record


def known_bound(programs, files):
    """The bound of the second certificate in a folder, or nothing where there is none."""
    path = files.path(BOUND_CERTIFICATE)
    if not os.path.exists(path):
        return None
    return bound_in(without_last_line(output_of([programs.check, BOUND, files.path('model.fzn'), path]))[1])


def check_again(programs, files):
    """Checks the certificate of a folder again, and prints the answer. Ends the run."""
    record, bound = record_of(files), None
    try:
        answer = output_of([programs.check, *record.checking(), files.path('model.fzn'), files.path('model.fzc')])
        known = known_bound(programs, files)
    except Refused as fault:
        if fault.status != 1:
            raise
        say(fault)
        raise Ended(1, REJECTED) from fault
    if record.bound:
        answer, line = without_last_line(answer)
        bound = narrowed(bound_in(line), known)
    if answer != files.read('model.answer'):
        raise Ended(1, 'the certificate shows another answer')
    print_rest(files, PRINTED if os.path.exists(files.path(PRINTED)) else 'model.answer', Plain(), 0)
    raise Ended(0, *lines_of(bound, files), programs.checked(record.bounds))
