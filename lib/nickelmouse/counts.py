"""What `fzncheck --items` prints of a file, and what is known of the file without taking that apart."""
import os
import tempfile
from dataclasses import dataclass

from nickelmouse.running import Broken, Refused, output_of


@dataclass(frozen=True)
class Counts:
    """What of a file is known without taking apart its items: the word of its goal, how many variables, constraints and mends it has, and the
    number of its objective, or nothing where there is none or it is a constant."""
    goal: str
    variables: int
    constraints: int
    mends: int
    objective: int = None


def counted(printed):
    """The counts in a text of `fzncheck --items`."""
    goal = printed[printed.rfind('\ngoal ') + 1:].split(' ', 3)[:3]
    last = printed[printed.rfind('\n', 0, -1) + 1:].split()
    if goal[0] != 'goal' or len(last) != 11 or last[0] != 'end' or not printed.endswith('\n'):
        raise Broken('fzncheck --items does not come to its end')
    return Counts(goal[1], int(last[4]), int(last[8]), int(last[10]), int(goal[2]) if goal[2].isdigit() else None)


def printed_items(check, path):
    """What `fzncheck --items` prints of a file. Refused, where it has a fault that cannot be mended."""
    return output_of([check, '--items', path]).decode('latin-1')


def printed_items_of_text(check, text):
    """What `fzncheck --items` prints of a text, or nothing where it has a fault that cannot be mended."""
    with tempfile.TemporaryDirectory() as folder:
        path = os.path.join(folder, 'model.fzn')
        with open(path, 'wb') as file:
            file.write(text)
        try:
            return printed_items(check, path)
        except Refused as fault:
            if fault.status != 2:
                raise
            return None
