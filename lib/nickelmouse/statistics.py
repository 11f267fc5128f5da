"""What fznsolve tells of its search, in the words of MiniZinc."""
import re

TOLD = re.compile(r'^(?:in all )?([0-9.]+) s, (\d+) nodes, (\d+) conflicts, (\d+) inferences, (\d+) solutions, (?:best (-?\d+), )?'
                  r'(\d+) bytes of certificate$', re.M)
NAMES = ('solveTime', 'nodes', 'failures', 'propagations', 'nSolutions', 'objective', 'certificateBytes')


def statistics_in(said, bound=None, value=None):
    """The lines for MiniZinc of the last that `fznsolve --progress` has told, and of what is known of the objective, whose value is another one
    where that is given."""
    last = None
    for last in TOLD.finditer(said):
        pass
    values = list(last.groups()) if last is not None else []
    if values and value is not None:
        values[NAMES.index('objective')] = value
    lines = [f'%%%mzn-stat: {name}={value}\n' for name, value in zip(NAMES, values) if value is not None]
    lines += [bound.statistic()] if bound is not None else []
    return ''.join(lines) + '%%%mzn-stat-end\n'


def nodes_in(said):
    """How many nodes a search has told of last, or nothing."""
    found = TOLD.findall(said)
    return int(found[-1][1]) if found else None


def without_progress(said):
    """What fznsolve has said beside how far it has come."""
    return TOLD.sub('', said).strip()
