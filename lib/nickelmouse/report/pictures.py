"""Has charts drawn by a Python that has matplotlib: our own, or the system's. Where none has, a page goes without pictures and says so."""
import json
import os
import subprocess
import sys
import tempfile

from nickelmouse.processes import PROCESSES
from nickelmouse.running import Refused, started

SYSTEM, MISSING = '/usr/bin/python3', 3
ADVICE = 'no charts: on Debian, apt-get install python3-matplotlib'


def pythons():
    """The programs that may have matplotlib, ours first."""
    return list(dict.fromkeys([sys.executable, *filter(os.path.exists, [SYSTEM])]))


def drawn_by(python, charts):
    """The pictures that a Python draws, or nothing where it has no matplotlib. Refused, where it fails."""
    with tempfile.TemporaryDirectory() as folder:
        path = os.path.join(folder, 'charts.json')
        with open(path, 'w', encoding='utf-8') as file:
            json.dump(charts, file)
        # matplotlib keeps a list of the machine's fonts in a folder, and would leave it there. Nothing of the user's folder is taken for a
        # module.
        library = os.path.dirname(os.path.dirname(os.path.dirname(os.path.realpath(__file__))))
        places = filter(None, [library, os.environ.get('PYTHONPATH')])
        environment = dict(os.environ, MPLCONFIGDIR=folder, PYTHONPATH=os.pathsep.join(places))
        with open(path, 'rb') as file:
            process = started([python, '-B', '-m', 'nickelmouse.report.drawing'], stdin=file, stdout=subprocess.PIPE,
                              stderr=subprocess.PIPE, env=environment, cwd=folder)
            printed, said = PROCESSES.heard(process)
    if process.returncode == MISSING:
        return None
    if process.returncode != 0:
        raise Refused(4, (said.decode('utf-8', 'replace').strip().splitlines() or [f'status {process.returncode}'])[-1])
    return json.loads(printed)


def pictures_of(charts):
    """The pictures of charts, and why there are none, which is empty where there are."""
    if not charts:
        return [], ''
    for python in pythons():
        try:
            pictures = drawn_by(python, charts)
        except Refused as fault:
            return None, f'no charts: {fault}'
        if pictures is not None:
            return pictures, ''
    return None, ADVICE
