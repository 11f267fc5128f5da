"""Hosts, and the words that stand before a run."""
import contextlib
import io
import os
import signal
import subprocess
import tempfile
import time
import unittest

from nickelmouse.files import Files
from nickelmouse.hosts import Host, HostSlots, hosts_in, read_hosts
from nickelmouse.processes import PROCESSES
from nickelmouse.running import Programs, Refused
from nickelmouse.through import launched, members, refused_by, words_in
from nickelmouse.workers import Told


def said(action):
    """What an action gives, and the lines that it says."""
    with contextlib.redirect_stderr(io.StringIO()) as text:
        given = action()
    return given, text.getvalue().splitlines()


class HostsTest(unittest.TestCase):
    """Files of hosts, and what is wrong with one."""

    def test_hosts(self):
        cases = [
            ('8/ada\n', [Host('ada', 8)], 0),
            ('ada', [Host('ada', 1)], 0),
            ('# all\n\n 2/ada@example.org # one\r\n1/:\n', [Host('ada@example.org', 2), Host(':', 1)], 0),
            ('2/ada\n3/ada\n', [Host('ada', 5)], 0),
            ('0/ada\n-1/ada\n8/\n/ada\nada eve\n-oProxyCommand=x\n1/a,b\n99999/ada\n$(x)\n8/ada/eve\n8 ada\n', [], 11),
            ('x y\n1/eve\n', [Host('eve', 1)], 1),
            ('', [], 0),
        ]
        for text, wanted, lines in cases:
            hosts, told = said(lambda text=text: hosts_in(text, 'file'))
            self.assertEqual((hosts, len(told)), (wanted, lines), text)

    def test_no_hosts(self):
        with tempfile.TemporaryDirectory() as folder:
            path = os.path.join(folder, 'hosts')
            with open(path, 'w', encoding='utf-8') as file:
                file.write('# nobody\n')
            for one in (path, folder, os.path.join(folder, 'none')):
                with self.assertRaises(Refused) as fault:
                    read_hosts(one)
                self.assertEqual(fault.exception.status, 4)

    def test_faults(self):
        """A host that was not reached is left out; one that has served may fail once."""
        slots = HostSlots(Programs('none', 'none'), Files('.'), Host('ada', 2), '.')
        self.assertEqual(slots.fault(None, 'ssh: no route\nlost'), 'ada is left out: lost')
        slots = HostSlots(Programs('none', 'none'), Files('.'), Host('ada', 2), '.')
        self.assertEqual(slots.fault(127, ''), 'ada is left out: status 127')
        slots.has_served, slots.failures = True, 0
        self.assertIsNone(slots.fault(5, 'fault 19 Memory'))
        self.assertEqual(slots.fault(5, 'fault 19 Memory'), 'ada is left out: fault 19 Memory')


class ThroughTest(unittest.TestCase):
    """Programs that start others."""

    def test_words(self):
        self.assertEqual(words_in("srun -n1 '-c 1'"), ('srun', '-n1', '-c 1'))
        for text in ('', ' ', "'"):
            with self.assertRaises(ValueError):
                words_in(text)

    def test_refused(self):
        cases = [
            ((), Told(1, 'wrong'), None),
            (('nice',), Told(1, 'one\ntwo'), 'nice: two'),
            (('nice',), Told(1, ''), 'nice: status 1'),
            (('nice',), Told(2, 'line 1 column 1: fault 3 Syntax'), None),
            (('nice',), Told(-9, ''), None),
        ]
        for through, told, wanted in cases:
            found = refused_by(through, told)
            self.assertEqual(found and (found.status, str(found)), wanted and (4, wanted))

    def test_ended(self):
        """What a launcher has started ends with it, in whatever group it is."""
        for end in (lambda process: process.kill(), lambda process: process.send_signal(signal.SIGKILL)):
            process = launched(('bash', '-c', 'set -m; "$@" & "$@" & wait', 'bash'), ['sleep', '60'], stdin=subprocess.DEVNULL)
            while len(members(process.pid)) < 3:
                time.sleep(0.01)
            end(process)
            self.assertLess(PROCESSES.wait(process), 0)
            for _ in range(100):
                if not members(process.pid):
                    break
                time.sleep(0.02)
            self.assertEqual(members(process.pid), [])

    def test_missing(self):
        with self.assertRaises(Refused) as fault:
            launched(('no-such-program',), ['true'])
        self.assertEqual(fault.exception.status, 4)
