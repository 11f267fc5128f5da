"""A headless Chromium, by its own protocol: JSON over two pipes."""
import base64
import json
import os
import select
import shutil
import signal
import subprocess
import tempfile
import time

SECONDS = 60
WORDS = ['--headless', '--disable-gpu', '--hide-scrollbars', '--no-first-run', '--disable-background-networking', '--disable-extensions',
         '--remote-debugging-pipe', 'about:blank']


class Broken(Exception):
    """What the browser says never, or not in time."""


def is_there():
    """Whether there is a Chromium."""
    return shutil.which('chromium') is not None


class Browser:
    """A Chromium with one page. `problems` has what the page's console was told, and what could not be loaded."""

    def __enter__(self):
        self.folder = tempfile.mkdtemp()
        theirs, self.write = os.pipe()
        self.read, their_end = os.pipe()

        def in_the_child():
            high = [os.dup(fd) for fd in (theirs, their_end)]
            high = [os.dup2(fd, 50 + place) for place, fd in enumerate(high)]
            for place, fd in enumerate(high):
                os.dup2(fd, 3 + place)
        words = ['chromium', f'--user-data-dir={self.folder}', *(['--no-sandbox'] if os.getuid() == 0 else []), *WORDS]
        self.program = subprocess.Popen(words, stdin=subprocess.DEVNULL, stdout=subprocess.DEVNULL, stderr=subprocess.DEVNULL,
                                        preexec_fn=in_the_child, pass_fds=(3, 4), start_new_session=True)
        os.close(theirs)
        os.close(their_end)
        self.number, self.heard, self.session, self.problems, self.events = 0, b'', None, [], []
        target = self.call('Target.createTarget', url='about:blank')['targetId']
        self.session = self.call('Target.attachToTarget', targetId=target, flatten=True)['sessionId']
        for domain in ('Page', 'Runtime', 'Log'):
            self.call(f'{domain}.enable')
        return self

    def __exit__(self, *_):
        os.close(self.write)
        try:
            self.program.wait(5)
        except subprocess.TimeoutExpired:
            os.killpg(self.program.pid, signal.SIGKILL)
            self.program.wait()
        os.close(self.read)
        shutil.rmtree(self.folder, ignore_errors=True)

    def message(self, until):
        """The next message."""
        while b'\0' not in self.heard:
            ready, _, _ = select.select([self.read], [], [], max(0, until - time.monotonic()))
            piece = os.read(self.read, 1 << 20) if ready else b''
            if not piece:
                raise Broken('no word from chromium')
            self.heard += piece
        text, _, self.heard = self.heard.partition(b'\0')
        return json.loads(text)

    def noted(self, message):
        """Takes note of an event."""
        name, words = message.get('method'), message.get('params', {})
        self.events.append(name)
        if name == 'Runtime.exceptionThrown':
            self.problems.append(words['exceptionDetails']['text'])
        elif name == 'Log.entryAdded':
            self.problems.append(words['entry']['text'])
        elif name == 'Runtime.consoleAPICalled':
            self.problems.append(json.dumps(words['args']))

    def call(self, method, **words):
        """Asks for something, and gives the answer."""
        self.number += 1
        message = {'id': self.number, 'method': method, 'params': words, **({'sessionId': self.session} if self.session else {})}
        os.write(self.write, json.dumps(message).encode() + b'\0')
        until = time.monotonic() + SECONDS
        while True:
            answer = self.message(until)
            if answer.get('id') == self.number:
                if 'error' in answer:
                    raise Broken(f'{method}: {answer["error"]["message"]}')
                return answer['result']
            self.noted(answer)

    def load(self, path, width=1000, height=1400, is_dark=False, scale=1):
        """Loads a page from a file, and gives the seconds until it is loaded and drawn."""
        self.call('Emulation.setDeviceMetricsOverride', width=width, height=height, deviceScaleFactor=scale, mobile=False)
        self.call('Emulation.setEmulatedMedia', features=[{'name': 'prefers-color-scheme', 'value': 'dark' if is_dark else 'light'}])
        self.problems, self.events = [], []
        begin = time.monotonic()
        self.call('Page.navigate', url='file://' + os.path.realpath(path))
        while 'Page.loadEventFired' not in self.events:
            self.noted(self.message(begin + SECONDS))
        self.call('Runtime.evaluate', expression='new Promise(done => requestAnimationFrame(() => requestAnimationFrame(done)))',
                  awaitPromise=True)
        return time.monotonic() - begin

    def value(self, expression):
        """The value of an expression in the page."""
        found = self.call('Runtime.evaluate', expression=expression, returnByValue=True)
        if 'exceptionDetails' in found:
            raise Broken(f'{expression}: {found["exceptionDetails"]["text"]}')
        return found['result'].get('value')

    def picture(self, path, **clip):
        """Writes a picture of the page, or of a part of it, to a file."""
        words = {'clip': {'x': 0, 'scale': 1, **clip}, 'captureBeyondViewport': True} if clip else {}
        with open(path, 'wb') as file:
            file.write(base64.b64decode(self.call('Page.captureScreenshot', format='png', **words)['data']))
