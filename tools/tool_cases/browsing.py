"""A browser without a window or a network, driven by its own protocol over two pipes: what a page shows and says."""
import base64
import fcntl
import json
import os
import select
import shutil
import subprocess
import tempfile
import time

from tool_cases import browser

FLAGS = ('--headless=new', '--no-sandbox', '--disable-dev-shm-usage', '--use-gl=angle', '--use-angle=swiftshader',
         '--enable-unsafe-swiftshader', '--host-resolver-rules=MAP * ~NOTFOUND', '--no-first-run', '--hide-scrollbars',
         '--remote-debugging-pipe', 'about:blank')
KEYS = {'ArrowLeft': 37, 'ArrowRight': 39, 'Home': 36, 'End': 35, 'PageUp': 33, 'PageDown': 34, ' ': 32}


class Browser:
    """One browser with one page. `requests` has what it asked for, `faults` what its console and scripts complained of.

    Use as `with Browser(wide, high) as page: page.open(name)`; `wide` and `high` are in pixels of CSS.
    """

    def __init__(self, wide=1280, high=800):
        self.requests, self.faults = [], []
        self._number, self._read, self._session = 0, b'', None
        self._profile = tempfile.mkdtemp()
        theirs, self._to = os.pipe()
        self._from, back = os.pipe()
        high_ends = [fcntl.fcntl(end, fcntl.F_DUPFD, 10) for end in (theirs, back)]  # none of them is 3 or 4

        def as_three_and_four():
            os.dup2(high_ends[0], 3)
            os.dup2(high_ends[1], 4)

        words = [browser(), *FLAGS, f'--window-size={wide},{high}', f'--user-data-dir={self._profile}']
        self._process = subprocess.Popen(words, stdout=subprocess.DEVNULL, stderr=subprocess.DEVNULL,
                                         pass_fds=(3, 4), preexec_fn=as_three_and_four)
        for end in (theirs, back, *high_ends):
            os.close(end)
        target = [t for t in self.call('Target.getTargets')['targetInfos'] if t['type'] == 'page'][0]['targetId']
        self._session = self.call('Target.attachToTarget', targetId=target, flatten=True)['sessionId']
        for domain in ('Page', 'Runtime', 'Log', 'Network'):
            self.call(f'{domain}.enable')
        self.sized(wide, high)

    def __enter__(self):
        return self

    def __exit__(self, *_):
        self._process.terminate()
        self._process.wait()
        os.close(self._to)
        os.close(self._from)
        shutil.rmtree(self._profile, ignore_errors=True)

    def _message(self, until):
        """The next message of the browser, or None where none comes in time."""
        while b'\0' not in self._read:
            ready = select.select([self._from], [], [], max(0, until - time.time()))[0]
            some = os.read(self._from, 1 << 20) if ready else b''
            if not some:
                return None
            self._read += some
        text, self._read = self._read.split(b'\0', 1)
        return json.loads(text)

    def _note(self, message):
        """Keeps what a message says of requests and complaints."""
        name, told = message.get('method'), message.get('params', {})
        if name == 'Network.requestWillBeSent':
            self.requests.append(told['request']['url'])
        elif name == 'Runtime.exceptionThrown':
            self.faults.append(json.dumps(told['exceptionDetails'])[:500])
        elif name == 'Log.entryAdded' and told['entry']['level'] in ('error', 'warning'):
            self.faults.append(told['entry']['text'])
        elif name == 'Runtime.consoleAPICalled' and told['type'] in ('error', 'warning', 'assert'):
            self.faults.append(json.dumps(told['args'])[:500])

    def call(self, name, seconds=120, **told):
        """Calls a method of the protocol, and gives its result."""
        self._number += 1
        message = {'id': self._number, 'method': name, 'params': told}
        if self._session:
            message['sessionId'] = self._session
        os.write(self._to, json.dumps(message).encode() + b'\0')
        until = time.time() + seconds
        while (answer := self._message(until)) is not None:
            if answer.get('id') == self._number:
                if 'error' in answer:
                    raise RuntimeError(f'{name}: {answer["error"]}')
                return answer['result']
            self._note(answer)
        raise TimeoutError(name)

    def value(self, script, seconds=120):
        """What a script of the page gives; a promise is waited for."""
        told = self.call('Runtime.evaluate', seconds, expression=script, awaitPromise=True, returnByValue=True)
        if 'exceptionDetails' in told:
            raise RuntimeError(f'{script}: {json.dumps(told["exceptionDetails"])[:500]}')
        return told['result'].get('value')

    def open(self, name, mark='', seconds=120):
        """Opens a file and waits until its page says that it is shown: how long that took, in seconds."""
        self.call('Page.navigate', url='about:blank')
        begun = time.time()
        self.call('Page.navigate', url=f'file://{os.path.abspath(name)}{mark}')
        while not self.value('document.body && document.body.dataset.shown'):
            if time.time() > begun + seconds:
                raise TimeoutError(f'{name} is not shown')
            time.sleep(0.02)
        self.drawn()
        return time.time() - begun

    def drawn(self):
        """Waits for two frames, so that what was asked for before is drawn."""
        self.value('new Promise(done => requestAnimationFrame(() => requestAnimationFrame(done)))')

    def spent(self):
        """Processor seconds of the browser and of all processes below it so far."""
        taken = {}
        for name in filter(str.isdigit, os.listdir('/proc')):
            try:
                with open(f'/proc/{name}/stat', encoding='utf-8', errors='replace') as file:
                    row = file.read().rpartition(')')[2].split()
            except OSError:
                continue  # it has ended
            taken[int(name)] = int(row[1]), sum(map(int, row[11:15])) / os.sysconf('SC_CLK_TCK')
        ours = {self._process.pid}
        while more := {pid for pid, (above, _) in taken.items() if above in ours} - ours:
            ours |= more
        return sum(taken[pid][1] for pid in ours if pid in taken)

    def sized(self, wide, high, dense=1, touch=False):
        """Makes the page so wide and high, with so many pixels of the screen for one of CSS."""
        self.call('Emulation.setDeviceMetricsOverride', width=wide, height=high, deviceScaleFactor=dense, mobile=touch)
        self.call('Emulation.setTouchEmulationEnabled', enabled=touch)

    def dark(self, is_dark):
        feature = {'name': 'prefers-color-scheme', 'value': 'dark' if is_dark else 'light'}
        self.call('Emulation.setEmulatedMedia', features=[feature])

    def key(self, key, shift=False):
        told = {'key': key, 'code': 'Space' if key == ' ' else key, 'windowsVirtualKeyCode': KEYS.get(key, ord(key[0])),
                'modifiers': 8 if shift else 0}
        text = {'text': key} if len(key) == 1 else {}
        self.call('Input.dispatchKeyEvent', type='keyDown', **told, **text)
        self.call('Input.dispatchKeyEvent', type='keyUp', **told)

    def moved(self, x, y, held=False):
        self.call('Input.dispatchMouseEvent', type='mouseMoved', x=x, y=y, button='left' if held else 'none',
                  buttons=1 if held else 0)

    def dragged(self, places):
        """Presses at the first place, moves over the others and lets go."""
        (x, y), last = places[0], places[-1]
        self.moved(x, y)
        self.call('Input.dispatchMouseEvent', type='mousePressed', x=x, y=y, button='left', clickCount=1)
        for x, y in places[1:]:
            self.moved(x, y, held=True)
        self.call('Input.dispatchMouseEvent', type='mouseReleased', x=last[0], y=last[1], button='left', clickCount=1)

    def touched(self, *steps):
        """Touches with fingers: each step has the places of all of them; they are lifted at the end."""
        for i, places in enumerate(steps):
            points = [{'x': x, 'y': y, 'id': finger} for finger, (x, y) in enumerate(places)]
            self.call('Input.dispatchTouchEvent', type='touchMove' if i else 'touchStart', touchPoints=points)
        self.call('Input.dispatchTouchEvent', type='touchEnd', touchPoints=[])

    def picture(self, name):
        """Keeps what is seen as a PNG."""
        self.drawn()
        with open(name, 'wb') as file:
            file.write(base64.b64decode(self.call('Page.captureScreenshot', format='png')['data']))
        return name
