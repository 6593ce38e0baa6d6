"""Chromium and Firefox without a window, driven by their own protocols: WebDriver, and Marionette. Nothing but the page is loaded."""
import json
import shutil
import socket
import subprocess
import tempfile
import time
import urllib.error
import urllib.request
from pathlib import Path

ELEMENT = 'element-6066-11e4-a52e-4f735466cecf'
ENDS = 30
SIZE = (1280, 860)


class Failed(Exception):
    """What a browser says that it cannot do."""


def free_port():
    with socket.socket() as listener:
        listener.bind(('127.0.0.1', 0))
        return listener.getsockname()[1]


def until(done, what, seconds=ENDS):
    """Waits for an answer that holds."""
    ends = time.monotonic() + seconds
    while time.monotonic() < ends:
        if answer := done():
            return answer
        time.sleep(0.05)
    raise Failed(f'{what}: not within {seconds} seconds')


class Browser:
    """What both can do, by the commands of WebDriver."""

    def open(self, url):
        self.command('POST', 'url', {'url': url})

    def script(self, text, *given):
        return self.command('POST', 'execute/sync', {'script': text, 'args': list(given)})

    def wait_for(self, text, *given):
        """The answer of a script that calls the last of its arguments when it is done."""
        return self.command('POST', 'execute/async', {'script': text, 'args': list(given)})

    def element(self, selector):
        found = self.command('POST', 'element', {'using': 'css selector', 'value': selector})
        return found[ELEMENT]

    def click(self, selector):
        self.command('POST', f'element/{self.element(selector)}/click', {})

    def type(self, selector, text):
        self.command('POST', f'element/{self.element(selector)}/value', {'text': text})

    def text(self, selector):
        return self.script('return document.querySelector(arguments[0]).innerText', selector)

    def picture(self, path):
        import base64
        Path(path).write_bytes(base64.b64decode(self.command('GET', 'screenshot', None)))


class Chromium(Browser):
    name = 'chromium'
    programs = ('chromium', 'chromedriver')

    def __init__(self, size=SIZE, is_dark=False):
        self.port = free_port()
        self.driver = subprocess.Popen(['chromedriver', f'--port={self.port}'], stdout=subprocess.DEVNULL, stderr=subprocess.DEVNULL)
        words = ['--headless=new', '--no-sandbox', '--disable-gpu', '--disable-dev-shm-usage', '--hide-scrollbars',
                 f'--window-size={size[0]},{size[1]}', '--allow-file-access-from-files=false']
        if is_dark:
            words.append('--force-dark-mode')
        self.session = None
        until(self._is_ready, 'chromedriver')
        wanted = {'browserName': 'chrome', 'goog:chromeOptions': {'args': words, 'binary': shutil.which('chromium')},
                  'goog:loggingPrefs': {'browser': 'ALL'}}
        self.session = self._ask('POST', '/session', {'capabilities': {'alwaysMatch': wanted}})['sessionId']
        self.command('POST', 'timeouts', {'script': 300000})

    def _is_ready(self):
        try:
            return self._ask('GET', '/status', None)['ready']
        except OSError:
            return False

    def _ask(self, method, path, body):
        data = None if body is None else json.dumps(body).encode()
        request = urllib.request.Request(f'http://127.0.0.1:{self.port}{path}', data, {'Content-Type': 'application/json'}, method=method)
        try:
            with urllib.request.urlopen(request, timeout=400) as answer:
                return json.load(answer)['value']
        except urllib.error.HTTPError as problem:
            raise Failed(json.load(problem)['value']['message'].splitlines()[0]) from problem

    def command(self, method, what, body):
        return self._ask(method, f'/session/{self.session}/{what}', body)

    def devtools(self, name, **given):
        return self.command('POST', 'goog/cdp/execute', {'cmd': name, 'params': given})

    def drop(self, path, selector):
        """Drags a file of the disk over the page, and drops it."""
        x, y = self.script('const at = document.querySelector(arguments[0]).getBoundingClientRect();'
                           'return [at.x + at.width / 2, at.y + at.height / 2]', selector)
        data = {'items': [], 'files': [str(path)], 'dragOperationsMask': 1}
        for kind in ('dragEnter', 'dragOver', 'drop'):
            self.devtools('Input.dispatchDragEvent', type=kind, x=x, y=y, data=data)

    def complaints(self):
        """What the console has of warnings and errors."""
        entries = self.command('POST', 'se/log', {'type': 'browser'})
        return [entry['message'] for entry in entries if entry['level'] in ('SEVERE', 'WARNING')]

    def close(self):
        try:
            self._ask('DELETE', f'/session/{self.session}', None)
        finally:
            self.driver.terminate()
            self.driver.wait()


class Firefox(Browser):
    name = 'firefox'
    programs = ('firefox-esr',)
    COMMANDS = {'url': 'WebDriver:Navigate', 'execute/sync': 'WebDriver:ExecuteScript', 'execute/async': 'WebDriver:ExecuteAsyncScript',
                'element': 'WebDriver:FindElement', 'screenshot': 'WebDriver:TakeScreenshot', 'timeouts': 'WebDriver:SetTimeouts'}

    def __init__(self, size=SIZE, is_dark=False):
        self.port, self.number = free_port(), 0
        self.profile = tempfile.mkdtemp()
        settings = {'marionette.port': self.port, 'browser.shell.checkDefaultBrowser': False, 'ui.systemUsesDarkTheme': int(is_dark)}
        lines = (f'user_pref({json.dumps(name)}, {json.dumps(value)});\n' for name, value in settings.items())
        (Path(self.profile) / 'user.js').write_text(''.join(lines))
        words = ['firefox-esr', '--headless', '--marionette', '--no-remote', '--profile', self.profile, f'--width={size[0]}', f'--height={size[1]}']
        self.driver = subprocess.Popen(words, stdout=subprocess.DEVNULL, stderr=subprocess.DEVNULL)
        self.connection = until(self._connection, 'firefox')
        self._read()
        self._ask('WebDriver:NewSession', {'capabilities': {'alwaysMatch': {}}})
        self.command('POST', 'timeouts', {'script': 300000})

    def _connection(self):
        try:
            return socket.create_connection(('127.0.0.1', self.port), timeout=400)
        except OSError:
            return None

    def _read(self):
        """A message: its length in decimal, a colon, and JSON."""
        size = b''
        while not size.endswith(b':'):
            size += self.connection.recv(1) or b':'
        left, parts = int(size[:-1]), []
        while left > 0:
            parts.append(self.connection.recv(left))
            left -= len(parts[-1])
        return json.loads(b''.join(parts))

    def _ask(self, name, body):
        self.number += 1
        text = json.dumps([0, self.number, name, body or {}]).encode()
        self.connection.sendall(str(len(text)).encode() + b':' + text)
        _, _, problem, result = self._read()
        if problem:
            raise Failed(problem['message'])
        return result['value'] if isinstance(result, dict) and set(result) == {'value'} else result

    def command(self, method, what, body):
        if what.startswith('element/'):
            _, element, verb = what.split('/')
            return self._ask({'click': 'WebDriver:ElementClick', 'value': 'WebDriver:ElementSendKeys'}[verb], {'id': element, **body})
        return self._ask(self.COMMANDS[what], body)

    def complaints(self):
        return []

    def close(self):
        try:
            self._ask('Marionette:Quit', {'flags': ['eForceQuit']})
        finally:
            self.driver.terminate()
            self.driver.wait()
            shutil.rmtree(self.profile, ignore_errors=True)


def those_here():
    """The browsers that this machine has."""
    return [browser for browser in (Chromium, Firefox) if all(map(shutil.which, browser.programs))]
