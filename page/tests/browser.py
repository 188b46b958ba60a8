"""A real browser for the page's tests: Chromium by its driver, with events as a person's hands make them."""
import base64
import json
import pathlib
import shutil
import tempfile
import time

from selenium import webdriver
from selenium.webdriver.chrome.options import Options
from selenium.webdriver.chrome.service import Service
from selenium.webdriver.common.by import By
from selenium.webdriver.common.keys import Keys

CHROMIUM = shutil.which('chromium') or '/usr/bin/chromium'
DRIVER = shutil.which('chromedriver') or '/usr/bin/chromedriver'
KEYS = {'ArrowLeft': 37, 'ArrowUp': 38, 'ArrowRight': 39, 'ArrowDown': 40, 'Enter': 13, 'Tab': 9, 'Space': 32}


class Browser:
    """The page in a window: `page.tap(x, y)` in metres, `page.said()`, `page.js(..)`."""

    def __init__(self, page, wide=1280, high=800, ratio=1, touch=False, dark=False):
        self.touch = touch
        self.folder = pathlib.Path(tempfile.mkdtemp(prefix='bofrashem-page-'))
        self.downloads = self.folder / 'downloads'
        self.downloads.mkdir()
        options = Options()
        options.binary_location = CHROMIUM
        for word in ('--headless=new', '--no-sandbox', '--disable-gpu', f'--window-size={wide},{high}',
            '--hide-scrollbars',
                     f'--user-data-dir={self.folder / "profile"}'):
            options.add_argument(word)
        options.set_capability('goog:loggingPrefs', {'browser': 'ALL'})
        options.set_capability('unhandledPromptBehavior', 'ignore')
        self.driver = webdriver.Chrome(service=Service(DRIVER), options=options)
        self.cdp('Emulation.setDeviceMetricsOverride', width=wide, height=high, deviceScaleFactor=ratio, mobile=touch)
        self.cdp('Browser.setDownloadBehavior', behavior='allow', downloadPath=str(self.downloads))
        if touch:
            self.cdp('Emulation.setTouchEmulationEnabled', enabled=True, maxTouchPoints=5)
        if dark:
            self.cdp('Emulation.setEmulatedMedia', features=[dict(name='prefers-color-scheme', value='dark')])
        self.visit(page)

    def __enter__(self):
        return self

    def __exit__(self, *_):
        self.driver.quit()
        shutil.rmtree(self.folder, ignore_errors=True)

    def visit(self, page, place=''):
        self.driver.get('about:blank')
        self.driver.get(pathlib.Path(page).resolve().as_uri() + place)
        self.js_async('modules.main.started.then(app => { window.app = app; done(!!app); })')

    def cdp(self, method, **parameters):
        return self.driver.execute_cdp_cmd(method, parameters)

    def js(self, text, *given):
        return self.driver.execute_script(text, *given)

    def js_async(self, text, *given):
        return self.driver.execute_async_script('const done = arguments[arguments.length - 1];' + text, *given)

    def find(self, selector):
        return self.driver.find_element(By.CSS_SELECTOR, selector)

    def text(self, selector):
        return self.js('return document.querySelector(arguments[0]).innerText', selector)

    def texts(self, selector):
        return self.js('return [...document.querySelectorAll(arguments[0])].map(e => e.innerText)', selector)

    def said(self):
        return self.js('return document.getElementById("said").textContent')

    def wait(self, what, seconds=15):
        """Until a condition, in the page's words, holds."""
        end = time.time() + seconds
        while time.time() < end:
            got = self.js(f'return {what}')
            if got:
                return got
            time.sleep(0.02)
        raise AssertionError(f'waited for {what}; the page says {self.said()!r}')

    def settled(self):
        """Until the map shows the view as it is, finely painted."""
        self.wait('app.map.drawn && app.map.drawn.isFine && !app.map.busy && !app.map.raf')

    # Files, as a person chooses or drops them.
    def choose(self, *files, add=False):
        self.js('document.getElementById("said").textContent = ""')
        self.find('#adder' if add else 'input.chooser').send_keys('\n'.join(str(f) for f in files))
        self.wait('document.getElementById("said").textContent')

    def drop(self, *files, onto=(300, 300)):
        self.js('document.getElementById("said").textContent = ""')
        data = dict(items=[], files=[str(f) for f in files], dragOperationsMask=1)
        for kind in ('dragEnter', 'dragOver', 'dragOver', 'drop'):
            self.cdp('Input.dispatchDragEvent', type=kind, x=onto[0], y=onto[1], data=data)
        self.wait('document.getElementById("said").textContent')

    # Hands.
    def at(self, x, y):
        """Where metres are on the screen."""
        return self.js('''const b = document.getElementById('stage').getBoundingClientRect();
            const [x, y] = app.map.pixelsAt([arguments[0], arguments[1]]); return [b.left + x, b.top + y];''', x, y)

    def press(self, x, y):
        if self.touch:
            self.fingers('touchStart', (x, y))
            self.fingers('touchEnd')
            return
        for kind, buttons in (('mousePressed', 1), ('mouseReleased', 0)):
            self.cdp('Input.dispatchMouseEvent', type=kind, x=x, y=y, button='left', buttons=buttons, clickCount=1)

    def tap(self, x, y):
        self.press(*self.at(x, y))

    def fingers(self, kind, *points):
        touches = [dict(x=x, y=y, id=i) for i, (x, y) in enumerate(points)]
        self.cdp('Input.dispatchTouchEvent', type=kind, touchPoints=touches)

    def drag(self, start, end, steps=8):
        points = [(start[0] + (end[0] - start[0]) * k / steps, start[1] + (end[1] - start[1]) * k / steps)
                  for k in range(steps + 1)]
        if self.touch:
            self.fingers('touchStart', points[0])
            for p in points[1:]:
                self.fingers('touchMove', p)
            return self.fingers('touchEnd')
        mouse = lambda kind, p, buttons: self.cdp('Input.dispatchMouseEvent', type=kind, x=p[0], y=p[1], button='left',
                                                  buttons=buttons, clickCount=1)
        mouse('mousePressed', points[0], 1)
        for p in points[1:]:
            mouse('mouseMoved', p, 1)
        return mouse('mouseReleased', points[-1], 0)

    def wheel(self, x, y, by):
        self.cdp('Input.dispatchMouseEvent', type='mouseWheel', x=x, y=y, deltaX=0, deltaY=by)

    def click(self, selector):
        """By a mouse or a finger, in the middle of an element."""
        box = self.js('''const e = document.querySelector(arguments[0]); e.scrollIntoView({ block: 'center' });
            const b = e.getBoundingClientRect(); return [b.left + b.width / 2, b.top + b.height / 2,
                b.width];''', selector)
        assert box[2] > 0, f'{selector} is not to be seen'
        self.press(box[0], box[1])

    def key(self, key, modifiers=0):
        text = {'Enter': '\r', 'Space': ' '}.get(key, key if len(key) == 1 else '')
        code = KEYS.get(key) or ord(key.upper())
        name = ' ' if key == 'Space' else key
        for kind in ('keyDown', 'keyUp'):
            more = dict(text=text) if text and kind == 'keyDown' and not modifiers & ~8 else {}
            self.cdp('Input.dispatchKeyEvent', type=kind, key=name, windowsVirtualKeyCode=code, modifiers=modifiers,
                **more)

    def type(self, text):
        for letter in text:
            self.key(letter)

    # What came out.
    def downloaded(self, name, seconds=10):
        end = time.time() + seconds
        while time.time() < end:
            file = self.downloads / name
            if file.is_file() and not list(self.downloads.glob('*.crdownload')):
                got = file.read_bytes()
                file.unlink()
                return got
            time.sleep(0.05)
        raise AssertionError(f'{name} was not saved: {list(self.downloads.iterdir())}; the page says {self.said()!r}')

    def shot(self, file):
        self.settled()
        file.parent.mkdir(parents=True, exist_ok=True)
        file.write_bytes(base64.b64decode(self.cdp('Page.captureScreenshot', format='png')['data']))

    def pdf(self):
        return base64.b64decode(self.cdp('Page.printToPDF', printBackground=True, preferCSSPageSize=True)['data'])

    def log(self):
        return [e['message'] for e in self.driver.get_log('browser') if e['level'] in ('SEVERE', 'WARNING')]


def same(got, expected, what):
    assert got == expected, f'{what}: expected {json.dumps(expected)[:600]}, got {json.dumps(got)[:600]}'


__all__ = ['Browser', 'By', 'Keys', 'same']
