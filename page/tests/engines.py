#!/usr/bin/env python3
"""The page in other engines, where they are at hand: Firefox (firefox-esr, by Marionette) and WebKit (webkit2gtk-driver
and xvfb). engines.py PAGE [PAGE OF THE 64-BIT MODULE]

A copy without the Content-Security-Policy runs a script behind the page: it opens files as a person does, taps, asks a
way, plays a round, replays the vectors and leaves what it saw in the title. Then the page itself is opened, as it is.
"""
import base64
import json
import os
import pathlib
import re
import shutil
import socket
import subprocess
import sys
import tempfile
import time

HERE = pathlib.Path(__file__).resolve().parent
ROOT = HERE.parents[1]
SAMPLES = ROOT / 'samples'
WEBKIT = '/usr/lib/x86_64-linux-gnu/webkit2gtk-4.1/MiniBrowser'

USE = '''
const wait = async f => {
    for (let k = 0; k < 600; k++) {
        const got = f();
        if (got) return got;
        await new Promise(g => setTimeout(g, 50));
    }
    throw Error('waited for ' + f);
};
const bytesOf = text => Uint8Array.from(atob(text), c => c.charCodeAt(0));
modules.main.started.then(async app => {
    const out = { agent: navigator.userAgent.slice(-40) };
    if (!app) { document.title = JSON.stringify({ ...out,
        lacks: document.getElementById('welcome').innerText }); return; }
    window.app = app;
    const input = document.querySelector('input.chooser'), transfer = new DataTransfer();
    for (const [name, text] of FILES) transfer.items.add(new File([bytesOf(text)], name));
    input.files = transfer.files;
    input.dispatchEvent(new Event('change'));
    out.said = await wait(() => document.getElementById('said').textContent);
    await wait(() => app.map.drawn && app.map.drawn.isFine);
    out.painted = app.map.pen.getImageData(0, 0, app.map.canvas.width,
        app.map.canvas.height).data.some(v => v !== 255 && v !== 0);
    out.isBeside = !!app.map.port.isBeside;
    app.tapped(...app.map.pixelsAt(app.site.positionOf([0, 16])));
    out.tapped = document.getElementById('said').textContent;
    const { metres } = app.site.way([0, 0], [0, 9]);
    out.way = metres;
    out.end = app.round.walk.end.how;
    out.container = (await app.site.written(0, true)).length > 100;
    const given = VECTORS;
    out.vectors = (function () {
 REPLAY
 }).call(null, given);
    document.title = JSON.stringify(out);
}).catch(x => { document.title = JSON.stringify({ fault: String(x), stack: x.stack }); });
'''


def tried(page, folder):
    """The copy that runs the script."""
    files = [(f, base64.b64encode((SAMPLES / f).read_bytes()).decode()) for f in ('hall.section', 'hall.round')]
    vectors = base64.b64encode((ROOT / 'crates/vectors/stdin').read_bytes()).decode()
    script = USE.replace('FILES', json.dumps(files)).replace('VECTORS', json.dumps(vectors))
    script = script.replace('REPLAY', (HERE / 'vectors.js').read_text(encoding='utf-8'))
    text = re.sub(r'<meta http-equiv="Content-Security-Policy"[^>]*>', '', page.read_text(encoding='utf-8'))
    copy = folder / page.name
    copy.write_text(text.replace('</body>', f'<script>{script}</script></body>'), encoding='utf-8')
    return copy


class Firefox:
    def __init__(self, folder):
        profile = folder / 'firefox'
        profile.mkdir()
        (profile / 'user.js').write_text('user_pref("marionette.port", 2937);\n')
        words = ['firefox-esr', '--headless', '--marionette', '--no-remote', '--profile', str(profile)]
        self.process = subprocess.Popen(words, env=dict(os.environ, HOME=str(profile)), stdout=subprocess.DEVNULL,
            stderr=subprocess.DEVNULL)
        for _ in range(200):
            try:
                self.socket = socket.create_connection(('127.0.0.1', 2937), timeout=120)
                break
            except OSError:
                time.sleep(0.3)
        self.read()
        self.count = 0
        self.ask('WebDriver:NewSession', capabilities=dict(alwaysMatch={}))

    def read(self):
        size = b''
        while (c := self.socket.recv(1)) != b':':
            size += c
        data = b''
        while len(data) < int(size):
            data += self.socket.recv(int(size) - len(data))
        return json.loads(data)

    def ask(self, command, **given):
        self.count += 1
        data = json.dumps([0, self.count, command, given]).encode()
        self.socket.sendall(str(len(data)).encode() + b':' + data)
        got = self.read()
        assert not got[2], got[2]
        return got[3].get('value') if isinstance(got[3], dict) else got[3]

    def visit(self, page):
        self.ask('WebDriver:Navigate', url=page.as_uri())

    def title(self):
        return self.ask('WebDriver:GetTitle')

    def text(self, name):
        return self.ask('WebDriver:ExecuteScript', script=f'return document.getElementById("{name}").textContent',
            args=[])

    def close(self):
        self.process.terminate()
        self.process.wait(20)


class WebKit:
    def __init__(self, folder):
        from selenium import webdriver
        self.screen = subprocess.Popen(['Xvfb', ':83', '-screen', '0', '1280x800x24'], stdout=subprocess.DEVNULL,
            stderr=subprocess.DEVNULL)
        time.sleep(1)
        os.environ.update(DISPLAY=':83', WEBKIT_DISABLE_SANDBOX_THIS_IS_DANGEROUS='1', LIBGL_ALWAYS_SOFTWARE='1',
            HOME=str(folder))
        options = webdriver.WebKitGTKOptions()
        options.binary_location = WEBKIT
        options.add_argument('--automation')
        self.driver = webdriver.WebKitGTK(options=options, executable_path=shutil.which('WebKitWebDriver'))

    def visit(self, page):
        self.driver.get(page.as_uri())

    def title(self):
        return self.driver.title

    def text(self, name):
        return self.driver.execute_script(f'return document.getElementById("{name}").textContent')

    def close(self):
        self.driver.quit()
        self.screen.terminate()


def use(engine, page, folder):
    engine.visit(tried(page, folder))
    for _ in range(600):
        title = engine.title()
        if title.startswith('{'):
            break
        time.sleep(0.1)
    return json.loads(title)


def check(name, make, pages, folder):
    engine = make(folder)
    try:
        for page in pages:
            got = use(engine, page, folder)
            if 'lacks' in got:
                # an engine without 64-bit memories says so in a sentence; the lowered module is for it
                assert page != pages[0] and 'This browser has no' in got['lacks'], got
                print(f"engines.py: {name}: {page.name}: {' '.join(got['lacks'].split())}")
                continue
            assert 'fault' not in got, (name, page.name, got)
            assert got['said'] == 'hall.section is open; 1 round opened' and got['painted'] and got['container'], got
            assert got['tapped'].startswith('node 16') and got['way'] == 90 and got['end'] == 'done', got
            assert not got['vectors']['wrong'] and got['vectors']['agreed'] > 900, got
            side = 'beside no worker' if got['isBeside'] else 'with a worker'
            agreed = f"{got['vectors']['agreed']} vectors agree"
            print(f"engines.py: {name}: {page.name}: opened, drawn {side}, tapped; {agreed} ({got['agent']})")
        engine.visit(pages[0])
        time.sleep(2)
        assert 'Library' in engine.text('version'), engine.text('version')
        print(f'engines.py: {name}: the page as it is, with its policy, starts')
    finally:
        engine.close()


def main():
    pages = [pathlib.Path(p).resolve() for p in sys.argv[1:]]
    with tempfile.TemporaryDirectory(ignore_cleanup_errors=True) as made:
        folder = pathlib.Path(made)
        if shutil.which('firefox-esr'):
            check('Firefox', Firefox, pages, folder)
        else:
            print('engines.py: Firefox left out: apt-get install firefox-esr')
        if shutil.which('WebKitWebDriver') and shutil.which('Xvfb') and pathlib.Path(WEBKIT).exists():
            check('WebKit', WebKit, pages, folder)
        else:
            print('engines.py: WebKit left out: apt-get install webkit2gtk-driver xvfb')


if __name__ == '__main__':
    main()
