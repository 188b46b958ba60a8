#!/usr/bin/env python3
"""Keyboard alone, contrast, names of controls, labels of the map: access.py PAGE"""
import pathlib
import struct
import sys
import tempfile

from browser import Browser, same
from wire import Wire
from yards import YARDS, crossing, mixed

HERE = pathlib.Path(__file__).resolve().parent
SAMPLES = HERE.parents[1] / 'samples'
PAGE = pathlib.Path(sys.argv[1])
DESK = dict(wide=1280, high=800)
PHONE = dict(wide=375, high=812, ratio=2, touch=True)
TABS = ['yard', 'node', 'near', 'round', 'way']


def focused(b):
    return b.js('''const e = document.activeElement; return e.id || e.className || e.innerText || e.tagName''')


def to(b, wanted, most=80):
    """By the tabulator to an element that holds these words, or has this id."""
    for _ in range(most):
        b.key('Tab')
        got = b.js('''const e = document.activeElement, w = arguments[0];
            return e.id === w || e.className === w || (e.tagName === 'BUTTON' && e.innerText.startsWith(w))''', wanted)
        if got:
            return
    raise AssertionError(f'no way by the tabulator to {wanted!r}; it stands at {focused(b)!r}')


def choose_by_keys(b, wire, *files):
    """The file chooser, opened by a key; what it answers is given to the page as the browser would."""
    wire.events = []
    b.key('Enter')
    opened = next((e for e in wire.events if e['method'] == 'Page.fileChooserOpened'),
        None) or wire.wait(event='Page.fileChooserOpened')
    node = opened['params']['backendNodeId']
    wire.wait(wire.send('DOM.setFileInputFiles', files=[str(f) for f in files], backendNodeId=node))
    b.wait('app.site.members.length')


def keyboard():
    with Browser(PAGE, **DESK) as b:
        wire = Wire(b.driver.capabilities['goog:chromeOptions']['debuggerAddress'])
        wire.wait(wire.send('Page.enable'))
        wire.wait(wire.send('Page.setInterceptFileChooserDialog', enabled=True))
        to(b, 'chooser')
        choose_by_keys(b, wire, SAMPLES / 'hall.section')
        b.settled()
        b.js('document.activeElement.blur()')
        map_by_keys(b)
        record_by_keys(b)
        play_by_keys(b)
    print('access.py: keyboard alone: passed')


def map_by_keys(b):
    to(b, 'stage')
    shown = b.js('return getComputedStyle(document.getElementById("cross")).display')
    same(shown, 'block', 'the cross at the middle')
    view = b.js('return app.map.view')
    b.key('+')
    assert b.js('return app.map.view.scale') > view['scale']
    b.key('-')
    b.key('ArrowRight')
    assert b.js('return app.map.view.ox') < view['ox']
    b.key('0')
    b.settled()
    b.key('Enter')
    assert b.js('return !!app.chosen') and 'from the tap' in b.said(), b.said()
    # the browser's own keys stay the browser's
    for key, modifiers in (('0', 2), ('+', 2), ('ArrowLeft', 1)):
        before = b.js('''window.taken = null;
            addEventListener('keydown', e => { taken = e.defaultPrevented; }, { once: true });
            return app.map.view''')
        b.key(key, modifiers)
        same(b.js('return [taken, app.map.view]'), [False, before], f'{key} with a modifier')


def record_by_keys(b):
    to(b, 'tab-yard')
    for name in ('node', 'near', 'round'):
        b.key('ArrowRight')
        same(b.js('return app.tab'), name, 'a tab by an arrow key')

    def press(wanted):
        b.js('document.getElementById("tab-round").focus()')
        to(b, wanted)
        b.key('Enter')

    press('record')
    press('Begin at')
    start = b.js('return app.round.start')
    for _ in range(3):
        press('link ')
    same(b.js('return app.round.choices.length'), 3, 'links chosen by keys')
    press('undo')
    same(b.js('return app.round.choices.length'), 2, 'undone by a key')
    press('record-end')
    press('save-1')
    got = b.downloaded(f'hall-from-{start}.round')
    same(got[:9].hex(), (b'RND' + struct.pack('<3H', 1, start, 2)).hex(), 'saved by keys')


def play_by_keys(b):
    b.js('document.getElementById("stage").focus()')
    b.key('.')
    same(b.js('return app.step'), 2, 'a step on by the full stop, from the last')
    b.key(',')
    same(b.js('return app.step'), 1, 'a step back by the comma')
    b.key('Space')
    b.wait('app.step === 2')


NAMED = {'button', 'textbox', 'searchbox', 'slider', 'combobox', 'spinbutton', 'tab', 'checkbox', 'application',
    'link', 'img'}


def unnamed(b):
    tree = b.cdp('Accessibility.getFullAXTree')['nodes']
    return [n['role']['value'] for n in tree if not n.get('ignored') and n.get('role', {}).get('value') in NAMED
            and not n.get('name', {}).get('value')]


def contrast():
    seen, script = 0, (HERE / 'contrast.js').read_text(encoding='utf-8')
    for form in (DESK, PHONE):
        for dark in (False, True):
            with Browser(PAGE, **form, dark=dark) as b:
                same(b.js(script)['texts'], [], 'contrast before anything is open')
                b.js('document.getElementById("fold").click()')
                b.choose(SAMPLES / 'dock.section')
                b.choose(HERE / 'yards.py')
                b.choose(SAMPLES / 'dock.section', SAMPLES / 'dock.round')
                same(b.js(script)['marks'], [], 'contrast of the marks')
                for tab in TABS:
                    b.js(f'app.toTab("{tab}")')
                    b.js('app.choose([0, 5])')
                    same(b.js(script)['texts'], [], f'contrast of {tab}, dark {dark}')
                    same(unnamed(b), [], f'controls without a name in {tab}')
                    wide = b.js('return [document.documentElement.scrollWidth, innerWidth]')
                    assert wide[0] <= wide[1], (tab, wide)
                    seen += 1
                small = b.js('''return [...document.querySelectorAll('button, select, .button')].filter(e => e.offsetParent)
                    .filter(e => e.getBoundingClientRect().height < 43.5).map(e => e.id || e.innerText)''')
                same(small, [], 'controls under 44 points')
    print(f'access.py: contrast, names and sizes of controls in {seen} states: passed')


def labels(folder):
    script = (HERE / 'labels.js').read_text(encoding='utf-8')
    files = {'hall': [SAMPLES / 'hall.section', SAMPLES / 'hall.round'],
        'dock': [SAMPLES / 'dock.section', SAMPLES / 'dock.round'],
             'yard': [SAMPLES / 'yard.section']}
    for name, data in (('mixed', mixed()), ('west', crossing(489, 490)), ('grid', YARDS['grid']())):
        (folder / f'{name}.section').write_bytes(data)
        files[name] = [folder / f'{name}.section']
    with Browser(PAGE, **DESK) as b:
        for name, chosen in files.items():
            b.choose(*chosen)
            got = {'labels': 0, 'views': 0}
            if name == 'yard':
                # a round through many nodes, as the short way
                b.js('''app.round = app.site.begin([0, 120], 'x');
                    app.site.choose(app.round, app.site.way([0, 120], [0, 2877]).choices);
                    app.round.isSaved = true;
                    app.mark();''')
            for ratio, wide, high in ((1, 1280, 800), (3, 375, 812)):
                zooms = [0.6, 1, 1.7, 3, 5, 9, 15, 30, 60] if name != 'hall' else [0.3, 0.5, 1, 2, 4]
                one = b.js(script, dict(wide=wide, high=high, ratio=ratio, zooms=zooms))
                same(one['crossing'], [], f'{name}: labels that cover each other')
                got = {k: got[k] + one[k] for k in got}
            assert got['labels'] > 0, name
            print(f"access.py: {name}: {got['labels']} numbers in {got['views']} views, none covers another")


def main():
    keyboard()
    contrast()
    with tempfile.TemporaryDirectory() as folder:
        labels(pathlib.Path(folder))


if __name__ == '__main__':
    main()
