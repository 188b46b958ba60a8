#!/usr/bin/env python3
"""What the page takes: size, first picture, frames while moving, calls at 60,000 nodes: bench.py PAGE [WHAT..]

Frames: real input by DevTools, 100 events a second, not waiting for answers. "asked" is the time between
requestAnimationFrame calls, "shown" that between the browser's own DrawFrame events, each as 50th / 95th percentile
in ms.
"""
import base64
import math
import os
import pathlib
import shutil
import subprocess
import sys
import tempfile
import time

from browser import Browser
from wire import Wire
from yards import YARDS

HERE = pathlib.Path(__file__).resolve().parent
ROOT = HERE.parents[1]
PAGE = pathlib.Path(sys.argv[1])
DESK = dict(wide=1280, high=800)
PHONE = dict(wide=375, high=812, ratio=3, touch=True)
PROBE = '''window.probe = { at: [], on: true }; app.map.stats = { fresh: 0, works: [], paints: [], last: null };
const tick = t => { probe.at.push(t); if (probe.on) requestAnimationFrame(tick); }; requestAnimationFrame(tick);'''
FIRST = '''window.first = null;
document.addEventListener('change', () => {
    const from = performance.now(), old = app.map.kept?.scene;
    const look = () => {
        if (app.map.kept?.scene !== old && app.map.drawn) window.first = performance.now() - from;
        else requestAnimationFrame(look);
    };
    look();
}, { capture: true, once: true });'''


def share(values, part):
    return sorted(values)[min(len(values) - 1, int(part * len(values)))] if values else math.nan


def gaps(times):
    return [b - a for a, b in zip(times, times[1:])]


class Hands:
    """Input at a rate of its own."""

    def __init__(self, b):
        self.b, self.wire = b, Wire(b.driver.capabilities['goog:chromeOptions']['debuggerAddress'])
        box = b.js('const b = document.getElementById("stage").getBoundingClientRect(); return [b.width, b.height]')
        self.wide, self.high = box[0], box[1] * (0.8 if b.touch else 1)

    def mouse(self, kind, x, y, **more):
        return self.wire.send('Input.dispatchMouseEvent', type=kind, x=x, y=y, **more)

    def fingers(self, kind, *points):
        return self.wire.send('Input.dispatchTouchEvent', type=kind,
            touchPoints=[dict(x=x, y=y, id=i) for i, (x, y) in enumerate(points)])

    def around(self, label, begin, step, seconds, end, hertz=100):
        self.wire.trace()
        self.b.js(PROBE)
        begin()
        t0, n = time.time(), int(seconds * hertz)
        for i in range(n):
            time.sleep(max(0, t0 + i / hertz - time.time()))
            step(i / max(n - 1, 1))
        got = self.b.js('probe.on = false; return { at: probe.at, ...app.map.stats, last: app.map.stats.last?.shown }')
        self.wire.wait(end())
        shown, lost = self.wire.frames()
        asked, seen = gaps(got['at']), gaps(shown)
        both = lambda v: f'{share(v, .5):.1f} / {share(v, .95):.1f}'
        row = [label, both(asked), both(seen), lost, f"{got['fresh']} of {len(asked)}", f"{share(got['works'], .95):.1f}",
               f"{share(got['paints'], .5):.0f}", got['last']]
        print('| ' + ' | '.join(map(str, row)) + ' |', flush=True)

    def drag(self, label, seconds=1.6):
        x, y = self.wide / 2, self.high / 2
        at = lambda f: (x + self.wide * .3 * math.sin(f * 4 * math.pi), y + self.high * .2 * math.sin(f * 8 * math.pi))
        if self.b.touch:
            self.around(label, lambda: self.fingers('touchStart', (x, y)), lambda f: self.fingers('touchMove', at(f)),
                seconds,
                        lambda: self.fingers('touchEnd'))
        else:
            held = dict(button='left', buttons=1)
            self.around(label, lambda: self.mouse('mousePressed', x, y, clickCount=1, **held),
                lambda f: self.mouse('mouseMoved', *at(f), **held),
                        seconds, lambda: self.mouse('mouseReleased', x, y, button='left', buttons=0, clickCount=1))

    def zoom(self, label, by, seconds=1.2):
        x, y = self.wide / 2 + 7, self.high / 2 + 5
        if self.b.touch:
            a, b = (30, 30 * by) if by > 1 else (30 / by, 30)
            two = lambda f: ((x, y - a - (b - a) * f), (x, y + a + (b - a) * f))
            self.around(label, lambda: self.fingers('touchStart', *two(0)),
                lambda f: self.fingers('touchMove', *two(f)), seconds,
                        lambda: self.fingers('touchEnd'))
        else:
            turn = -400 * math.log(by) / (100 * seconds)
            self.around(label, lambda: 0, lambda f: self.mouse('mouseWheel', x, y, deltaX=0, deltaY=turn), seconds,
                        lambda: self.mouse('mouseMoved', x, y))


def frames(folder):
    print('| Yard, screen, move | asked | shown | lost | new pictures | page\'s work, 95th | painting, 50th | links seen |')
    print('|---|---|---|---|---|---|---|---|')
    for device, form in (('desk', DESK), ('phone', PHONE)):
        for name in ('grid', 'tangle'):
            with Browser(PAGE, **form) as b:
                b.choose(folder / f'{name}.section')
                b.settled()
                hands = Hands(b)
                hands.drag(f'{name}, {device}: drag, whole yard')
                b.js('app.map.fit()')
                b.settled()
                hands.zoom(f'{name}, {device}: zoom 5.6', 5.6)
                hands.drag(f'{name}, {device}: drag, near')
                hands.zoom(f'{name}, {device}: zoom 5.6 again', 5.6)
                hands.drag(f'{name}, {device}: drag, close')


def first(folder):
    print('| File | first picture, ms (five times) | page to library, ms |')
    print('|---|---|---|')
    for device, form in (('desk', DESK), ('phone', PHONE)):
        for name in ('hall', 'yard', 'grid'):
            file = folder / f'{name}.section'
            with Browser(PAGE, **form) as b:
                start = b.js('return performance.getEntriesByType("navigation")[0].domContentLoadedEventEnd')
                took = []
                for _ in range(5):
                    b.js(FIRST)
                    b.choose(file)
                    took.append(b.wait('window.first'))
                print(f"| {name}, {device} | {', '.join(f'{t:.0f}' for t in sorted(took))} | {start:.0f} |",
                    flush=True)


CALLS = '''const { Cell } = modules.cell, lib = app.site.lib;
const bytes = Uint8Array.from(atob(arguments[0]), c => c.charCodeAt(0));
const none = new Uint8Array(0), out = {}, best = (what, f) => { let least = Infinity; for (let i = 0; i < 9; i++) {
const t = performance.now(); f(); least = Math.min(least, performance.now() - t); } out[what] = least; };
let cell = Cell.read(lib, bytes, none);
best('read', () => { cell.close(); cell = Cell.read(lib, bytes, none); });
best('sound', () => cell.soundness());
best('nearest', () => cell.nearest(40, 40));
best('within 125 m', () => cell.within(40, 40, 500));
best('short way, 0 to the last', () => cell.shortestPath(0, cell.nodeCount - 1));
best('walk of 59,999 choices', () => cell.walk(0, new Uint8Array(59999)));
best('write', () => cell.write());
best('renumber', () => cell.renumber());
cell.close(); return out;'''


def calls(folder):
    print('60,000 nodes, best of 9, ms')
    file = folder / 'rows.section'
    given = base64.b64encode(file.read_bytes()).decode()
    for page in [PAGE, *sorted(PAGE.parent.glob('*-wasm64.html'))]:
        with Browser(page) as b:
            print(f'{page.name}:', {k: round(v, 2) for k, v in b.js(CALLS, given).items()}, flush=True)
    archive, program = ROOT / 'target/staticlib/libexports.a', folder / 'native'
    if not shutil.which('gcc') or not archive.exists():
        return print('native left out: gcc, or the archive (make archive)')
    words = ['gcc', '-std=c11', '-O2', f'-I{ROOT / "include"}', HERE / 'native.c', archive, '-o', program]
    subprocess.run(words, check=True)
    said = subprocess.run([program, file], capture_output=True, text=True, check=True).stdout
    return print('native:', ', '.join(said.splitlines()))


def main():
    wanted = sys.argv[2:] or ['size', 'first', 'calls', 'frames']
    print(f'{PAGE.name}: {PAGE.stat().st_size} bytes; load {os.getloadavg()[0]:.1f}')
    with tempfile.TemporaryDirectory() as made:
        folder = pathlib.Path(made)
        for name, make in YARDS.items():
            (folder / f'{name}.section').write_bytes(make())
        for name in ('hall', 'yard'):
            (folder / f'{name}.section').write_bytes((ROOT / 'samples' / f'{name}.section').read_bytes())
        for what, measure in (('first', first), ('calls', calls), ('frames', frames)):
            if what in wanted:
                measure(folder)


if __name__ == '__main__':
    main()
