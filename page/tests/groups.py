#!/usr/bin/env python3
"""What a person does with the page, by mouse, touch and keyboard: groups.py PAGE TOOL SHOTS

The tests are those things of docs/TOOL.md, "The page". TOOL is the tool bofrashem, for the expected answers, and may
be a dash: then what is compared with it is left out, and said. Screenshots stay in SHOTS.
"""
import json
import pathlib
import struct
import subprocess
import sys
import time

from browser import Browser, same
from yards import crossing, damaged_numbers, hostile, mixed, split, stacked

PAGE, TOOL, SHOTS = pathlib.Path(sys.argv[1]), sys.argv[2], pathlib.Path(sys.argv[3])
ROOT = pathlib.Path(__file__).resolve().parents[2]
SAMPLES = ROOT / 'samples'
DESK = dict(wide=1280, high=800)
PHONE = dict(wide=375, high=812, ratio=2, touch=True)


def tool(*words):
    """The tool's JSON, or None without the tool."""
    if TOOL == '-':
        return None
    run = subprocess.run([TOOL, *map(str, words), '--json'], capture_output=True, check=False)
    return json.loads(run.stdout or run.stderr)


def position(b, place, member=0):
    return b.js(f'return app.site.positionOf([{member}, {place}])')


def tap_node(b, place, member=0):
    b.tap(*position(b, place, member))


def tab(b, name):
    b.click(f'#tab-{name}')
    if b.js('return !document.getElementById("panel").classList.contains("open") && innerWidth < 800'):
        b.click(f'#tab-{name}')


def counts(b):
    """What the map's legend counts, by mark."""
    b.wait('app.counts')
    return b.js('''const items = [...document.querySelectorAll('#legend li')];
        return Object.fromEntries(items.map(e => [e.dataset.mark, +e.dataset.count]))''')


# 1. Opening
def opening(folder):
    with Browser(PAGE, **DESK) as b:
        b.choose(SAMPLES / 'dock.section')
        same(b.said(), 'dock.section is open', 'one file')
        text = folder / 'notes.txt'
        text.write_text('This is a text, and no yard at all.\n' * 20)
        b.choose(text)
        assert b.said().startswith('1 file refused: notes.txt: refused 3 0: '), b.said()
        assert 'looks like a text file' in b.text('#refused'), b.text('#refused')
        same(b.js('return app.site.members.map(m => m.name)'), ['dock.section'], 'what was open stays')
        short = folder / 'short.section'
        short.write_bytes(b'x' * 50)
        b.choose(short)
        assert 'short.section: refused 1 0: 1 to 111 system bytes' in b.said(), b.said()
        b.drop(SAMPLES / 'hall.section', SAMPLES / 'hall.round', onto=(300, 300))
        same(b.said(), 'hall.section is open; 1 round opened', 'dropped')


def opening_two_sections(folder):
    with Browser(PAGE, **DESK) as b:
        system, graphics = split((SAMPLES / 'hall.section').read_bytes())
        (folder / 'hall.sys').write_bytes(system)
        (folder / 'hall.gfx').write_bytes(graphics)
        b.choose(folder / 'hall.gfx', folder / 'hall.sys')
        same(b.said(), 'hall.sys is open', 'a graphics section beside its system section')
        same(b.js('return app.site.total'), 18, 'its nodes')
        b.choose(folder / 'hall.sys')
        assert 'refused 3 0' in b.said() and 'graphics section' in b.text('#refused'), b.text('#refused')


def opening_containers(folder):
    with Browser(PAGE, **DESK) as b:
        b.choose(SAMPLES / 'hall.section')
        b.click('#members button:nth-of-type(4)')
        ynd = folder / 'hall.ynd'
        ynd.write_bytes(b.downloaded('hall.ynd'))
        if TOOL != '-':
            subprocess.run([TOOL, 'convert', SAMPLES / 'hall.section', folder / 'tool.ynd'], check=True,
                capture_output=True)
            same(tool('info', ynd)['nodes'], 18, 'the tool reads the container')
            b.choose(folder / 'tool.ynd')
            same(b.said(), 'tool.ynd is open', "the tool's container")
        b.choose(ynd)
        same(b.said(), 'hall.ynd is open', 'a container')
        assert 'deflated' in b.text('#members')
        ynd.write_bytes(ynd.read_bytes()[:300])
        b.choose(ynd)
        assert 'container: ' in b.said(), b.said()


def hostile_file(folder):
    file = folder / 'hostile.section'
    file.write_bytes(hostile())
    with Browser(PAGE, **DESK) as b:
        b.choose(SAMPLES / 'hall.section')
        b.choose(file)
        assert 'it asks for' in b.said() and 'this page lends 192 MB in all' in b.said(), b.said()
        same(b.js('return app.site.total'), 18, 'what was open stays')
        assert b.js('return app.site.lib.memory.memory.buffer.byteLength') < 64 << 20


# The page can't reach anything, and runs nothing but its own text.
def policy(folder):
    with Browser(PAGE, **DESK) as b:
        b.js_async('''fetch('http://127.0.0.1:9/').then(() => done('went'), x => done(String(x)))''')
        ran = b.js('''const s = document.createElement('script'); s.textContent = 'window.ran = 1';
            document.body.append(s); return window.ran ?? null''')
        same(ran, None, 'a script that is put in')
        image = b.js_async('''const i = new Image();
            i.onload = () => done('loaded');
            i.onerror = () => done('refused');
            i.src = 'data:image/gif;base64,R0lGODlhAQABAIAAAAAAAP///yH5BAEAAAAALAAAAAABAAEAAAIBRAA7';''')
        same(image, 'refused', 'an image')
        log = ' '.join(b.log())
        for words in ('connect-src', 'script', 'img-src'):
            assert words in log, (words, log)


def opening_many(folder):
    with Browser(PAGE, **DESK) as b:
        many = []
        for k in range(9):
            many.append(folder / f'cell{k}.section')
            many[-1].write_bytes(crossing(489 + k, 490 + k))
        b.choose(*many)
        same(b.said(), '9 cells open', 'nine files')
        more = folder / 'cell9.section'
        more.write_bytes(crossing(498, 489))
        b.choose(more, add=True)
        assert 'refused 14 0' in b.said() and 'at most 9 cells' in b.text('#refused'), b.said()
        same(b.js('return app.site.members.length'), 9, 'nine stay')
        b.choose(SAMPLES / 'hall.round')
        same(b.js('return app.round.choices.length'), 7, 'a round alone')
        same([m for m in b.log() if 'Content Security' in m or 'Error' in m], [], 'the log')


# 2. Seeing
def seeing(folder):
    file = folder / 'mixed.section'
    file.write_bytes(mixed())
    with Browser(PAGE, **DESK) as b:
        b.choose(file)
        got = counts(b)
        same(got, {'road': 5, 'ped': 1, 'post': 2, 'pairs': 2, 'oneWay': 1, 'outs': 1, 'lost': 1, 'heights': 1,
            'edge': 1}, 'marks')
        b.shot(SHOTS / 'mixed.png')
        for tint in ('street', 'member', 'kind'):
            b.js('''const e = document.getElementById('tint');
                e.value = arguments[0];
                e.dispatchEvent(new Event('change'));''', tint)
            b.shot(SHOTS / f'tint-{tint}.png')


def moving(folder):
    with Browser(PAGE, **DESK) as b:
        yard = SAMPLES / 'yard.section'
        b.choose(yard)
        b.settled()
        info, got = tool('info', yard), counts(b)
        if info:
            same([got['road'], got['ped']], [info['road_nodes'], info['ped_nodes']], "the tool's counts")
        before = b.js('return app.map.view')
        b.wheel(440, 400, -600)
        b.wait(f'app.map.view.scale > {before["scale"]} * 3')
        at = b.at(0, 0)
        b.drag((400, 400), (480, 430))
        moved = b.at(0, 0)
        same([round(moved[0] - at[0]), round(moved[1] - at[1])], [80, 30], 'a drag moves what is under the mouse')
        b.shot(SHOTS / 'yard-near.png')
        b.click('#all')
        b.settled()
        same(round(b.js('return app.map.view.scale'), 3), round(before['scale'], 3), 'the whole yard again')
        b.click('#in')
        b.click('#out')


def looks(folder):
    for name, more in (('light', {}), ('dark', dict(dark=True))):
        with Browser(PAGE, **DESK, **more) as b:
            b.choose(SAMPLES / 'hall.section', SAMPLES / 'hall.round')
            b.shot(SHOTS / f'hall-{name}.png')


def phone(folder):
    with Browser(PAGE, **PHONE) as b:
        b.choose(SAMPLES / 'yard.section')
        b.shot(SHOTS / 'phone.png')
        area = b.js('const b = document.getElementById("stage").getBoundingClientRect(); return [b.width, b.height]')
        same(area, [375, 812], 'the map fills the screen')
        left = b.js('return 812 - document.getElementById("panel").offsetHeight')
        assert left > 600, left
        scale = b.js('return app.map.view.scale')
        b.fingers('touchStart', (150, 300), (220, 400))
        for k in range(1, 11):
            b.fingers('touchMove', (150 - 6 * k, 300 - 6 * k), (220 + 6 * k, 400 + 6 * k))
        b.fingers('touchEnd')
        assert b.js('return app.map.view.scale') > 1.8 * scale
        b.shot(SHOTS / 'phone-pinched.png')
        tab(b, 'node')
        b.shot(SHOTS / 'phone-drawer.png')


# Where a browser has no workers, the page draws by itself.
def no_worker(folder):
    with Browser(PAGE, **DESK) as b:
        b.cdp('Page.addScriptToEvaluateOnNewDocument', source='window.Worker = undefined;')
        b.visit(PAGE)
        b.choose(SAMPLES / 'hall.section', SAMPLES / 'hall.round')
        same(b.js('return !!app.map.port.isBeside'), True, 'beside no worker')
        b.shot(SHOTS / 'no-worker.png')
        b.drag((400, 300), (430, 320))
        b.settled()
        assert b.js('return app.map.pen.getImageData(0, 0, 900, 700).data.some((v, i) => i % 4 < 3 && v < 100)')


# 3. A tap on a point
def near(folder):
    for name, form in (('desk', DESK), ('phone', PHONE)):
        with Browser(PAGE, **form) as b:
            b.choose(SAMPLES / 'yard.section')
            b.settled()
            tab(b, 'near')
            b.js('if (innerWidth < 800) document.getElementById("fold").click()')
            x, y = position(b, 2452)
            b.tap(x + 0.3, y + 0.1)
            point = b.js('return app.point')
            radius = b.js('return app.radius')
            got = b.js('return app.near.map(n => n.at[1])')
            want = tool('near', SAMPLES / 'yard.section', point[0], point[1], radius, '--steps')
            if want:
                same(got, [n['place'] for n in want['nodes']], 'nodes within the radius, nearest first')
                same(b.js('return app.chosen[1]'), want['nearest']['place'], 'the nearest')
            tab(b, 'near')
            rows = b.texts('#near-list li')
            assert len(rows) == min(len(got), 301) and ' m ' in rows[0], rows[:2]
            b.js('''const e = document.getElementById('radius'); e.value = 30; e.dispatchEvent(new Event('input'))''')
            fewer = b.js('return app.near.length')
            assert 0 < fewer < len(got), (fewer, len(got))
            b.shot(SHOTS / f'near-{name}.png')
            b.click('#near-list li:nth-child(2) button')
            same(b.js('return app.chosen[1]'), got[1], 'a row is followed')


def stack(folder):
    with Browser(PAGE, **DESK) as b:
        file = folder / 'stacked.section'
        file.write_bytes(stacked())
        b.choose(file)
        b.settled()
        seen = []
        for _ in range(4):
            tap_node(b, 0)
            seen.append(b.js('return app.chosen[1]'))
        same(sorted(seen[:3]), [0, 1, 2], 'each tap takes the next node in one spot')
        same(seen[3], seen[0], 'and then the first again')


# 4. A node
def node(folder):
    with Browser(PAGE, **DESK) as b:
        file = folder / 'mixed.section'
        file.write_bytes(mixed())
        b.choose(file)
        tab(b, 'node')
        tap_node(b, 1)
        text = b.text('#fields')
        for words in ('Node 1', 'road', 'slip road', '0x0000004D (77)', '-3290.00 m, -242.00 m, 0.50 m', 'Junction 0',
            '3 × 2',
                      '2 links', 'dead-endness', '0x00000007'):
            assert words in text, (words, text)
        b.click('#links li:nth-child(2) button')
        same(b.js('return app.chosen'), [0, 2], 'a link is followed')
        tap_node(b, 0)
        assert 'area 490, node 7, which is not open' in b.text('#links')
        tap_node(b, 4)
        assert 'number 999, which no node has' in b.text('#links')
        for query, want in (('3', [0, 3]), ('place 5', [0, 5]), ('street 0x4D', [0, 1]), ('street 77', [0, 1])):
            b.js('document.getElementById("query").value = ""')
            b.click('#query')
            b.type(query)
            b.key('Enter')
            same(b.js('return app.chosen'), want, query)
        b.js('document.getElementById("query").value = "77"')
        b.click('#search button')
        same(b.texts('#found li'), ['node 1, by street'], 'a number finds a street too')
        b.shot(SHOTS / 'node.png')


# 5. Rounds
def rounds(folder):
    hall = SAMPLES / 'hall.section'
    for name, form in (('desk', DESK), ('phone', PHONE)):
        with Browser(PAGE, **form) as b:
            b.choose(hall)
            b.settled()
            tab(b, 'round')
            b.click('#record')
            b.js('if (innerWidth < 800) document.getElementById("fold").click()')
            for place in (0, 1, 2, 3, 4, 16, 17):
                tap_node(b, place)
            same(b.js('return app.round.walk.visits.map(v => v[1])'), [0, 1, 2, 3, 4, 16, 17], 'recorded by taps')
            tap_node(b, 9)
            assert 'no link leads from node 17 to node 9' in b.said(), b.said()
            tab(b, 'round')
            b.click('#undo')
            same(b.js('return app.round.choices.length'), 5, 'undone')
            b.click('#next-list li:last-child button')
            b.shot(SHOTS / f'recording-{name}.png')
            b.click('#record-end')
            choices = b.js('return [...app.round.choices]')
            for version in (1, 2):
                b.click(f'#save-{version}')
                file = folder / f'v{version}.round'
                file.write_bytes(b.downloaded('hall-from-0.round'))
                area = struct.pack('<H', 489) if version == 2 else b''
                want = b'RND' + struct.pack('<H', version) + area + struct.pack('<2H', 0,
                    len(choices)) + bytes(choices)
                same(file.read_bytes().hex(), want.hex(), f'version {version}')


def playing(folder):
    hall = SAMPLES / 'hall.section'
    with Browser(PAGE, **DESK) as b:
        b.choose(hall, SAMPLES / 'hall.round')
        tab(b, 'round')
        assert '7 links followed, 146 m' in b.text('#round-said') and 'end done' in b.text('#round-said')
        b.click('#on')
        b.click('#on')
        same(b.text('#step-said'), 'Step 2 of 7: node 2', 'steps')
        b.click('#back')
        same(b.js('return app.step'), 1, 'a step back')
        b.js('document.getElementById("slider").focus()')
        b.key('ArrowRight')
        same(b.js('return app.step'), 2, 'the slider by keys')
        b.js('''const e = document.getElementById('speed'); e.value = '25'; e.dispatchEvent(new Event('change'))''')
        b.click('#run')
        b.wait('app.step === 7 && document.getElementById("run").textContent === "Play"')
        printed = b.js('return document.getElementById("printed").textContent')
        program = ROOT / 'crates/printround/out/printround'
        section, file = hall.read_bytes(), (SAMPLES / 'hall.round').read_bytes()
        given = struct.pack('<I', len(section)) + section + file
        if program.exists():
            same(printed, subprocess.run([program], input=given, capture_output=True, check=True).stdout.decode(),
                'printround')
        elif TOOL != '-':
            same(printed, subprocess.run([TOOL, 'print', hall, SAMPLES / 'hall.round'], capture_output=True,
                check=True).stdout.decode(), 'print')
        b.click('#save-text')
        same(b.downloaded('hall.txt').decode(), printed, 'the text, saved')
        b.shot(SHOTS / 'round.png')
        (SHOTS / 'printed.pdf').write_bytes(b.pdf())


def rounds_refused(folder):
    with Browser(PAGE, **DESK) as b:
        b.choose(SAMPLES / 'hall.section', SAMPLES / 'hall.round')
        other = folder / 'other.round'
        # a shorter round after a longer one was played to its end
        tab(b, 'round')
        b.js('app.play.to(7)')
        other.write_bytes(b'RND' + struct.pack('<4H', 2, 489, 0, 1) + b'\0')
        b.choose(other)
        same(b.text('#step-said'), 'Step 0 of 1: node 0', 'a shorter round')
        other.write_bytes(b'RND' + struct.pack('<4H', 2, 777, 0, 0))
        b.choose(other)
        assert 'refused 19 0' in b.text('#round-said'), b.text('#round-said')
        other.write_bytes(b'RND' + struct.pack('<3H', 3, 0, 0))
        b.choose(other)
        assert 'refused 15 0' in b.said(), b.said()


# 6. The short way
def way(folder):
    for name, form in (('desk', DESK), ('phone', PHONE)):
        with Browser(PAGE, **form) as b:
            b.choose(SAMPLES / 'hall.section')
            b.settled()
            tab(b, 'way')
            b.js('if (innerWidth < 800) document.getElementById("fold").click()')
            tap_node(b, 0)
            assert b.said() == 'from node 0: tap where the way ends', b.said()
            tap_node(b, 9)
            want = tool('way', SAMPLES / 'hall.section', 0, 9)
            if want:
                same(b.js('return [app.way.found.metres, [...app.way.found.choices]]'),
                    [want['metres'], want['choices']], 'the way')
            tab(b, 'way')
            b.shot(SHOTS / f'way-{name}.png')
            b.click('#way-round')
            same(b.js('return app.round.choices.length'), b.js('return app.way.found.choices.length'), 'as a round')
            b.click('#save-2')
            assert b.downloaded('hall-from-0.round').startswith(b'RND\x02\x00')


def no_way(folder):
    with Browser(PAGE, **DESK) as b:
        file = folder / 'mixed.section'
        file.write_bytes(mixed())
        b.choose(file)
        tab(b, 'way')
        b.click('#way-from')
        b.type('3')
        b.click('#way-to')
        b.type('0')
        b.key('Enter')
        assert 'refused 17 0' in b.said(), b.said()


# 7. Sets
def sets(folder):
    files = [folder / 'west.section', folder / 'east.section']
    files[0].write_bytes(crossing(489, 490))
    files[1].write_bytes(crossing(490, 489, 512))
    for name, form in (('desk', DESK), ('phone', PHONE)):
        with Browser(PAGE, **form) as b:
            b.choose(files[0])
            same(counts(b).get('outs'), 1, 'a link leads out')
            b.js('if (innerWidth < 800) document.getElementById("fold").click()')
            b.choose(files[1], add=True)
            same(b.said(), '2 cells open', 'a cell joins')
            b.settled()
            same(counts(b).get('outs'), None, 'no link leads out of the set')
            assert 'sound' in b.text('#together') and 'not' not in b.text('#together')
            tab(b, 'round')
            b.click('#record')
            b.js('if (innerWidth < 800) document.getElementById("fold").click()')
            for m, place in ((0, 0), (0, 1), (0, 2), (1, 0), (1, 1)):
                tap_node(b, place, m)
            same(b.js('return app.round.walk.visits'), [[0, 0], [0, 1], [0, 2], [1, 0], [1, 1]], 'a walk crosses')
            want = tool('set', *files, '--walk', 0, 0, *b.js('return [...app.round.choices]'))
            if want:
                same(b.js('return app.round.metres'), want['metres'], "the tool's metres")
                same([[v['member'], v['place']] for v in want['visited']], b.js('return app.round.walk.visits'),
                    "the tool's walk")
            tab(b, 'round')
            b.click('#record-end')
            b.click('#save-2')
            round_file = folder / 'crossing.round'
            round_file.write_bytes(b.downloaded('west-from-0.round'))
            b.choose(round_file)
            same(b.js('return app.round.walk.visits.length'), 5, 'the round opened again')
            b.shot(SHOTS / f'set-{name}.png')
            tab(b, 'yard')
            b.click('#members section:nth-child(2) button:last-of-type')
            same(b.js('return app.site.members.map(m => m.name)'), ['west.section'], 'a cell leaves')
            same(b.js('return app.round.walk.end.how'), 'left', 'the walk then leaves')


def dropped_halves(folder):
    files = [folder / 'west.section', folder / 'east.section']
    files[0].write_bytes(crossing(489, 490))
    files[1].write_bytes(crossing(490, 489, 512))
    with Browser(PAGE, **DESK) as b:
        b.drop(files[0])
        b.drop(files[1], onto=(1000, 400))
        same(b.said(), '2 cells open', 'dropped on the right half, a cell joins')
        b.drop(files[1], onto=(200, 400))
        same(b.said(), 'east.section is open', 'dropped on the left half, it takes their place')


def unsound_set(folder):
    files = [folder / 'west.section', folder / 'east.section']
    files[0].write_bytes(crossing(489, 490))
    with Browser(PAGE, **DESK) as b:
        files[1].write_bytes(crossing(490, 489, 512, first=5))
        b.choose(*files)
        because = 'not sound: member 0: link 1 of node 2 names number 0 of member 1, which no node has'
        assert because in b.text('#together'), b.text('#together')
        want = tool('set', *files)
        if want:
            same('A set of 2 cells with 6 nodes together, not sound: ' + str(want['unsound_because']),
                b.text('#together'), "the tool's reason")


# 8. Check and renumber
def check(folder):
    file = folder / 'ped.section'
    with Browser(PAGE, **DESK) as b:
        for kind, data in damaged_numbers().items():
            file.write_bytes(data)
            b.choose(file)
            b.click('#members button:nth-of-type(1)')
            assert 'is not sound: ' in b.said(), (kind, b.said())
            info = tool('info', file)
            if info:
                same(b.said(), f'ped.section is not sound: {info["unsound_because"]["text"]}', kind)
            b.shot(SHOTS / f'unsound-{kind}.png')


def renumber(folder):
    with Browser(PAGE, **DESK) as b:
        dock = SAMPLES / 'hall.section'
        b.choose(dock, SAMPLES / 'hall.round')
        b.click('#members button:nth-of-type(1)')
        same(b.said(), 'hall.section is sound', 'sound')
        visits = b.js('return app.round.walk.visits.map(v => app.site.positionOf(v))')
        b.click('#members button:nth-of-type(2)')
        note = b.text('#members')
        assert 'Every walk visits the same nodes' in note and 'another number' in note and '→' in note, note
        same(b.js('return app.round.walk.visits.map(v => app.site.positionOf(v))'), visits,
            'the round visits the same nodes')
        b.click('#members button:nth-of-type(3)')
        got = b.downloaded('hall.section')
        if TOOL != '-':
            subprocess.run([TOOL, 'renumber', dock, folder / 'renumbered.section'], check=True, capture_output=True)
            same(got.hex(), (folder / 'renumbered.section').read_bytes().hex(), 'the file that the tool writes')
        b.shot(SHOTS / 'renumbered.png')


TESTS = [
    opening, opening_two_sections, opening_containers, hostile_file, policy, opening_many, seeing, moving, looks,
    phone, no_worker, near, stack, node, rounds, playing, rounds_refused, way, no_way, sets, dropped_halves, unsound_set, check,
    renumber,
]


def main():
    import tempfile
    wanted = sys.argv[4:]
    SHOTS.mkdir(parents=True, exist_ok=True)
    if TOOL == '-':
        print('groups.py: what is compared with the tool is left out: it is not built')
    for test in TESTS:
        if wanted and test.__name__ not in wanted:
            continue
        began = time.time()
        with tempfile.TemporaryDirectory(prefix='bofrashem-files-') as folder:
            test(pathlib.Path(folder))
        print(f'groups.py: {test.__name__}: passed, {time.time() - began:.1f} s', flush=True)


if __name__ == '__main__':
    main()
