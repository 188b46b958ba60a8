#!/usr/bin/env python3
"""The page's answers beside the tool's, of yards sound, unsound and damaged: answers.py PAGE TOOL [COUNT [SEED]]"""
import base64
import concurrent.futures
import json
import pathlib
import random
import struct
import subprocess
import sys
import tempfile

from browser import Browser, same
from yards import link, node, split, written

HERE = pathlib.Path(__file__).resolve().parent
SCRIPT = (HERE / 'answers.js').read_text(encoding='utf-8')
AREAS = [489, 490, 489 | 1024, 0, 1023]


def yard(r, area):
    """A small yard: numbers that are places, or not; links to own and other areas, to nodes and to none."""
    n = r.randrange(0, 14)
    numbers = list(range(n)) if r.random() < 0.6 else [r.randrange(0, 20) for _ in range(n)]
    if r.random() < 0.3:
        r.shuffle(numbers)
    nodes, other = [], [area, area, area, area, area ^ 1024, 490, 489]
    for p in range(n):
        links = [link(numbers[r.randrange(n)] if r.random() < 0.97 else r.randrange(30), r.choice(other),
            r.randrange(0, 60))
                 for _ in range(r.randrange(0, 4))]
        own = area if r.random() < 0.99 else 7
        nodes.append(node(numbers[p], r.randrange(-3600, -3000), r.randrange(-600, 100), r.randrange(0, 9) / 4, own,
                          r.choice([0, 77]), r.choice([0, 0, 1, 80, 112]), r.choice([0, 9]), links))
    junctions = [(-3300, -100, 0, 2, w, 2, [r.randrange(256) for _ in range(2 * w)]) for w in range(r.randrange(0, 3))]
    refs = [(area, numbers[r.randrange(n)], 0)] if n and r.random() < 0.3 else []
    return written(nodes, junctions, refs) if n or junctions else b''


def damaged(r, data):
    data = bytearray(data)
    for _ in range(r.randrange(1, 4)):
        if not data:
            break
        at = r.randrange(112) if r.random() < 0.5 else r.randrange(len(data))
        data[at % len(data)] = r.choice([0, 1, 255, r.randrange(256)])
    if r.random() < 0.2:
        del data[r.randrange(len(data) + 1):]
    return bytes(data)


class Tool:
    def __init__(self, program, folder):
        self.program, self.folder = program, folder

    def run(self, *words):
        run = subprocess.run([self.program, *map(str, words)], capture_output=True, check=False)
        return run.stdout

    def json(self, *words):
        run = subprocess.run([self.program, *map(str, words), '--json'], capture_output=True, check=False)
        return json.loads(run.stdout or run.stderr)


def round_file(r, area):
    choices = bytes(r.choice([0, 0, 1, 2, 3, 9]) for _ in range(r.randrange(0, 12)))
    version = r.choice([1, 2, 2])
    head = struct.pack('<H', r.choice([area, area, 7])) if version == 2 else b''
    data = b'RND' + struct.pack('<H', version) + head + struct.pack('<2H', r.randrange(0, 16), len(choices)) + choices
    return damaged(r, data) if r.random() < 0.2 else data


def b64(data):
    return base64.b64encode(data).decode()


def fault(v):
    return {'number': v['error'].get('number'), 'place': v['error'].get('place')}


def walked(v):
    if 'error' in v:
        return {'error': fault(v)}
    end = v['end']
    left = [end['area'], end['node']] if end['how'] == 'left' else None
    return {'how': end['how'], 'left': left, 'visited': [n['place'] for n in v['visited']], 'metres': v['metres']}


def one(tool, r, k):
    """A yard, what the page is asked of it, and what the tool says."""
    area, folder = r.choice(AREAS), pathlib.Path(tool.folder) / f'{k}'
    folder.mkdir()
    data = yard(r, area)
    parts = list(split(data)) if r.random() < 0.1 and len(data) > 1152 else [data]
    if r.random() < 0.4:
        parts[0] = damaged(r, parts[0])
    files, data = list(zip(('a.section', 'a.gfx'), parts)), parts[0]
    for name, bytes_ in files:
        (folder / name).write_bytes(bytes_)
    given = [folder / 'a.section'] + (['--graphics', folder / 'a.gfx'] if len(files) > 1 else [])
    walk = dict(start=r.randrange(0, 15), choices=[r.choice([0, 0, 1, 2, 3]) for _ in range(r.randrange(0, 9))])
    near = dict(x=r.randrange(-14400, -12000), y=r.randrange(-2400, 400), radius=r.randrange(0, 3000))
    way = {'from': r.randrange(0, 15), 'to': r.randrange(0, 15)}
    rounds = round_file(r, area)
    (folder / 'a.round').write_bytes(rounds)
    asks = {'walk': walk, 'near': near, 'way': way, 'follow': {'round': b64(rounds)},
            'print': {'round': b64(rounds), 'section': b64(data)}, 'renumber': {}}
    chosen = r.sample(sorted(asks), 3)
    if len(files) > 1:
        chosen = [c for c in chosen if c != 'print']
    want = {'info': tool.json('info', *given)}
    for what in chosen:
        want[what] = told(tool, what, given, asks[what], folder)
    # a renumbered yard is another one: that is asked last
    ask = [(what, asks[what]) for what in sorted(chosen, key=lambda w: w == 'renumber')]
    return dict(files=[dict(name=n, bytes=b64(d)) for n, d in files], ask=ask), want


def told(tool, what, given, asked, folder):
    if what == 'walk':
        return walked(tool.json('walk', *given, asked['start'], *asked['choices']))
    if what == 'near':
        v = tool.json('near', *given, asked['x'], asked['y'], asked['radius'], '--steps')
        return {'error': fault(v)} if 'error' in v else [[n['place'], n['squared_steps']] for n in v['nodes']]
    if what == 'way':
        v = tool.json('way', *given, asked['from'], asked['to'])
        keys = ('metres', 'choices')
        return {'error': fault(v)} if 'error' in v else {**{k: v[k] for k in keys},
            'visited': [n['place'] for n in v['visited']]}
    if what == 'follow':
        return walked(tool.json('round', 'follow', *given, folder / 'a.round'))
    if what == 'print':
        return tool.run('print', *given, folder / 'a.round').decode()
    out = folder / 'out.section'
    v = tool.json('renumber', *given, out)
    return {'error': fault(v)} if 'error' in v else b64(out.read_bytes())


KEYS = ['nodes', 'links', 'junctions', 'heights', 'refs', 'road_nodes', 'ped_nodes', 'posts', 'area', 'island',
    'grid_cell',
        'grid_bounds', 'file_name', 'nodes_outside_grid_cell', 'sound']


def compare(k, got, want):
    assert 'thrown' not in got, f'yard {k}: {got}'
    assert not got['dead'], f'yard {k}: the library stopped'
    info = want.pop('info')
    if 'error' in info:
        same([[f['number'], f['place']] for f in got['refused'][:1]],
            [[info['error'].get('number'), info['error'].get('place')]],
             f'yard {k}: refusal')
        if 'print' in want:
            same(got['print'], want['print'], f'yard {k}: print')
        return 'refused'
    same({key: got['info'][key] for key in KEYS}, {key: info[key] for key in KEYS}, f'yard {k}: info')
    because = info['unsound_because']
    same(got['info']['unsound_because'], because and because['text'], f'yard {k}: why unsound')
    for what, expected in want.items():
        same(got[what], expected, f'yard {k}: {what}')
    return 'sound' if info['sound'] else 'unsound'


def a_set(tool, r, k):
    folder = pathlib.Path(tool.folder) / f'set{k}'
    folder.mkdir()
    files = []
    for name, area in (('a', 489), ('b', 490), ('c', r.choice([491, 489 | 1024])))[:r.randrange(2, 4)]:
        data = yard(r, area) or written([node(0, -3500, -100, area=area)])
        (folder / f'{name}.section').write_bytes(data)
        files.append((f'{name}.section', data))
    walk = dict(member=r.randrange(0, len(files)), start=r.randrange(0, 8),
        choices=[r.choice([0, 0, 1, 2]) for _ in range(8)])
    paths = [folder / name for name, _ in files]
    want = tool.json('set', *paths), tool.json('set', *paths, '--walk', walk['member'], walk['start'],
        *walk['choices'])
    return dict(files=[dict(name=n, bytes=b64(d)) for n, d in files], walk=walk), want


def compare_set(k, got, want):
    said, walk = want
    assert 'thrown' not in got, f'set {k}: {got}'
    if 'error' in said:
        return same(got['refused'][0]['number'], said['error'].get('number'), f'set {k}: refusal')
    same(got['set']['sound'], said['sound'], f'set {k}: sound')
    same([m['area'] for m in said['members']], got['set']['areas'], f'set {k}: areas')
    because = said['unsound_because']
    same(got['set']['because'], because['text'] if isinstance(because, dict) else because, f'set {k}: why unsound')
    if 'error' in walk:
        return same(got['walk'], {'error': fault(walk)}, f'set {k}: walk')
    expected = {**walked({**walk, 'metres': 0}), 'visited': [[n['member'], n['place']] for n in walk['visited']]}
    del expected['metres']
    return same(got['walk'], expected, f'set {k}: walk')


def main():
    page, program = sys.argv[1:3]
    count = int(sys.argv[3]) if len(sys.argv) > 3 else 1000
    seed = int(sys.argv[4]) if len(sys.argv) > 4 else 1
    kinds = {}
    with tempfile.TemporaryDirectory() as folder, Browser(page) as b, concurrent.futures.ThreadPoolExecutor(2) as pool:
        tool = Tool(program, folder)
        made = pool.map(lambda k: one(tool, random.Random(seed * 1000003 + k), k), range(count))
        for k, (asked, want) in enumerate(made):
            kind = compare(k, b.driver.execute_async_script(SCRIPT, asked), want)
            kinds[kind] = kinds.get(kind, 0) + 1
        for k in range(count // 5):
            asked, want = a_set(tool, random.Random(seed * 7919 + k), k)
            compare_set(k, b.driver.execute_async_script(SCRIPT, asked), want)
        assert b.js('return asking.lib.memory.memory.buffer.byteLength') < 100 << 20
    print(f'answers.py: {count} yards ({kinds}) and {count // 5} sets: the page and the tool say the same')


if __name__ == '__main__':
    main()
