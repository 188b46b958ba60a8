#!/usr/bin/env python3
"""Damaged files, and chance clicks after them: nothing but words may come of it. damaged.py PAGE SECONDS [SEED]"""
import base64
import pathlib
import sys
import time

from browser import Browser
from yards import crossing, mixed, split, stacked

HERE = pathlib.Path(__file__).resolve().parent
SAMPLES = HERE.parents[1] / 'samples'
# One call of the page takes so many seconds.
PART = 20


def seeds(b):
    files = [(f.name, f.read_bytes()) for f in sorted(SAMPLES.glob('*.section')) + sorted(SAMPLES.glob('*.round'))
             if f.name != 'yard.section']
    files += [('mixed.section', mixed()), ('west.section', crossing(489, 490)),
        ('east.section', crossing(490, 489, 512)),
              ('stacked.section', stacked())]
    system, graphics = split((SAMPLES / 'hall.section').read_bytes())
    files += [('hall.sys', system), ('hall.gfx', graphics)]
    files = [(name, base64.b64encode(data).decode()) for name, data in files]
    packed = b.js_async('''modules.container.closeContainer(Uint8Array.from(atob(arguments[0]), c => c.charCodeAt(0)))
        .then(bytes => done(btoa(Array.from(bytes, b => String.fromCharCode(b)).join(''))));''', files[0][1])
    return files + [('dock.ynd', packed), ('dock2.ynd', packed)]


def main():
    page, seconds = sys.argv[1], float(sys.argv[2])
    seed = int(sys.argv[3]) if len(sys.argv) > 3 else int(time.time())
    totals, refused, memory = {'opened': 0, 'actions': 0}, {}, 0
    with Browser(page) as b:
        b.driver.set_script_timeout(120)
        files, script = seeds(b), (HERE / 'damaged.js').read_text(encoding='utf-8')
        end = time.time() + seconds
        while time.time() < end:
            got = b.driver.execute_async_script(script, files, seed, min(PART, max(1, end - time.time())))
            assert not got['faults'], f'seed {seed}: {got["faults"]}'
            for number, n in got['counts'].pop('refused').items():
                refused[number] = refused.get(number, 0) + n
            for name in ('opened', 'actions'):
                totals[name] += got['counts'][name]
            memory, seed = got['counts']['memory'] >> 20, seed + 1
            b.visit(page)
    causes = f"{len(refused)} causes: {', '.join(sorted(refused))}"
    print(f"damaged.py: {seconds:.0f} s, the last seed {seed - 1}: {totals['opened']} times opened, "
          f"{sum(refused.values())} files refused ({causes}), {totals['actions']} clicks, taps and keys, "
          f'memory {memory} MB; nothing but words')


if __name__ == '__main__':
    main()
