#!/usr/bin/env python3
"""The page with a yard in it, as `bofrashem draw -o yard.html` makes it.

    embedded.py counts PAGE              nodes, links, steps of the round, places of the way; whether it was painted
    embedded.py uses PAGE                a click, a zoom, a drag, steps and a link, by a person's events
    embedded.py shot PAGE OUT WxH [#..]  a screenshot, opened at step=3, node=5 or zoom=4
    embedded.py phone PAGE OUT           a screenshot on a phone, with a node's drawer
"""
import base64
import json
import pathlib
import sys

from browser import Browser


def counts(page):
    with Browser(page) as b:
        b.settled()
        painted = b.js('''const c = app.map.canvas, d = app.map.pen.getImageData(0, 0, c.width, c.height).data;
            return d.some((v, i) => i % 4 < 3 && v < 200)''')
        got = b.js('''const [m] = app.site.members;
            return [app.site.total, m.cell.counts[1], app.round ? app.round.walk.visits.length : 0,
            app.way.found ? app.way.found.visits.length : 0]''')
        return json.dumps([*got, painted], separators=(',', ':'))


def uses(page):
    with Browser(page) as b:
        b.settled()
        said = []
        at = b.js('return app.site.positionOf([0, 5])')
        b.tap(*at)
        said.append(b.said().split(',')[0])
        before = b.js('return app.map.view.scale')
        b.wheel(*b.at(*at), -400)
        b.wait(f'app.map.view.scale > {2.7 * before} && app.map.view.scale < {2.8 * before}')
        b.tap(*at)
        said.append(b.js('return app.site.numberOf(app.chosen)'))
        x = b.at(*at)
        b.drag((500, 300), (560, 300))
        said.append(round(b.at(*at)[0] - x[0]))
        b.click('#tab-round')
        b.click('#on')
        b.click('#on')
        said.append(b.text('#step-said'))
        b.js('document.getElementById("stage").focus()')
        b.key(',')
        said.append(b.text('#step-said'))
        b.click('#tab-node')
        b.click('#links button')
        said.append(b.text('#node-head'))
        b.click('#all')
        b.settled()
        said.append(round(b.js('return app.map.view.scale') / before, 3))
        assert not [m for m in b.log() if 'Content Security' in m], b.log()
        return json.dumps(said)


def shot(page, out, size, place=''):
    wide, high = map(int, size.split('x'))
    with Browser(page, wide=wide, high=high) as b:
        b.visit(page, place)
        b.settled()
        pathlib.Path(out).write_bytes(base64.b64decode(b.cdp('Page.captureScreenshot', format='png')['data']))
    return f'{out}: {pathlib.Path(out).stat().st_size} bytes'


def phone(page, out):
    with Browser(page, wide=375, high=700, ratio=1.5, touch=True) as b:
        b.click('#tab-node')
        b.js('app.map.fit()')
        b.settled()
        b.tap(*b.js('return app.site.positionOf([0, 16])'))
        b.settled()
        pathlib.Path(out).write_bytes(base64.b64decode(b.cdp('Page.captureScreenshot', format='png')['data']))
    return f'{out}: {pathlib.Path(out).stat().st_size} bytes'


if __name__ == '__main__':
    print({'counts': counts, 'uses': uses, 'shot': shot, 'phone': phone}[sys.argv[1]](*sys.argv[2:]))
