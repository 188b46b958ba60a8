// The panel of a node: found by number, place or street; its fields, its links to follow, its junction.
import { button, byId, counted, el, fill, metres, table } from './dom.mjs';
import { fieldsOf } from './reasons.mjs';
import { hex, junctionAt, linksAt, nodeAt } from './nodes.mjs';

const FOUND_MOST = 50;

export function nodePanel(app) {
    byId('search').onsubmit = e => {
        e.preventDefault();
        search(app, byId('query').value);
    };
    return () => {
        if (app.chosen) fill(byId('fields'), ...fields(app, app.chosen));
        else fill(byId('fields'), el('p', {}, 'Tap the map: the node nearest to the tap is shown here.'));
    };
}

// What a search says: nodes by number, by place, by street.
function search(app, query) {
    const wanted = asked(query);
    const found = wanted ? foundBy(app.site, wanted) : [];
    const rows = found.slice(0, FOUND_MOST).map(({ at, by }) => el('li', {},
        button(`${app.named(at)}, by ${by}`, () => app.choose(at))));
    if (found.length > FOUND_MOST) rows.push(el('li', {}, el('span', {}, `and ${found.length - FOUND_MOST} more`)));
    fill(byId('found'), ...rows);
    app.say(found.length ? `${counted(found.length, 'node')} found` : wanted ? 'no such node'
        : 'look for a number: 12, place 12, street 0x1A');
    if (found.length === 1) app.choose(found[0].at);
}

// "12", "#12", "place 12", "street 0x1A": what is looked for, and how.
export function asked(query) {
    const match = /^\s*(number|node|n|place|p|street|s|#)?\s*(0x[0-9a-f]+|\d+)\s*$/i.exec(query);
    if (!match) return null;
    const kinds = { number: 'number', node: 'number', n: 'number', '#': 'number', place: 'place', p: 'place',
        street: 'street', s: 'street' };
    return { kind: kinds[match[1]?.toLowerCase()] ?? 'any', value: Number(match[2]) };
}

export function foundBy({ members }, { kind, value }) {
    const found = [], is = name => kind === name || kind === 'any';
    members.forEach(({ cell }, m) => {
        const place = value < 65536 && is('number') ? cell.node(value) : null;
        if (place !== null) found.push({ at: [m, place], by: 'number' });
        if (is('place') && value < cell.nodeCount && value !== place) found.push({ at: [m, value], by: 'place' });
        if (!is('street')) return;
        const words = cell.nodeWords;
        for (let p = 0; p < cell.nodeCount; p++) {
            if (fieldsOf.street(words, p) === value && value) found.push({ at: [m, p], by: 'street' });
        }
    });
    return found;
}

function fields(app, at) {
    const { site } = app, { lib } = site, { cell } = site.members[at[0]], n = nodeAt(lib, cell, at[1]);
    return [
        el('h2', { id: 'node-head' }, `Node ${n.number}`),
        table([
            ['place', n.place], site.members.length > 1 && ['cell', site.members[at[0]].name], ['area', n.area],
            ['street', n.street ? `${hex(n.street)} (${n.street})` : 'none'],
            ['position', n.position.map(v => `${v.toFixed(2)} m`).join(', ')],
            ['stored steps',
                `x ${n.steps[0]}, y ${n.steps[1]} (quarters of a metre), z ${n.steps[2]} (thirty-seconds)`],
            ['kind', n.kind + (n.special ? `: ${n.specialName ?? `kind ${n.special}`}` : '')],
            ['set', n.bits.join(', ') || 'none'], ['speed', n.speed], ['density', n.density],
            ['heuristic', n.heuristic], ['dead-endness', n.deadEndness],
            ['flags 0 to 5', n.flags.map(f => hex(f, 2)).join(' ')],
            ['spare words', n.spare.some(Boolean) ? n.spare.map(w => hex(w)).join(' ') : 'all zero'],
        ]),
        el('h2', {}, counted(n.linkCount, 'link')),
            el('ul', { className: 'list', id: 'links' }, ...links(app, at, cell)),
        ...junction(app, cell, n.junction),
    ];
}

function links(app, at, cell) {
    const { site } = app;
    return linksAt(site.lib, cell, at[1]).map(l => {
        const { to, end } = site.lead(at, l.k), lanes = `${counted(l.lanes[0], 'lane')} on, ${l.lanes[1]} back`;
        const flags = l.flags.map(f => hex(f, 2)).join(' ');
        const more = [`${l.metres} m`, lanes, ...l.bits,
            l.laneOffset ? `lane offset ${+l.laneOffset.toFixed(3)}` : null, `flags ${flags}`];
        const text = `link ${l.k} → ${to ? app.named(to) : away(end, l)}`;
        const small = el('span', { className: 'small' }, more.filter(Boolean).join(', '));
        if (!to) return el('li', {}, el('span', {}, text, ' ', small));
        return el('li', {}, el('button', { type: 'button', onclick: () => app.choose(to) }, text, ' ', small));
    });
}

export const away = (end, { area, number }) =>
    end.how === 'left' ? `area ${area}, node ${number}, which is not open` : `number ${number}, which no node has`;

function junction(app, cell, place) {
    if (place === null || place >= cell.word[12]) return [];
    const j = junctionAt(app.site.lib, cell, place);
    return [
        el('h2', {}, `Junction ${place}`),
        table([
            ['corner', `${metres(j.x)}, ${metres(j.y)}`], ['heights', `${metres(j.low)} to ${metres(j.high)}`],
            ['values', `${j.width} × ${j.height}, 2 m apart`],
        ]),
        heights(j),
    ];
}

// The values as a picture, north at the top; lighter is lower.
function heights({ width, height, values }) {
    if (!values.length) return null;
    const canvas = el('canvas', { className: 'heights', width, height, role: 'img' });
    canvas.setAttribute('aria-label', `heights from ${Math.min(...values)} to ${Math.max(...values)} of 255`);
    const image = new ImageData(width, height);
    values.forEach((v, i) => {
        const o = 4 * ((height - 1 - (i / width | 0)) * width + i % width), c = 255 - v * 0.8;
        image.data.set([c, c, c, 255], o);
    });
    canvas.getContext('2d').putImageData(image, 0, 0);
    return canvas;
}
