// The map's legend: each mark that is on the map, with its count.
import { el, many } from './dom.mjs';

const MARKS = {
    road: (pen, c) => dot(pen, c.node), ped: (pen, c) => diamond(pen, c.ped),
    post: (pen, c) => ring(pen, c.post), pairs: (pen, c) => line(pen, c.link), oneWay: (pen, c) => arrow(pen, c.head),
    outs: (pen, c) => arrow(pen, c.out), lost: (pen, c) => cross(pen, c.lost), edge: (pen, c) => dashes(pen, c.edge),
    round: (pen, c) => arrow(pen, c.round, 4), way: (pen, c) => arrow(pen, c.way, 5), heights: shades,
};

export function legend(app, colours = app.colours) {
    const { site, counts } = app, kinds = { road: 0, ped: 0, post: 0 };
    for (const { kinds: k } of site.members) {
        if (!k) continue;
        kinds.road += k.road;
        kinds.ped += k.ped;
        kinds.post += k.posts;
    }
    const junctions = site.members.reduce((n, m) => n + m.cell.word[12], 0);
    const items = [
        ['road', 'road node', kinds.road], ['ped', 'ped node', kinds.ped],
        ['post', 'post: a node without links', kinds.post],
        ['pairs', 'links there and back, pairs', counts?.pairs], ['oneWay', 'link one way', counts?.oneWay],
        ['outs', 'link out of the cells', counts?.outs], ['lost', 'link to no node', counts?.lost],
        ['heights', 'junction’s heights, low to high, 2 m a value', junctions],
        ['edge', 'edge of a cell of the grid', site.members.length],
        ['round', 'round: ring at its start, frame at its end', app.round?.walk ? 1 : 0],
        ['way', 'short way', app.way.found ? 1 : 0],
    ];
    return items.filter(([, , n]) => n).map(([name, words, n]) =>
        el('li', { 'data-mark': name, 'data-count': n }, swatch(name, colours),
            ['round', 'way', 'edge'].includes(name) ? words : `${words} (${many(n)})`));
}

function swatch(name, colours) {
    const canvas = el('canvas', { width: 80, height: 40, 'aria-hidden': 'true' }), pen = canvas.getContext('2d');
    pen.scale(2, 2);
    MARKS[name](pen, Object.fromEntries(Object.entries(colours).map(([k, c]) => [k, `rgb(${c.join()})`])), colours);
    return canvas;
}

function dot(pen, c) {
    pen.fillStyle = c;
    pen.beginPath();
    pen.arc(20, 10, 4.5, 0, 7);
    pen.fill();
}

function ring(pen, c) {
    pen.strokeStyle = c;
    pen.lineWidth = 2;
    pen.beginPath();
    pen.arc(20, 10, 4, 0, 7);
    pen.stroke();
}

function diamond(pen, c) {
    pen.fillStyle = c;
    pen.beginPath();
    for (const [x, y] of [[20, 4], [26, 10], [20, 16], [14, 10]]) pen.lineTo(x, y);
    pen.fill();
}

function line(pen, c, width = 2) {
    pen.strokeStyle = c;
    pen.lineWidth = width;
    pen.beginPath();
    pen.moveTo(2, 10);
    pen.lineTo(38, 10);
    pen.stroke();
}

function arrow(pen, c, width = 2) {
    line(pen, c, width);
    pen.fillStyle = c;
    pen.beginPath();
    for (const [x, y] of [[29, 10], [19, 4], [19, 16]]) pen.lineTo(x, y);
    pen.fill();
}

function cross(pen, c) {
    pen.strokeStyle = c;
    pen.lineWidth = 2.5;
    pen.beginPath();
    for (const [a, b] of [[[15, 5], [25, 15]], [[25, 5], [15, 15]]]) {
        pen.moveTo(...a);
        pen.lineTo(...b);
    }
    pen.stroke();
}

function dashes(pen, c) {
    pen.setLineDash([9, 5]);
    line(pen, c, 2);
    pen.setLineDash([]);
}

function shades(pen, c, colours) {
    for (let k = 0; k < 12; k++) {
        const rgb = colours.low.map((v, i) => Math.round(v + (colours.high[i] - v) * k / 11));
        pen.fillStyle = `rgb(${rgb.join()})`;
        pen.fillRect(2 + 3 * k, 4, 3, 12);
    }
}
