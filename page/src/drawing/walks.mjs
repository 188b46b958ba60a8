// What lies over the yard: rounds and ways, the circle of a radius, rings around nodes, and the numbers of steps.
import { DIGIT } from './sheet.mjs';

const BADGE_WIDE = 46, BADGE_ABOVE = 14, BADGE_BELOW = 29, STEP = 2048;

export class Walks {
    constructor(picture) {
        this.picture = picture;
        this.take(null);
    }

    // The marks, whose nodes are counted over all cells.
    take(marks) {
        this.marks = marks ?? { tracks: [], rings: [], circle: null };
        this.steps = new Map();
        this.room = null;
        // nodes with a ring around them
        this.ringed = new Set(this.marks.rings.map(([g]) => g));
        for (const { nodes } of this.marks.tracks) {
            if (nodes.length) this.ringed.add(nodes[0]).add(nodes[nodes.length - 1]);
        }
        const { sheet } = this.picture, round = this.marks.tracks.find(t => t.hasSteps);
        if (!sheet || !round) return;
        round.nodes.forEach((g, k) => {
            const was = this.steps.get(g);
            this.steps.set(g, was === undefined ? String(k) : was.endsWith('+') ? was : `${was}+`);
        });
        const among = new Uint8Array(sheet.total);
        for (const g of this.steps.keys()) among[g] = 1;
        this.room = sheet.roomOf(() => BADGE_WIDE, BADGE_ABOVE, BADGE_BELOW, among);
    }

    *lines() {
        const { picture, marks } = this, { pen, sheet, view: { dpr, scale } } = picture;
        if (marks.circle) {
            const [x, y, r] = marks.circle, c = picture.colour('near');
            pen.circle(picture.x(x), picture.y(y), r * scale, c, 1.8 * dpr);
            pen.stamp('cross', Math.round(9 * dpr), picture.x(x), picture.y(y), c);
        }
        for (const { name, nodes } of marks.tracks) {
            const c = picture.colour(name), width = (name === 'way' ? 5 : 3.5) * dpr + 0.5 | 0;
            let [lx, ly] = nodes.length ? [picture.x(sheet.xs[nodes[0]]), picture.y(sheet.ys[nodes[0]])] : [0, 0];
            for (let i = 1; i < nodes.length; i++) {
                if (i % STEP === 0) yield;
                const x = picture.x(sheet.xs[nodes[i]]), y = picture.y(sheet.ys[nodes[i]]);
                // what is shorter than a pixel or two is left to the next
                if (Math.abs(x - lx) + Math.abs(y - ly) < 1.5 * dpr && i < nodes.length - 1) continue;
                this.stretch(lx, ly, x, y, c, width);
                [lx, ly] = [x, y];
            }
        }
    }

    stretch(x0, y0, x1, y1, c, width) {
        const { pen, isFine, view: { dpr } } = this.picture;
        if (pen.isOut(x0, y0, x1, y1, 12)) return;
        if (isFine) pen.smoothLine(x0, y0, x1, y1, c, width);
        else pen.line(x0, y0, x1, y1, c, width);
        const long = Math.hypot(x1 - x0, y1 - y0);
        if (long > 24 * dpr) pen.arrow(x0, y0, x1, y1, c, Math.min(13 * dpr, long / 2.5), 0.6);
    }

    // Where a walk starts (a ring) and ends (a frame), and the rings around single nodes.
    rings() {
        const { picture, marks } = this;
        for (const { name, nodes } of marks.tracks) {
            if (!nodes.length) continue;
            this.ring('hoop', 18, nodes[0], picture.colour('start'));
            this.ring('frame', 18, nodes[nodes.length - 1], picture.colour(name));
        }
        const small = Math.max(6, Math.min(15, picture.gap * 1.3)), kinds = {
            near: ['hoop', small], next: ['hoop', 20], reason: ['frame', 26], chosen: ['hoop', 24], now: ['disc', 12],
            from: ['hoop', 22],
        };
        const names = { reason: 'lost', now: 'round', from: 'start' };
        for (const [g, name] of marks.rings) {
            const [shape, size] = kinds[name], c = picture.colour(names[name] ?? name);
            this.ring(shape, size, g, c);
            if (name === 'now') this.ring('hoop', 26, g, c);
        }
    }

    ring(shape, size, g, c) {
        const { pen, sheet, view: { dpr } } = this.picture;
        pen.stamp(shape, Math.round(size * dpr), this.picture.x(sheet.xs[g]), this.picture.y(sheet.ys[g]), c);
    }

    // The steps at a node, below its number, where there is room: the first of several, with a plus.
    badges() {
        const { picture, room } = this, { pen, sheet, nodes, view: { dpr, scale } } = picture, css = scale / dpr;
        if (!room) return;
        const back = picture.colour('step'), ink = picture.colour('stepText');
        for (let r = 0; r < nodes.length; r += 2) {
            for (let i = nodes[r]; i < nodes[r + 1]; i++) {
                const text = this.steps.get(sheet.order[i]);
                if (text === undefined || room[i] > css) continue;
                const x = picture.x(sheet.nodeXY[2 * i]) + 5 * dpr | 0,
                    y = picture.y(sheet.nodeXY[2 * i + 1]) + 3 * dpr | 0;
                pen.box(x, y, Math.round(DIGIT * dpr) * text.length + 4 * dpr, 12 * dpr, back);
                pen.text(text, x + 2 * dpr, y + dpr, ink, dpr);
            }
        }
    }
}
