// What is drawn of the open cells, sorted once so that each view finds its part: nodes by squares of a grid, links by
// grids of doubling squares (a link lies in the first whose squares are no shorter than it, by its middle).
import { leads, pairs } from './links.mjs';
import { Grid, sorted } from './squares.mjs';

// CSS pixels: a digit of a number, and what a number needs beside its digits and in height.
export const DIGIT = 6, BESIDE = 10, HIGH = 15;
const STREETS = 12;

export class Sheet {
    constructor({ cells }) {
        this.cells = cells;
        this.total = cells.reduce((n, c) => n + c.count, 0);
        this.takeNodes();
        this.box = boxOf(this.xs, this.ys, cells);
        const [l, b, r, t] = this.box;
        this.wide = Math.max(r - l, t - b, 1);
        this.spacing = Math.sqrt(Math.max((r - l) * (t - b), 1) / Math.max(this.total, 1));
        this.sortNodes();
        this.sortLinks();
    }

    // The scale from which each node's number has room; worked out when numbers are first to be seen.
    get room() {
        this.rooms ??= this.roomOf(k => this.labelWidth(this.order[k]), HIGH, HIGH);
        return this.rooms;
    }

    takeNodes() {
        const n = this.total;
        Object.assign(this, {
            xs: new Float32Array(n), ys: new Float32Array(n), kinds: new Uint8Array(n),
            numbers: new Uint16Array(n), streets: new Uint8Array(n), members: new Uint8Array(n),
        });
        let g = 0;
        this.cells.forEach(({ words, count }, m) => {
            const floats = new Float32Array(words.buffer, words.byteOffset, words.length);
            for (let p = 0; p < count; p++, g++) {
                const o = 13 * p, special = words[o + 5] >>> 11 & 31;
                this.xs[g] = floats[o + 2];
                this.ys[g] = floats[o + 3];
                this.kinds[g] = (special === 10 || special === 14 || special === 18 ? 1 : 0)
                    | (words[o + 6] >>> 16 & 255 ? 0 : 2);
                this.numbers[g] = words[o] >>> 16;
                this.streets[g] = words[o + 1] ? 1 + Math.imul(words[o + 1], 2654435761) % STREETS + STREETS : 0;
                this.members[g] = m;
            }
        });
    }

    // The tint of each link and node in order, by street or by cell.
    tints(by) {
        const of = by === 'street' ? this.streets : this.members;
        this.tinted ??= {};
        this.tinted[by] ??= { links: Uint8Array.from(this.from, g => of[g]),
            nodes: Uint8Array.from(this.order, g => of[g]) };
        return this.tinted[by];
    }

    labelWidth(g) {
        const n = this.numbers[g];
        return DIGIT * (n > 9999 ? 5 : n > 999 ? 4 : n > 99 ? 3 : n > 9 ? 2 : 1) + BESIDE;
    }

    sortNodes() {
        const side = Math.min(128, Math.max(1, Math.ceil(Math.sqrt(this.total / 8)))), [l, b] = this.box;
        const grid = this.grid = new Grid(l, b, this.wide, side), keys = new Uint32Array(this.total);
        for (let g = 0; g < this.total; g++) keys[g] = grid.square(this.xs[g], this.ys[g]);
        const { start, order } = sorted(keys, side * side);
        const nodeXY = new Float32Array(2 * this.total), nodeKind = new Uint8Array(this.total);
        for (let k = 0; k < this.total; k++) {
            nodeXY[2 * k] = this.xs[order[k]];
            nodeXY[2 * k + 1] = this.ys[order[k]];
            nodeKind[k] = this.kinds[order[k]];
        }
        Object.assign(this, { nodeStart: start, order, nodeXY, nodeKind });
    }

    sortLinks() {
        const all = leads(this.cells, this.total), { from, other, oneWay, outs, lost } = pairs(all, this.total);
        const [l, b] = this.box, { xs, ys } = this, n = from.length, keys = new Uint32Array(n);
        this.levels = [];
        let base = 0;
        for (let side = this.grid.side; ; side = Math.ceil(side / 2)) {
            this.levels.push({ grid: new Grid(l, b, this.wide, side), base });
            base += side * side;
            if (side === 1) break;
        }
        const sizes = this.levels.map(v => v.grid.size), last = sizes.length - 1;
        for (let i = 0; i < n; i++) {
            const p = from[i], q = other[i], long = Math.max(Math.abs(xs[p] - xs[q]), Math.abs(ys[p] - ys[q]));
            let v = 0;
            while (v < last && sizes[v] < long) v++;
            keys[i] = this.levels[v].base + this.levels[v].grid.square((xs[p] + xs[q]) / 2, (ys[p] + ys[q]) / 2);
        }
        const { start, order } = sorted(keys, base);
        this.linkStart = start;
        this.takeLinks(order, from, other, oneWay);
        this.meanLink = meanLength(this.seg, n);
        this.gap = n ? Math.min(this.spacing, this.meanLink) || this.spacing : this.spacing;
        this.ends(outs, lost, all.firsts);
    }

    // The links in order: their ends, and what they are.
    takeLinks(order, from, other, oneWay) {
        const { xs, ys } = this, n = order.length;
        Object.assign(this, { from: new Uint32Array(n), oneWay: new Uint8Array(n), seg: new Float32Array(4 * n) });
        for (let k = 0; k < n; k++) {
            const i = order[k], p = from[i], q = other[i];
            this.from[k] = p;
            this.oneWay[k] = oneWay[i];
            this.seg[4 * k] = xs[p];
            this.seg[4 * k + 1] = ys[p];
            this.seg[4 * k + 2] = xs[q];
            this.seg[4 * k + 3] = ys[q];
        }
    }

    // Links out of the cells, each with the direction of the area's middle; and links to no node.
    ends(outs, lost, firsts) {
        this.firsts = firsts;
        this.lost = lost;
        this.outs = outs.map(([g, area]) => {
            const x = (area & 31) * 512 - 7936 - this.xs[g], y = (area >>> 5 & 31) * 512 - 7936 - this.ys[g];
            const far = Math.hypot(x, y) || 1;
            return [g, x / far, y / far];
        });
        let one = 0;
        for (const k of this.oneWay) one += k;
        this.counts = { pairs: this.from.length - one, oneWay: one, outs: outs.length, lost: lost.length };
    }

    linkRuns(box) {
        const out = [];
        for (const { grid, base } of this.levels) grid.runs(this.linkStart, base, box, grid.size / 2, out);
        return out;
    }

    nodeRuns(box) {
        return this.grid.runs(this.nodeStart, 0, box, 0, []);
    }

    // Of each node in order: the scale, in CSS pixels a metre, from which a box beside it meets no other node or box.
    // The box is as wide as `width` says, and keeps so much above and below.
    roomOf(width, above, below, among = null) {
        const room = new Float32Array(this.total).fill(Infinity), { side } = this.grid;
        for (let square = 0; square < side * side; square++) {
            for (let k = this.nodeStart[square]; k < this.nodeStart[square + 1]; k++) {
                if (!among || among[this.order[k]]) room[k] = this.roomBeside(k, square, width(k), above, below,
                    among);
            }
        }
        return room;
    }

    // Nodes among some look to both sides, and of nodes in one spot the first of them has the room.
    roomBeside(k, square, width, above, below, among) {
        const { side, size } = this.grid, row = square / side | 0, column = square % side;
        const g = this.order[k], x = this.xs[g], y = this.ys[g];
        let least = Math.min(size / width, size / above, size / below);
        for (let j = Math.max(0, row - 1); j <= Math.min(side - 1, row + 1); j++) {
            const first = j * side + Math.max(0, column - (among ? 1 : 0));
            const end = this.nodeStart[j * side + Math.min(side - 1, column + 1) + 1];
            for (let i = this.nodeStart[first]; i < end; i++) {
                const o = this.order[i], dx = this.xs[o] - x, dy = this.ys[o] - y;
                const isPassed = among ? dx === 0 && dy === 0 && (!among[o] || i > k) : dx < 0 || dx === 0 && i < k;
                if (i === k || isPassed) continue;
                least = Math.min(least, Math.max(Math.abs(dx) / width, dy > 0 ? dy / above : -dy / below));
            }
        }
        return least > 0 ? 1 / least : Infinity;
    }
}

function meanLength(seg, n) {
    let sum = 0;
    for (let i = 0; i < 4 * n; i += 4) {
        const dx = seg[i] - seg[i + 2], dy = seg[i + 1] - seg[i + 3];
        sum += Math.sqrt(dx * dx + dy * dy);
    }
    return n ? sum / n : 1;
}

// The left, bottom, right and top of all nodes and heightmaps.
function boxOf(xs, ys, cells) {
    let [l, b, r, t] = [Infinity, Infinity, -Infinity, -Infinity];
    const take = (x, y) => {
        if (x < l) l = x;
        if (x > r) r = x;
        if (y < b) b = y;
        if (y > t) t = y;
    };
    for (let g = 0; g < xs.length; g++) take(xs[g], ys[g]);
    for (const j of cells.flatMap(c => c.junctions)) {
        take(j.x, j.y);
        take(j.x + 2 * j.width, j.y + 2 * j.height);
    }
    return l <= r ? [l, b, r, t] : [-10, -10, 10, 10];
}
