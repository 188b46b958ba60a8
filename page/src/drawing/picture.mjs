// Paints a view of the open cells: heightmaps, grid, links, walks, nodes, numbers. In steps, so that it can be left.
import { DARK, LIGHT, mixed, shade, word } from './colours.mjs';
import { Pen } from './pen.mjs';
import { DIGIT } from './sheet.mjs';
import { Walks } from './walks.mjs';

// Links painted in one step; pixels that moving pictures may cost, and smooth ones.
const STEP = 2048, WORK_MOST = 6e6, SMOOTH_MOST = 3e6, SMOOTH_MOVING = 1.5e5, ARROWS_MOVING = 4000;
const GRID = 512, HALF = 8192;

const digits = (text, dpr) => Math.round(DIGIT * dpr) * text.length + 2 * dpr;

export class Picture {
    constructor() {
        this.pen = new Pen();
        this.walks = new Walks(this);
        this.isDark = false;
        this.tint = 'kind';
    }

    take(sheet) {
        this.sheet = sheet;
        this.walks.take(null);
    }

    // A view: pixels a metre (scale), where metre 0 is (ox, oy), pixels a CSS pixel (dpr).
    begin(view, isFine) {
        const { sheet, pen } = this, { scale, dpr } = view, colours = this.colours = this.isDark ? DARK : LIGHT;
        const edge = 16 * dpr / scale, w = pen.w / scale, h = pen.h / scale;
        const left = -view.ox / scale, top = view.oy / scale;
        const box = this.box = [left - edge, top - h - edge, left + w + edge, top + edge];
        Object.assign(this, { view, isFine, gap: sheet.gap * scale / dpr });
        this.links = sheet.linkRuns(box);
        this.nodes = sheet.nodeRuns(box);
        this.shown = 0;
        for (let r = 0; r < this.links.length; r += 2) this.shown += this.links[r + 1] - this.links[r];
        this.size = Math.max(1, Math.min(8, this.gap * 0.45)) * dpr;
        const share = Math.min(1, Math.max(0.4, this.gap / 8));
        this.linkWords = [colours.link, colours.oneWay].map(c => word(mixed(c, colours.paper, share)));
        this.tintWords = colours.tints.map(c => word(mixed(c, colours.paper, Math.max(share, 0.7))));
        this.economy();
    }

    // How much is left out, so that a moving picture keeps up.
    economy() {
        const { sheet, view: { scale, dpr }, isFine, shown, pen } = this;
        const long = Math.min(sheet.meanLink * scale, Math.max(pen.w, pen.h) / 2);
        const work = shown * (6 + long * Math.max(1, 1.2 * dpr + 0.5 | 0));
        this.stride = isFine ? 1 : Math.max(1, Math.ceil(work / WORK_MOST));
        const pixels = shown * Math.min(sheet.meanLink * scale, 2000) * Math.max(1, dpr);
        this.isSmooth = this.stride === 1 && pixels < (isFine ? SMOOTH_MOST : SMOOTH_MOVING);
        this.linkWidth = Math.max(1, 1.3 * dpr * Math.min(1, 0.5 + this.gap / 12));
        this.hasArrows = this.gap > 14 && (isFine || shown < ARROWS_MOVING);
    }

    x(metres) { return this.view.ox + this.view.scale * metres; }
    y(metres) { return this.view.oy - this.view.scale * metres; }
    colour(name) { return word(this.colours[name]); }

    *paint() {
        this.pen.clear(this.colour('paper'));
        this.heights();
        this.grid();
        yield* this.paintLinks();
        this.ends();
        yield* this.walks.lines();
        this.numbers('behind');
        yield* this.paintNodes(false);
        yield* this.paintNodes(true);
        this.lost();
        this.walks.rings();
        this.numbers('text');
        this.walks.badges();
    }

    heights() {
        const { pen } = this, s = 2 * this.view.scale, outline = this.colour('outline');
        for (const j of this.sheet.cells.flatMap(c => c.junctions)) {
            const [x, y, w, h] = [this.x(j.x), this.y(j.y), j.width * s, j.height * s];
            if (pen.isOut(x, y, x + w, y - h, 0)) continue;
            for (let i = 0; j.values && i < j.values.length; i++) {
                const left = x + i % j.width * s, top = y - ((i / j.width | 0) + 1) * s;
                pen.box(left, top, Math.ceil(left + s) - (left | 0), Math.ceil(top + s) - (top | 0),
                    word(shade(this.colours, j.values[i])));
            }
            const ends = [[x, y, x + w, y], [x + w, y, x + w, y - h], [x + w, y - h, x, y - h], [x, y - h, x, y]];
            for (const e of ends) pen.line(...e, outline, Math.round(this.view.dpr));
        }
    }

    // The lines of the grid's cells, and the edges of the open cells' own.
    grid() {
        const { pen, view: { dpr, scale } } = this, [l, b, r, t] = this.box, c = this.colour('grid');
        const first = v => Math.max(-HALF, Math.ceil(v / GRID) * GRID),
            reach = v => Math.min(HALF, Math.max(-HALF, v));
        const width = Math.max(1, Math.round(dpr * 0.8));
        if (GRID * scale > 8 * dpr) {
            for (let m = first(l); m <= Math.min(HALF, r); m += GRID) {
                pen.line(this.x(m), this.y(reach(t)), this.x(m), this.y(reach(b)), c, width);
            }
            for (let m = first(b); m <= Math.min(HALF, t); m += GRID) {
                pen.line(this.x(reach(l)), this.y(m), this.x(reach(r)), this.y(m), c, width);
            }
        }
        for (const { bounds } of this.sheet.cells) if (bounds) this.edge(bounds);
    }

    edge([x0, y0, x1, y1]) {
        const { dpr } = this.view, c = this.colour('edge'),
            corners = [[x0, y0], [x1, y0], [x1, y1], [x0, y1], [x0, y0]];
        const at = corners.map(([x, y]) => [this.x(x), this.y(y)]);
        for (let i = 0; i < 4; i++) this.pen.dashes(...at[i], ...at[i + 1], c, Math.round(1.6 * dpr), 9 * dpr,
            5 * dpr);
    }

    *paintLinks() {
        const { sheet: { seg, oneWay }, links, pen, view: { scale: k, ox, oy, dpr }, tint } = this, e = 2 * dpr;
        const arrow = this.colour('head'), least = 22 * dpr, width = this.linkWidth + 0.5 | 0;
        const right = pen.w + e, low = pen.h + e, words = tint === 'kind' ? this.linkWords : this.tintWords;
        const tints = tint === 'kind' ? oneWay : this.sheet.tints(tint).links;
        let left = STEP;
        for (let r = 0; r < links.length; r += 2) {
            for (let i = links[r]; i < links[r + 1]; i += this.stride) {
                if (--left === 0) {
                    left = STEP;
                    yield;
                }
                const x0 = ox + k * seg[4 * i], y0 = oy - k * seg[4 * i + 1];
                const x1 = ox + k * seg[4 * i + 2], y1 = oy - k * seg[4 * i + 3];
                if (x0 < -e && x1 < -e || y0 < -e && y1 < -e || x0 > right && x1 > right || y0 > low
                    && y1 > low) continue;
                const c = words[tints[i]];
                if (this.isSmooth) pen.smoothLine(x0, y0, x1, y1, c, this.linkWidth);
                else pen.line(x0, y0, x1, y1, c, width);
                if (!this.hasArrows || !oneWay[i]) continue;
                const long = Math.hypot(x1 - x0, y1 - y0);
                if (long >= least) pen.arrow(x0, y0, x1, y1, arrow, Math.min(9 * dpr, long / 3), 0.62);
            }
        }
    }

    // Links out of the cells: a short arrow towards where they lead.
    ends() {
        const { pen, sheet, view: { dpr } } = this, c = this.colour('out'),
            long = Math.max(6, Math.min(26, this.gap)) * dpr;
        for (const [g, ux, uy] of sheet.outs) {
            const x = this.x(sheet.xs[g]), y = this.y(sheet.ys[g]), to = [x + ux * long, y - uy * long];
            if (pen.isOut(x, y, ...to, 9)) continue;
            pen.smoothLine(x, y, ...to, c, 1.6 * dpr);
            if (this.gap > 8) pen.arrow(x, y, ...to, c, 7 * dpr, 0.86);
        }
    }

    // Links to no node: a cross beside the node.
    lost() {
        const { sheet, view: { dpr } } = this, c = this.colour('lost');
        const size = Math.round(Math.max(5, Math.min(10, this.gap * 0.5)) * dpr), away = this.size / 2 + size * 0.6;
        for (const g of sheet.lost) this.pen.stamp('cross', size, this.x(sheet.xs[g]) - away,
            this.y(sheet.ys[g]) - away, c);
    }

    // The marks of the four kinds.
    nodeStamps() {
        const { size, pen, view: { dpr } } = this,
            shapes = [['disc', 1], ['diamond', 1.35], ['ring', 1.25], ['diamondRing', 1.5]];
        return shapes.map(([shape, k]) => pen.stamps.shape(shape,
            Math.round(Math.max(size * k, (k > 1 ? 2 : 1) * dpr))));
    }

    // Plain nodes, then those with a mark of their own.
    *paintNodes(isMarked) {
        const { sheet: { nodeXY, nodeKind }, nodes, pen, tint } = this, stamps = this.nodeStamps();
        const words = tint === 'kind' ? ['node', 'ped', 'post', 'ped'].map(name => this.colour(name)) : this.tintWords;
        const tints = tint === 'kind' ? nodeKind : this.sheet.tints(tint).nodes;
        let left = STEP;
        for (let r = 0; r < nodes.length; r += 2) {
            for (let i = nodes[r]; i < nodes[r + 1]; i++) {
                const kind = nodeKind[i];
                if (kind > 0 !== isMarked) continue;
                if (--left === 0) {
                    left = STEP;
                    yield;
                }
                pen.centred(stamps[kind], this.x(nodeXY[2 * i]), this.y(nodeXY[2 * i + 1]), words[tints[i]]);
            }
        }
    }

    // Numbers of nodes that have room for them: what is behind them is lightened first, then they are written; those
    // of nodes with a ring on plain paper.
    numbers(what) {
        const { sheet, pen, view: { scale, dpr }, size, walks: { ringed } } = this, css = scale / dpr;
        if (this.gap < 8) return;
        const paper = this.colour('paper'), ink = this.colour('text');
        for (let r = 0; r < this.nodes.length; r += 2) {
            for (let i = this.nodes[r]; i < this.nodes[r + 1]; i++) {
                if (sheet.room[i] > css) continue;
                const text = String(sheet.numbers[sheet.order[i]]), isRinged = ringed.has(sheet.order[i]);
                const x = this.x(sheet.nodeXY[2 * i]) + size / 2 + 2 * dpr | 0;
                const y = this.y(sheet.nodeXY[2 * i + 1]) - 11 * dpr | 0,
                    box = [x - dpr, y, digits(text, dpr), Math.round(10 * dpr)];
                if (what === 'behind') pen.box(...box, paper, 190);
                else if (isRinged) pen.box(...box, paper);
                if (what === 'text') pen.text(text, x, y, ink, dpr);
            }
        }
    }
}
