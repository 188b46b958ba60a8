// Draws by its own hand into the pixels of a picture: lines, arrows, stamps, digits. Colours are pixels' words.
import { Stamps } from './stamps.mjs';

const blend = (d, s, a) => (0xff000000
    | (Math.imul(s & 0xff00ff, a) + Math.imul(d & 0xff00ff, 256 - a) >>> 8 & 0xff00ff)
    | (Math.imul(s >>> 8 & 255, a) + Math.imul(d >>> 8 & 255, 256 - a) & 0xff00)) >>> 0;

export class Pen {
    constructor() {
        this.stamps = new Stamps();
        this.images = new Map();
    }

    // Takes a picture of a size; a few sizes are kept.
    size(w, h) {
        if (this.w === w && this.h === h) return;
        const key = `${w}x${h}`, had = this.images.get(key);
        if (this.images.size > 3) this.images.clear();
        this.image = had ?? new ImageData(w, h);
        this.images.set(key, this.image);
        this.px = new Uint32Array(this.image.data.buffer);
        Object.assign(this, { w, h });
    }

    clear(c) {
        this.px.fill(c);
    }

    isOut(x0, y0, x1, y1, e) {
        const { w, h } = this;
        return x0 < -e && x1 < -e || y0 < -e && y1 < -e || x0 > w + e && x1 > w + e || y0 > h + e && y1 > h + e;
    }

    // A line of whole pixels.
    line(x0, y0, x1, y1, c, width) {
        const dx = x1 - x0, dy = y1 - y0;
        if (Math.abs(dx) >= Math.abs(dy)) {
            if (dx < 0) this.flat(x1, y1, x0, dx ? dy / dx : 0, c, width);
            else this.flat(x0, y0, x1, dx ? dy / dx : 0, c, width);
        } else if (dy < 0) this.steep(x1, y1, y0, dx / dy, c, width);
        else this.steep(x0, y0, y1, dx / dy, c, width);
    }

    flat(x0, y0, x1, slope, c, width) {
        const { w, h, px } = this, from = Math.max(0, Math.floor(x0)), to = Math.min(w - 1, Math.floor(x1));
        let y = y0 + (from + 0.5 - x0) * slope - (width - 1) / 2;
        for (let x = from; x <= to; x++, y += slope) {
            for (let e = 0; e < width; e++) {
                const q = y + e;
                if (q >= 0 && q < h) px[(q | 0) * w + x] = c;
            }
        }
    }

    steep(x0, y0, y1, slope, c, width) {
        const { w, h, px } = this, from = Math.max(0, Math.floor(y0)), to = Math.min(h - 1, Math.floor(y1));
        let x = x0 + (from + 0.5 - y0) * slope - (width - 1) / 2;
        for (let y = from, row = from * w; y <= to; y++, x += slope, row += w) {
            for (let e = 0; e < width; e++) {
                const q = x + e;
                if (q >= 0 && q < w) px[row + (q | 0)] = c;
            }
        }
    }

    // A line whose edges are smooth.
    smoothLine(x0, y0, x1, y1, c, width) {
        const { w, h, px } = this, isFlat = Math.abs(x1 - x0) >= Math.abs(y1 - y0);
        let [u0, v0, u1, v1] = isFlat ? [x0, y0, x1, y1] : [y0, x0, y1, x1];
        if (u1 < u0) [u0, v0, u1, v1] = [u1, v1, u0, v0];
        const slope = u1 > u0 ? (v1 - v0) / (u1 - u0) : 0, half = width * Math.sqrt(1 + slope * slope) / 2;
        const [long, side, su, sv] = isFlat ? [w, h, 1, w] : [h, w, w, 1];
        const from = Math.max(0, Math.floor(u0)), to = Math.min(long - 1, Math.floor(u1));
        let mid = v0 + (from + 0.5 - u0) * slope;
        for (let u = from; u <= to; u++, mid += slope) {
            const low = mid - half, high = mid + half, end = Math.min(side - 1, Math.floor(high));
            for (let i = Math.max(0, Math.floor(low)); i <= end; i++) {
                const cover = Math.min(high, i + 1) - Math.max(low, i), o = u * su + i * sv;
                px[o] = cover > 0.99 ? c : blend(px[o], c, cover * 256 | 0);
            }
        }
    }

    // A line of dashes: so many pixels drawn, and so many left.
    dashes(x0, y0, x1, y1, c, width, on, off) {
        const long = Math.hypot(x1 - x0, y1 - y0), ux = (x1 - x0) / long, uy = (y1 - y0) / long, e = on + off;
        if (!(long > 0) || this.isOut(x0, y0, x1, y1, 2)) return;
        const [from, to] = this.within(x0, y0, ux, uy, long);
        for (let at = Math.floor(from / e) * e; at < to; at += e) {
            const end = Math.min(at + on, long);
            this.line(x0 + ux * at, y0 + uy * at, x0 + ux * end, y0 + uy * end, c, width);
        }
    }

    // The stretch of a line that can be in the picture.
    within(x0, y0, ux, uy, long) {
        let from = 0, to = long;
        for (const [at, u, most] of [[x0, ux, this.w], [y0, uy, this.h]]) {
            if (Math.abs(u) < 1e-9) continue;
            const [a, b] = [(-9 - at) / u, (most + 9 - at) / u];
            from = Math.max(from, Math.min(a, b));
            to = Math.min(to, Math.max(a, b));
        }
        return [from, to];
    }

    // The head of an arrow on the way from a point to another, at a share of it.
    arrow(x0, y0, x1, y1, c, size, share) {
        const dx = x1 - x0, dy = y1 - y0, n = Math.hypot(dx, dy), ux = dx / n, uy = dy / n, { w, h, px } = this;
        const tx = x0 + dx * share + ux * size / 2, ty = y0 + dy * share + uy * size / 2;
        const mx = tx - ux * size / 2, my = ty - uy * size / 2, r = size / 2 + 1.5, slope = 0.5,
            q = 1 / Math.hypot(1, slope);
        const right = Math.min(w - 1, mx + r | 0), low = Math.min(h - 1, my + r | 0);
        for (let y = Math.max(0, my - r | 0); y <= low; y++) {
            for (let x = Math.max(0, mx - r | 0); x <= right; x++) {
                const ex = x + 0.5 - tx, ey = y + 0.5 - ty, along = -(ex * ux + ey * uy);
                const across = Math.abs(ex * uy - ey * ux);
                const cover = Math.min((along * slope - across) * q, size - along) + 0.5, o = y * w + x;
                if (cover > 0) px[o] = cover >= 1 ? c : blend(px[o], c, cover * 256 | 0);
            }
        }
    }

    // A circle's line.
    circle(x, y, r, c, width) {
        const n = Math.max(24, Math.min(720, r | 0));
        for (let k = 0; k < n; k++) {
            const [a, b] = [k, k + 1].map(i => i * 2 * Math.PI / n);
            const ends = [x + r * Math.cos(a), y + r * Math.sin(a), x + r * Math.cos(b), y + r * Math.sin(b)];
            if (!this.isOut(...ends, 2)) this.smoothLine(...ends, c, width);
        }
    }

    // A box, covered to a share of 256.
    box(x, y, wide, high, c, share = 256) {
        const { w, h, px } = this, from = Math.max(0, x | 0), to = Math.min(w, x + wide | 0);
        const end = Math.min(h, y + high | 0);
        for (let j = Math.max(0, y | 0); j < end; j++) {
            for (let o = j * w + from, last = j * w + to; o < last; o++) {
                px[o] = share === 256 ? c : px[o] === c ? c : blend(px[o], c, share);
            }
        }
    }

    // A stamp with its middle at a point.
    stamp(shape, size, x, y, c) {
        this.centred(this.stamps.shape(shape, size), x, y, c);
    }

    centred(s, x, y, c) {
        this.put(s, Math.floor(x - s.w / 2 + 0.5), Math.floor(y - s.h / 2 + 0.5), c);
    }

    // Digits from a left end on, over a baseline.
    text(text, x, y, c, dpr) {
        for (const digit of text) {
            const s = this.stamps.digit(digit, dpr);
            this.put(s, x | 0, y | 0, c);
            x += s.w;
        }
    }

    put({ w: sw, h: sh, mask }, x, y, c) {
        const { w, h, px } = this;
        if (x <= -sw || y <= -sh || x >= w || y >= h) return;
        const a = Math.max(0, -x), z = Math.min(sw, w - x), b = Math.max(0, -y), t = Math.min(sh, h - y);
        for (let j = b; j < t; j++) {
            for (let i = a, o = (y + j) * w + x + a, k = j * sw + a; i < z; i++, o++, k++) {
                const v = mask[k];
                if (v === 256) px[o] = c;
                else if (v) px[o] = blend(px[o], c, v);
            }
        }
    }
}
