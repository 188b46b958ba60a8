// The marks of nodes and the digits, as masks: how much of each pixel is covered, of 256.
const GRAIN = 4;

// Whether a point, so far from the middle, lies in a shape of this half width.
const SHAPES = {
    disc: (x, y, r) => Math.hypot(x, y) <= r,
    square: (x, y, r) => Math.max(x, y) <= r,
    diamond: (x, y, r) => x + y <= r,
    ring: (x, y, r) => Math.hypot(x, y) <= r && (r < 2.5 || Math.hypot(x, y) >= r * 0.55),
    diamondRing: (x, y, r) => x + y <= r && (r < 2.5 || x + y >= r * 0.5),
    hoop: (x, y, r) => Math.hypot(x, y) <= r && Math.hypot(x, y) >= r * 0.78,
    frame: (x, y, r) => Math.max(x, y) <= r && Math.max(x, y) >= r * 0.76,
    cross: (x, y, r) => Math.abs(x - y) <= r * 0.28 && Math.max(x, y) <= r,
};

export class Stamps {
    constructor() {
        this.kept = new Map();
    }

    shape(shape, size) {
        const key = shape + size;
        if (!this.kept.has(key)) this.kept.set(key, shapeMask(SHAPES[shape], size));
        return this.kept.get(key);
    }

    digit(digit, dpr) {
        const key = `digit ${digit} ${dpr}`;
        if (!this.kept.has(key)) this.kept.set(key, digitMask(digit, dpr));
        return this.kept.get(key);
    }
}

function shapeMask(covers, w) {
    const mask = new Uint16Array(w * w), middle = w / 2;
    for (let o = 0; o < w * w; o++) {
        let sum = 0;
        for (let i = 0; i < GRAIN * GRAIN; i++) {
            const x = Math.abs(o % w + (i % GRAIN + 0.5) / GRAIN - middle);
            const y = Math.abs((o / w | 0) + ((i / GRAIN | 0) + 0.5) / GRAIN - middle);
            sum += w <= 2 || covers(x, y, middle) ? 1 : 0;
        }
        mask[o] = sum * 256 / (GRAIN * GRAIN);
    }
    return { w, h: w, mask };
}

// By the browser's own font.
function digitMask(digit, dpr) {
    const w = Math.round(6 * dpr), h = Math.round(10 * dpr), mask = new Uint16Array(w * h);
    if (typeof OffscreenCanvas !== 'function') return { w, h, mask };
    const pen = new OffscreenCanvas(w, h).getContext('2d');
    pen.font = `${10 * dpr}px sans-serif`;
    pen.textBaseline = 'alphabetic';
    pen.fillText(digit, 0, h - dpr);
    const { data } = pen.getImageData(0, 0, w, h);
    for (let i = 0; i < mask.length; i++) mask[i] = data[4 * i + 3] + (data[4 * i + 3] >> 7);
    return { w, h, mask };
}
