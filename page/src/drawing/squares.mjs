// Sorting by squares of a grid, so that a view finds what it shows as a few stretches of one list.

// The order of things by their keys: where each key's stretch starts, and the things one key after the other.
export function sorted(keys, keyCount) {
    const start = new Uint32Array(keyCount + 1);
    for (const key of keys) start[key + 1]++;
    for (let k = 0; k < keyCount; k++) start[k + 1] += start[k];
    const next = start.slice(), order = new Uint32Array(keys.length);
    for (let i = 0; i < keys.length; i++) order[next[keys[i]]++] = i;
    return { start, order };
}

// A square grid over a box: so many squares a side, each of one size.
export class Grid {
    constructor(left, bottom, wide, side) {
        Object.assign(this, { left, bottom, side, size: wide / side * 1.0001 });
    }

    column(x) { return inside((x - this.left) / this.size | 0, this.side); }
    row(y) { return inside((y - this.bottom) / this.size | 0, this.side); }
    square(x, y) { return this.row(y) * this.side + this.column(x); }

    // The stretches of the list that a box can show, of things that reach out of their square by a margin.
    runs(start, base, [l, b, r, t], margin, out) {
        const s = this.size, at = (v, from) => Math.floor((v - from) / s);
        const x0 = Math.max(0, at(l - margin, this.left)), x1 = Math.min(this.side - 1, at(r + margin, this.left));
        const y0 = Math.max(0, at(b - margin, this.bottom)), y1 = Math.min(this.side - 1, at(t + margin, this.bottom));
        if (x0 > x1) return out;
        for (let y = y0; y <= y1; y++) {
            const from = start[base + y * this.side + x0], to = start[base + y * this.side + x1 + 1];
            if (from === to) continue;
            if (out.at(-1) === from) out[out.length - 1] = to;
            else out.push(from, to);
        }
        return out;
    }
}

function inside(k, side) {
    return k < 0 ? 0 : k >= side ? side - 1 : k;
}
