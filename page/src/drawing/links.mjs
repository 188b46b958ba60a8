// Where the links of all cells lead, for the picture: by the index that the proved check of soundness left, else as a
// walk finds a node. Nodes are counted over all cells, one cell after the other.
const ISLAND = 1024, NO_NODE = -1, OUT = -2;

// The place of each number of a cell: the place that equals it if that node has it, else the first that has it. What
// the proved index has at a number that no node has isn't said.
function indexOf({ words, count, index }) {
    const number = p => words[13 * p] >>> 16;
    const first = new Int32Array(65536).fill(NO_NODE);
    if (index) {
        for (let k = 0; k < 65536; k++) if (index[k] < count && number(index[k]) === k) first[k] = index[k];
        return first;
    }
    for (let p = count - 1; p >= 0; p--) first[number(p)] = p;
    for (let p = 0; p < count; p++) if (number(p) === p) first[p] = p;
    return first;
}

// Of each link of each node: the node that it leads to, or less than 0. `start` has each node's first link.
export function leads(cells, total) {
    const start = new Uint32Array(total + 1), indexes = cells.map(indexOf), firsts = [];
    let g = 0;
    for (const { words, count } of cells) {
        firsts.push(g);
        for (let p = 0; p < count; p++, g++) start[g + 1] = start[g] + (words[13 * p + 6] >>> 16 & 255);
    }
    const to = new Int32Array(start[total]), area = new Uint16Array(start[total]);
    const areas = cells.map(c => c.area);
    cells.forEach((cell, m) => {
        const { words, links, count } = cell, own = cell.area;
        const known = new Map([[own, m], ...(own & ISLAND ? [[own ^ ISLAND, m]] : [])]);
        const memberOf = a => {
            if (!known.has(a)) known.set(a, areas.indexOf(a));
            return known.get(a);
        };
        for (let p = 0, at = start[firsts[m]]; p < count; p++) {
            const from = words[13 * p + 7], held = words[13 * p + 6] >>> 16 & 255;
            for (let k = from; k < from + held; k++, at++) {
                const word = links[2 * k], other = memberOf(word & 65535);
                area[at] = word & 65535;
                const q = other < 0 ? OUT : indexes[other][word >>> 16];
                to[at] = q < 0 ? q : firsts[other] + q;
            }
        }
    });
    return { start, to, area, firsts };
}

// Each pair of linked nodes once, and whether its links lead one way only; links out of the cells, and to no node.
export function pairs({ start, to, area }, total) {
    const most = to.length, from = new Uint32Array(most), other = new Uint32Array(most), oneWay = new Uint8Array(most);
    const seen = new Int32Array(total).fill(-1), outs = [], lost = [];
    let n = 0;
    for (let p = 0; p < total; p++) {
        for (let i = start[p]; i < start[p + 1]; i++) {
            const q = to[i];
            if (q === OUT) outs.push([p, area[i]]);
            else if (q < 0) lost.push(p);
            if (q < 0 || seen[q] === p) continue;
            seen[q] = p;
            const isBack = q !== p && leadsTo(start, to, q, p);
            if (isBack && q < p) continue;
            from[n] = p;
            other[n] = q;
            oneWay[n++] = isBack ? 0 : 1;
        }
    }
    return { from: from.subarray(0, n), other: other.subarray(0, n), oneWay: oneWay.subarray(0, n), outs, lost };
}

function leadsTo(start, to, from, node) {
    for (let i = start[from]; i < start[from + 1]; i++) if (to[i] === node) return true;
    return false;
}
