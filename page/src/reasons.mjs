// Why a cell or a set is not sound. Whether it is, the proved checks say; these only look for a reason to show.
import { ISLAND } from './sizes.mjs';

// Whether an area is the cell's own: equal to it or, on an island, without the island's bit.
function isOwn(own, area) {
    return area === own || (own & ISLAND) !== 0 && area === (own ^ ISLAND);
}

export const fieldsOf = {
    area: (words, p) => words[13 * p] & 65535,
    number: (words, p) => words[13 * p] >>> 16,
    street: (words, p) => words[13 * p + 1],
    linkCount: (words, p) => words[13 * p + 6] >>> 16 & 255,
    linkStart: (words, p) => words[13 * p + 7],
    isPed: (words, p) => [10, 14, 18].includes(words[13 * p + 5] >>> 11 & 31),
};

// The first thing that makes a cell unsound: what is wrong, the node's place, and words; or null.
export function cellReason(cell) {
    const words = cell.nodeWords, n = cell.nodeCount;
    if (!n) return null;
    return otherArea(words, n) ?? sameNumber(words, n) ?? linkToNone(cell, words, n) ?? refToNone(cell, words, n);
}

function otherArea(words, n) {
    const own = fieldsOf.area(words, 0);
    for (let p = 0; p < n; p++) {
        const area = fieldsOf.area(words, p);
        if (area === own) continue;
        return { kind: 'other-area', place: p, nodes: [p], text: `node ${p} has area ${area}, the first node ${own}` };
    }
    return null;
}

function sameNumber(words, n) {
    const places = new Map();
    for (let p = 0; p < n; p++) {
        const number = fieldsOf.number(words, p), first = places.get(number);
        if (first === undefined) {
            places.set(number, p);
            continue;
        }
        const text = `nodes ${first} and ${p} both have number ${number}`;
        return { kind: 'same-number', place: p, nodes: [first, p], text };
    }
    return null;
}

function numbersOf(words, n) {
    const held = new Uint8Array(65536);
    for (let p = 0; p < n; p++) held[fieldsOf.number(words, p)] = 1;
    return held;
}

function linkToNone(cell, words, n) {
    const links = cell.linkWords, held = numbersOf(words, n), own = fieldsOf.area(words, 0);
    for (let p = 0; p < n; p++) {
        const start = fieldsOf.linkStart(words, p), count = fieldsOf.linkCount(words, p);
        for (let k = 0; k < count; k++) {
            const word = links[2 * (start + k)], number = word >>> 16;
            if (!isOwn(own, word & 65535) || held[number]) continue;
            const text = `link ${k} of node ${p} names number ${number}, which no node has`;
            return { kind: 'link-to-none', place: p, nodes: [p], text };
        }
    }
    return null;
}

function refToNone(cell, words, n) {
    const refs = cell.refWords, held = numbersOf(words, n), own = fieldsOf.area(words, 0);
    for (let at = 0; 2 * at < refs.length; at++) {
        const area = refs[2 * at] & 65535, number = refs[2 * at] >>> 16;
        if (!isOwn(own, area) || held[number]) continue;
        const text = `ref ${at} names number ${number}, which no node has`;
        return { kind: 'ref-to-none', place: at, nodes: [], text };
    }
    return null;
}

// The first thing that makes a set of cells unsound: its member, node places there, and words; or null.
export function setReason(cells) {
    for (const [m, cell] of cells.entries()) {
        const reason = cellReason(cell);
        if (reason) return { ...reason, member: m, text: `member ${m}: ${reason.text}` };
    }
    const areas = cells.map(c => c.area() ?? 0);
    for (const [m, cell] of cells.entries()) {
        const reason = lostInSet(cells, areas, m, cell);
        if (reason) return { ...reason, member: m };
    }
    return null;
}

// The first link of a member into another that names no node there.
function lostInSet(cells, areas, m, cell) {
    const words = cell.nodeWords, links = cell.linkWords;
    const held = cells.map(c => numbersOf(c.nodeWords, c.nodeCount));
    for (let p = 0; p < cell.nodeCount; p++) {
        const start = fieldsOf.linkStart(words, p), count = fieldsOf.linkCount(words, p);
        for (let k = 0; k < count; k++) {
            const area = links[2 * (start + k)] & 65535, number = links[2 * (start + k)] >>> 16;
            const to = areas.indexOf(area);
            if (to < 0 || isOwn(areas[m], area) || held[to][number]) continue;
            const names = `names number ${number} of member ${to}, which no node has`;
            return { kind: 'link-to-none', place: p, nodes: [p],
                text: `member ${m}: link ${k} of node ${p} ${names}` };
        }
    }
    return null;
}
