// What is shown of a node: each field by the library's call where there is one.
import { fieldsOf } from './reasons.mjs';
import { cellForPosition, stepsOfBits } from './numbers.mjs';

const BITS = [
    ['off_road', 'off road'], ['no_big_vehicles', 'no big vehicles'], ['cannot_go_left', 'cannot go left'],
    ['slip_road', 'slip road'], ['indicate_keep_left', 'indicate keep left'],
    ['indicate_keep_right', 'indicate keep right'], ['left_turns_only', 'left turns only'], ['no_gps', 'no GPS'],
    ['is_junction', 'junction'], ['is_disabled', 'disabled'], ['highway', 'highway'], ['tunnel', 'tunnel'],
];
const SPECIAL = new Map([
    [2, 'parking space'], [10, 'pedestrian road crossing'], [14, 'pedestrian assisted movement'],
    [15, 'traffic light stop'], [16, 'stop sign'], [17, 'caution'], [18, 'pedestrian road crossing, no wait'],
    [19, 'emergency vehicles only'], [20, 'off-road junction'],
]);
// The grid ends at 8,192 m.
const RIM = 8000;
const SPEEDS = ['slow', 'normal', 'fast', 'faster'];
const LINK_BITS = [
    ['gps_both_ways', 'GPS both ways'], ['narrow_road', 'narrow road'], ['shortcut', 'shortcut'],
    ['dont_use_for_navigation', 'not for navigation'],
];

export const hex = (n, digits = 8) => '0x' + n.toString(16).toUpperCase().padStart(digits, '0');

// What a node is called: road or ped; one without links is a post.
function kindOf(isPed, linkCount) {
    return linkCount ? isPed ? 'ped' : 'road' : isPed ? 'ped post' : 'post';
}

// How many nodes there are of each kind: road, ped, and how many of either are posts.
export function kindCounts(cell) {
    const words = cell.nodeWords, k = { road: 0, ped: 0, posts: 0 };
    for (let p = 0; p < cell.nodeCount; p++) {
        k[fieldsOf.isPed(words, p) ? 'ped' : 'road']++;
        if (!fieldsOf.linkCount(words, p)) k.posts++;
    }
    return k;
}

// How many nodes stand outside the grid cell of their area.
export function outside(lib, { cell, grid }) {
    const words = cell.nodeWords, floats = new Float32Array(words.buffer, words.byteOffset, words.length).slice();
    const { cell: [cx, cy], bounds: [x0, y0, x1, y1] } = grid;
    let count = 0;
    for (let p = 0; p < cell.nodeCount; p++) {
        const x = floats[13 * p + 2], y = floats[13 * p + 3];
        // only what isn't well inside or well outside has to be asked: cells at the rim hold what is beyond the grid
        if (x > x0 && x < x1 && y > y0 && y < y1) continue;
        const isFar = Math.abs(x) < RIM && Math.abs(y) < RIM && (x < x0 - 1 || x > x1 + 1 || y < y0 - 1 || y > y1 + 1);
        if (isFar) {
            count++;
            continue;
        }
        const [gx, gy] = cellForPosition(lib, x, y);
        if (gx !== cx || gy !== cy) count++;
    }
    return count;
}

// All fields of the node at a place.
export function nodeAt(lib, cell, place) {
    const at = cell.nodes[0] + 52 * place, words = lib.memory.words(at, 13).slice();
    const floats = new Float32Array(words.buffer, 8, 3), bytes = new Uint8Array(words.buffer);
    const ask = name => lib.plain('node_' + name, at);
    const isPed = ask('is_ped_node') === 1, linkCount = fieldsOf.linkCount(words, 0), special = ask('special');
    const area = fieldsOf.area(words, 0), number = fieldsOf.number(words, 0);
    return {
        place, area, number, street: fieldsOf.street(words, 0), position: [...floats],
        steps: stepsOfBits(lib, words.slice(2, 5)), flags: [...bytes.slice(20, 26)],
        kind: kindOf(isPed, linkCount), linkCount, special, specialName: SPECIAL.get(special) ?? null,
        bits: BITS.filter(([name]) => ask(name)).map(([, text]) => text),
        speed: SPEEDS[ask('speed')], density: ask('density'), heuristic: ask('heuristic_value'),
        deadEndness: ask('dead_endness'), junction: cell.junctionOf(area, number),
        spare: [...words.slice(8, 12), words[12] & 65535],
    };
}

// The links of the node at a place, with their fields.
export function linksAt(lib, cell, place) {
    const words = lib.memory.words(cell.nodes[0] + 52 * place, 13), start = fieldsOf.linkStart(words, 0);
    const count = fieldsOf.linkCount(words, 0);
    return Array.from({ length: count }, (_, k) => linkAt(lib, cell.links[0] + 8 * (start + k), k));
}

function linkAt(lib, at, k) {
    const bytes = lib.memory.bytes(at, 8).slice(), ask = name => lib.plain('link_' + name, at);
    return {
        k, area: bytes[0] | bytes[1] << 8, number: bytes[2] | bytes[3] << 8, flags: [...bytes.slice(4, 7)],
        metres: bytes[7], bits: LINK_BITS.filter(([name]) => ask(name)).map(([, text]) => text),
        lanes: [ask('lane_count_forward'), ask('lane_count_backward')], laneOffset: ask('lane_offset'),
    };
}

// The metres of a node's kth link, or null where it has no such link.
export function linkMetres(cell, place, k) {
    const words = cell.nodeWords, count = fieldsOf.linkCount(words, place);
    return k < count ? cell.linkWords[2 * (fieldsOf.linkStart(words, place) + k) + 1] >>> 24 : null;
}

// A junction's fields, and its heightmap values if they are asked for.
export function junctionAt(lib, cell, at, hasValues = true) {
    const words = cell.junctionWords.slice(6 * at, 6 * at + 6),
        [x, y, low, high] = new Float32Array(words.buffer, 0, 4);
    const size = new Uint8Array(words.buffer, 16, 2);
    return { at, x, y, low, high, width: size[0], height: size[1], values: hasValues ? cell.values(at) : null };
}
