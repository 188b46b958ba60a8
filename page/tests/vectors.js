// Replays crates/vectors/stdin, the Rust's answers, on the page's own module. The body of a function: its first
// argument is the file in base64; it returns how many vectors agree, of how many, and the kinds of those that don't.
const { Library, Refused } = modules.library;
const file = Uint8Array.from(atob(arguments[0]), c => c.charCodeAt(0));
const lib = new Library(app.site.module), memory = lib.memory, SCRATCH = 65536, KEPT = 0xA5;

class Disagreement extends Error {}
const check = isSo => { if (!isSo) throw new Disagreement(); };
const same = (a, b) => a.length === b.length && a.every((v, i) => v === b[i]);

// A record, read from its front; behind its end it reads as zeros.
class Reader {
    constructor(bytes) { Object.assign(this, { bytes, at: 0 }); }
    number(n) {
        let value = 0;
        for (let i = 0; i < n; i++) value += (this.bytes[this.at + i] ?? 0) * 2 ** (8 * i);
        this.at += n;
        return value;
    }
    signed() { return this.number(2) << 16 >> 16; }
    take(n) {
        const taken = new Uint8Array(n);
        taken.set(this.bytes.subarray(this.at, this.at + n));
        this.at += n;
        return taken;
    }
    get rest() { return this.bytes.length - this.at; }
    words(n) { return Array.from({ length: n }, () => this.number(2)); }
}

// Memory for a vector.
let room;
const block = (bytes, value = KEPT) => {
    const at = room(bytes);
    memory.bytes(at, Math.max(bytes, 1)).fill(value);
    return at;
};
const put = bytes => lib.copied(room, bytes);
const word = (at, k = 0) => memory.words(at + 4 * k, 1)[0];
const float = bits => new Float32Array(Uint32Array.of(bits).buffer)[0];
const bits = at => word(at);
const SIZES = [52, 8, 24, 1, 8];
const lend = (...counts) => {
    const lists = counts.map((n, i) => [block(n * SIZES[i], 0), n]);
    return { ynd: block(60, 0), lists, all: lists.flat(), of: (...ks) => ks.flatMap(k => lists[k]) };
};
// A call's refusal: its number and place, both 0 where it is accepted.
const ask = (name, ...given) => {
    try {
        lib.call(name, ...given);
        return [0, memory.size(lib.out + 56)];
    } catch (x) {
        if (!(x instanceof Refused)) throw x;
        return [x.number, x.place];
    }
};
const told = (r, got) => check(same([r.number(1), r.number(2)], got));
const read = (m, bytes) => ask('read', m.ynd, put(bytes), bytes.length, 0, 0, ...m.all);
const cellOf = bytes => {
    const m = lend(64, 256, 16, 512, 64);
    check(read(m, bytes)[0] === 0);
    return m;
};

function steps(r) {
    const b = r.number(4), xy = r.signed(), z = r.signed(), signed = n => n << 16 >> 16, all = block(6);
    check(signed(lib.plain('steps_xy_of_bits', b)) === xy && signed(lib.plain('steps_z_of_bits', b)) === z);
    check(signed(lib.plain('steps_xy', float(b))) === xy && signed(lib.plain('steps_z', float(b))) === z);
    lib.plain('quantise', float(b), float(b), float(b), all);
    check(same([...new Int16Array(memory.memory.buffer, all, 3)], [xy, xy, z]));
}

function metres(r) {
    const n = r.signed(), xy = r.number(4), z = r.number(4), all = block(12);
    check(lib.plain('bits_of', lib.plain('metres_xy', n)) === xy
        && lib.plain('bits_of', lib.plain('metres_z', n)) === z);
    lib.plain('dequantise', n, n, n, all);
    check(same([0, 4, 8].map(k => bits(all + k)), [xy, xy, z]));
}

function grid(r) {
    const [x, y] = [r.number(4), r.number(4)].map(float), at = block(8);
    lib.plain('cell_for_position', x, y, at);
    check(same([word(at), word(at, 1)], [r.number(1), r.number(1)]));
}

function length(r) {
    const at = Array.from({ length: 6 }, () => float(r.number(4)));
    check(lib.plain('length_between', ...at) === r.number(1));
}

function name(r) {
    const isKnown = r.number(1), area = r.number(4), n = r.rest, got = block(4);
    check(lib.plain('area_id_from_file_name', put(r.take(n)), n, got) === isKnown);
    check(word(got) === (isKnown ? area : 0xA5A5A5A5));
}

function gridCell(r) {
    const [cx, cy, refusal, at, area] = Array.from({ length: 5 }, () => r.number(4)), got = block(4),
        bounds = block(16);
    check(same(ask('area_id', cx, cy, got), [refusal, at]) && word(got) === (refusal ? 0xA5A5A5A5 : area));
    check(same(ask('cell_bounds', cx, cy, bounds), [refusal, at]));
    for (let i = 0; i < 4; i++) check([word(bounds, i), refusal ? word(bounds, i) : -1].includes(r.number(4))
        || !!refusal);
    const n = r.number(1), called = block(13), count = block(8);
    check(same(ask('cell_file_name', cx, cy, called, count), [refusal, at]));
    check(refusal ? memory.bytes(called, 1)[0] === KEPT : memory.size(count) === n
        && same(memory.bytes(called, 13), r.take(13)));
}

function area(r) {
    const a = r.number(4), b = r.number(4), at = block(8);
    lib.plain('cell_of_area', a, at);
    check(same([word(at), word(at, 1)], [r.number(1), r.number(1)]));
    check(lib.plain('is_island_area', a) === r.number(1) && lib.plain('same_cell', a, b) === r.number(1));
}

function laneOffset(r) {
    const value = r.number(1), isNegative = r.number(1);
    check(lib.plain('bits_of', lib.plain('lane_offset', value, isNegative)) === r.number(4));
}

// What was written, but for its page block.
function sameSection(at, expected) {
    const n = expected.length;
    if (!n) return;
    check(same(memory.bytes(at, 112), expected.subarray(0, 112)));
    check(same(memory.bytes(at + 1152, n - 112), expected.subarray(112)));
}

function fileOf(r) {
    const ns = r.number(2), ng = r.number(2), lists = r.words(5), most = r.number(2), places = r.number(2);
    const scratch = SCRATCH - 1 + r.number(1), answers = new Reader(r.take(12)), na = r.number(2), nb = r.number(2);
    const system = r.take(ns), graphics = r.take(ng), m = lend(...lists), n = block(8);
    const [first, again, work, to] = [most, most, 4 * scratch, 4 * places].map(k => block(k));
    let got = ask('read', m.ynd, put(system), ns, put(graphics), ng, ...m.all);
    told(answers, got);
    if (got[0]) return;
    told(answers, ask('write', m.ynd, ...m.all, first, most, n));
    told(answers, ask('renumber', m.ynd, ...m.all, work, scratch, to, places));
    got = ask('write', m.ynd, ...m.all, again, most, n);
    told(answers, got);
    sameSection(first, r.take(na));
    sameSection(again, r.take(nb));
}

function links(r) {
    const at = r.number(1), n = r.number(2), most = r.number(2), m = lend(1, most, 1, 1, 1), link = block(8),
        count = block(8);
    const section = block(8192);
    let got = [0, 0];
    lib.plain('new', m.ynd);
    check(ask('add_node', m.ynd, ...m.of(0), 1, 0, 0, 0)[0] === 0);
    lib.plain('link_to', 1, 0, link);
    for (let i = 0; i < n && !got[0]; i++) got = ask('add_link', m.ynd, ...m.of(0, 1), at, link);
    told(r, got);
    got = ask('write', m.ynd, ...m.all, section, 8192, count);
    told(r, got);
    check(got[0] || memory.size(count) === r.number(2));
}

function junction(r) {
    const width = r.number(1), height = r.number(1), n = r.number(2), m = lend(0, 0, 1, 300, 0), given = block(24, 0);
    memory.bytes(given + 16, 2).set([width, height]);
    lib.plain('new', m.ynd);
    told(r, ask('add_junction', m.ynd, ...m.of(2, 3), given, block(n), n));
}

function large(r) {
    const n = r.number(4), added = r.number(4), answers = new Reader(r.take(9)), counted = new Reader(r.take(20));
    const size = r.number(4), section = block(n, 0), most = 2621600, to = block(most), counts = block(40),
        count = block(8);
    while (r.rest) {
        const at = r.number(4), stride = r.number(4), times = r.number(4), value = r.number(1),
            bytes = memory.bytes(section, n);
        for (let i = 0; i < times; i++) bytes[at + i * stride] = value;
    }
    const none = block(8, 0), m = lend(3900, 65600, 300, 66100, 65537);
    let got = ask('count', section, n, 0, 0, counts);
    told(answers, got);
    if (!got[0]) for (let k = 0; k < 3; k++) check(memory.size(counts + 8 * k) === counted.number(4));
    got = ask('read', m.ynd, section, n, 0, 0, ...m.all);
    told(answers, got);
    if (got[0]) return;
    for (let i = 0; i < added; i++) check(ask('add_ref', m.ynd, ...m.of(4), none)[0] === 0);
    got = ask('write', m.ynd, ...m.all, to, most, count);
    told(answers, got);
    check(got[0] || memory.size(count) === size);
}

// A walk from a place, or a round from a number.
function gone(r, call, before = []) {
    const n = r.number(2), start = r.number(2), nc = r.number(2), most = r.number(2), answers = new Reader(r.take(3));
    const how = r.number(1), at = r.number(2), to = r.number(2), visited = block(4 * most), visits = r.number(2);
    const m = cellOf(r.take(n)), choices = put(r.take(nc)), end = block(12), count = block(8);
    memory.words(visited, most).fill(65535);
    const got = ask(call, m.ynd, ...m.of(0, 1), ...before, start, choices, nc, visited, most, end, count);
    told(answers, got);
    check(got[0] || same([word(end), word(end, 1), word(end, 2), memory.size(count)], [how, at, to, visits]));
    check(same([...memory.words(visited, most)], r.words(most)));
}

function sound(r) {
    const n = r.number(2), [nodes, links_, refs] = r.words(3), most = SCRATCH - 1 + r.number(1);
    const answers = new Reader(r.take(3)), verdict = r.number(1), m = cellOf(r.take(n)), said = block(1);
    const lists = [m.lists[0][0], nodes, m.lists[1][0], links_, m.lists[4][0], refs];
    const got = ask('sound', m.ynd, ...lists, block(4 * most), most, said);
    told(answers, got);
    check(got[0] || memory.bytes(said, 1)[0] === verdict);
}

function junctions(r) {
    const n = r.number(2), count = r.number(2), m = cellOf(r.take(n)), rows = [];
    for (let i = 0; i < count; i++) rows.push([r.number(4), r.number(4), r.number(4), r.number(4), r.number(1),
        r.number(1), r.number(2), r.number(2)]);
    const values = r.take(r.rest), value = block(1), length_ = block(8), section = block(8192);
    const agree = () => {
        check(word(m.ynd, 12) === count && count <= 16);
        rows.forEach(([x, y, low, high, width, height, start, held], i) => {
            const at = m.lists[2][0] + 24 * i;
            check(same([word(at), word(at, 1), word(at, 2), word(at, 3)], [x, y, low, high]));
            check(same([...memory.bytes(at + 16, 2)], [width, height]));
            for (let k = 0; k < held; k++) {
                check(ask('get_height', m.ynd, ...m.of(2, 3), i, k, value)[0] === 0);
                check(memory.bytes(value, 1)[0] === (values[start + k] ?? 0));
            }
        });
    };
    agree();
    check(ask('renumber', m.ynd, ...m.all, block(4 * SCRATCH), SCRATCH, block(256), 64)[0] === 0);
    agree();
    check(ask('write_then_read', m.ynd, ...m.all, section, 8192, length_)[0] === 0);
    agree();
}

function placed(r, lent) {
    const n = lent[1];
    for (let i = 0; i < n; i++) memory.words(lent[0] + 52 * i + 8, 2).set([r.number(4), r.number(4)]);
}

function within(r) {
    const x = r.signed(), y = r.signed(), radius = r.number(2), n = r.number(2), counts = [r.number(4), r.number(4)];
    const most = r.number(2), answers = new Reader(r.take(3)), held = r.number(2), m = lend(n, 0, 0, 0, 0),
        count = block(8);
    memory.words(m.ynd + 40, 1)[0] = counts[0];
    memory.words(m.ynd + 48, 1)[0] = counts[1];
    placed(r, m.lists[0]);
    const places = block(4 * most);
    memory.words(places, most).fill(65535);
    const got = ask('within', m.ynd, ...m.of(0), x, y, radius, places, most, count);
    told(answers, got);
    check(got[0] || memory.size(count) === held);
    const expected = Array.from({ length: most }, (_, k) => k < held ? r.number(2) : 65535);
    check(same([...memory.words(places, most)], expected));
}

function nearest(r) {
    const x = r.signed(), y = r.signed(), n = r.number(2), counts = [r.number(4), r.number(4)],
        answers = new Reader(r.take(3));
    const isFound = r.number(1), place = r.number(2), square = r.number(8), m = lend(n, 0, 0, 0, 0);
    memory.words(m.ynd + 40, 1)[0] = counts[0];
    memory.words(m.ynd + 48, 1)[0] = counts[1];
    placed(r, m.lists[0]);
    const found = block(1), at = block(8), squared = block(8);
    const got = ask('nearest', m.ynd, ...m.of(0), x, y, found, at, squared);
    told(answers, got);
    if (got[0]) return;
    check(memory.bytes(found, 1)[0] === isFound);
    check(!isFound || memory.size(at) === place && memory.size(squared) === square);
}

// A round file of version 1, or of either.
function roundFile(r, isVersioned) {
    const n = r.number(2), most = r.number(2), answers = new Reader(r.take(3)), first = r.number(2),
        held = r.number(2);
    const [version, area_] = isVersioned ? r.words(2) : [1, 0], bytes = r.take(n), given = put(bytes),
        choices = block(most);
    const [v, a, start, count] = [0, 1, 2, 3].map(() => block(8, 0)),
        call = isVersioned ? 'read_round_versioned' : 'read_round';
    const got = ask(call, given, n, choices, most, ...isVersioned ? [v, a] : [], start, count);
    told(answers, got);
    check(got[0] || word(start) === first && memory.size(count) === held
        && (!isVersioned || word(v) === version && word(a) === area_));
    check(same(memory.bytes(choices, most), r.take(most)));
    if (got[0]) return;
    const to = block(n), length_ = block(8), before = isVersioned ? [version, area_] : [];
    check(ask(isVersioned ? 'write_round_versioned' : 'write_round', ...before, first, choices, held, to, n,
        length_)[0] === 0);
    check(memory.size(length_) === n && same(memory.bytes(to, n), bytes));
}

function roundOf(r) {
    const start = r.number(2), n = r.number(4), most = r.number(4), answers = new Reader(r.take(3)),
        length_ = block(8);
    const got = ask('write_round', start, block(n), n, block(most), most, length_);
    told(answers, got);
    check(got[0] || memory.size(length_) === r.number(4));
}

function shortest(r) {
    const n = r.number(2), from = r.number(2), to = r.number(2), [scratch, choices, places] = r.words(3);
    const answers = new Reader(r.take(3)), sum = r.number(4), held = r.number(2), m = cellOf(r.take(n));
    const [work, way, visited, distance, count] = [4 * scratch, choices, 4 * places, 4, 8].map(k => block(k));
    memory.words(visited, places).fill(65535);
    const lent = [work, scratch, way, choices, visited, places, distance, count];
    const got = ask('shortest_path', m.ynd, ...m.of(0, 1), from, to, ...lent);
    told(answers, got);
    check(got[0] || word(distance) === sum && memory.size(count) === held);
    check(same(memory.bytes(way, choices), r.take(choices))
        && same([...memory.words(visited, places)], r.words(places)));
}

// A set's walks and renumberings, one after the other.
function setSteps(r) {
    const cells = r.number(1), steps_ = r.number(1), members = block(3 * 80), count = block(8, 0),
        all = lend(12, 24, 0, 0, 0);
    for (let i = 0; i < cells; i++) joins(r, members, count, all);
    for (let i = 0; i < steps_; i++) {
        const set = [members, memory.size(count)];
        if (r.number(1)) memberRenumbered(r, set, all);
        else crossingWalk(r, set, all);
    }
    check(r.rest === 0);
}

function joins(r, members, count, all) {
    const area_ = r.number(2), n = r.number(1), l = r.number(1), m = lend(n, l, 0, 0, 0), sizes = block(40, 0);
    lib.plain('new', m.ynd);
    memory.words(m.ynd + 40, 2).set([n, l]);
    new BigUint64Array(memory.memory.buffer, sizes, 2).set([BigInt(n), BigInt(l)]);
    for (let i = 0; i < n; i++) {
        const at = m.lists[0][0] + 52 * i;
        lib.plain('node_new', area_, r.number(1), 0, 0, 0, at);
        memory.bytes(at + 21, 1)[0] = r.number(1);
        memory.words(at + 28, 1)[0] = r.number(1);
        memory.bytes(at + 26, 1)[0] = r.number(1);
    }
    for (let i = 0; i < l; i++) {
        const to = r.number(2);
        lib.plain('link_to', to, r.number(1), m.lists[1][0] + 8 * i);
    }
    check(ask('set_join', count, members, 3, ...all.all, m.ynd, ...m.all, sizes)[0] === 0);
}

function crossingWalk(r, set, all) {
    const [member, start, n, most, refusal, at, how] = Array.from({ length: 7 }, () => r.number(1));
    const area_ = r.number(2), to = r.number(1), held = r.number(1), choices = put(r.take(n));
    const visited = block(8 * most), end = block(12), count = block(8);
    memory.words(visited, 2 * most).fill(255);
    const lent = [choices, n, visited, most, end, count];
    const got = ask('set_crossing_walk', ...set, ...all.of(0, 1), member, start, ...lent);
    check(same(got, [refusal, at]));
    check(got[0] || same([word(end), word(end, 1), word(end, 2), memory.size(count)], [how, area_, to, held]));
    for (let i = 0; i < 2 * most; i++) check(word(visited, i) === r.number(1));
}

function memberRenumbered(r, set, all) {
    const member = r.number(1), most = r.number(1), refusal = r.number(1), at = r.number(1), places = block(4 * most);
    memory.words(places, most).fill(255);
    const got = ask('set_renumber', ...set, ...all.all, block(4 * SCRATCH), SCRATCH, places, most, member);
    check(same(got, [refusal, at]));
    for (let i = 0; i < most; i++) check(word(places, i) === r.number(1));
}

const KINDS = [
    null, steps, metres, grid, length, name, gridCell, area, laneOffset, fileOf, links, junction, large,
    r => gone(r, 'walk'), sound, junctions, within, nearest, r => roundFile(r, false), r => gone(r, 'follow_round'),
        roundOf,
    shortest, setSteps, r => roundFile(r, true), r => gone(r, 'follow_round_versioned', [r.number(2), r.number(2)]),
];

let agreed = 0, all = 0;
const wrong = {};
for (const r = new Reader(file); r.rest;) {
    const kind = r.number(1), record = new Reader(r.take(r.number(2)));
    all++;
    try {
        memory.lending(lender => {
            room = lender;
            KINDS[kind](record);
        });
        agreed++;
    } catch (x) {
        const why = x instanceof Disagreement ? x.stack.split('\n')[2]?.trim().slice(0, 60) : String(x);
        wrong[kind] ??= [];
        wrong[kind].push(why);
    }
}
return { agreed, all, wrong, version: lib.version };
