// The engine's own container, RSC7: a header of 16 bytes, then the pages of both sections, deflated or stored. Read as
// the tool's container.rs reads it; inflated and deflated by the browser.
import { LIMITS } from './sizes.mjs';

const MARKS = ['RSC7', 'RSC8', 'FXAP'], HEADER = 16, VERSION = 1, LEAST_SHIFT = 4, PAGE_COUNT_AT = 112 + 8;
// A body that breaks before so many bytes are inflated is taken as stored, if it is long enough.
const WINDOW = 32768;
const PIECE = 4096;
// Lowest bit, width, and pages of the base size of each count of the page flags.
const COUNTS = [
    [27, 1, 1], [26, 1, 2], [25, 1, 4], [24, 1, 8], [17, 7, 16], [11, 6, 32], [7, 4, 64], [5, 2, 128], [4, 1, 256],
];

class BadContainer extends Error {
    constructor(words) {
        super(`container: ${words}`);
        this.name = 'BadContainer';
    }
}

const markOf = file => String.fromCharCode(...file.subarray(0, 4));

export function isContainer(file) {
    return MARKS.includes(markOf(file));
}

// The bytes that a section's page flags stand for.
function sectionSize(flags) {
    const pages = COUNTS.reduce((n, [at, width, size]) => n + (flags >>> at & (1 << width) - 1) * size, 0);
    return (0x200 << (flags & 15)) * pages;
}

// Its version, whether it is stored, and both sections. Of one over the limit it hands out one byte more than the
// limit, which reading refuses.
export async function openContainer(file) {
    if (markOf(file) === 'RSC8') {
        throw new BadContainer("the mark is RSC8, the newer generation's container, which is not read");
    }
    if (markOf(file) === 'FXAP') {
        throw new BadContainer('the mark is FXAP, an encrypted file: it holds no yard that can be read');
    }
    if (file.length < HEADER) throw new BadContainer(`${file.length} bytes, and the header alone has ${HEADER}`);
    const view = new DataView(file.buffer, file.byteOffset), word = at => view.getUint32(at, true);
    const [system, graphics] = [sectionSize(word(8)), sectionSize(word(12))], most = LIMITS.section + 1;
    const { stored, bytes } = await inflated(file.subarray(HEADER), system, graphics), cut = Math.min(system, most);
    if (bytes.length < cut) throw truncated(bytes.length, system);
    const end = cut + (system > LIMITS.section ? 0 : Math.min(graphics, most));
    return { version: word(4), stored, system: bytes.slice(0, cut), graphics: bytes.slice(cut, end) };
}

const truncated = (got, want) => new BadContainer(`truncated: ${got} of ${want} bytes`);

// The body's bytes, as far as the sections reach; a body that never looks like deflate is taken as stored.
async function inflated(body, system, graphics) {
    const most = LIMITS.section + 1, wanted = Math.min(system, most) + Math.min(graphics, most);
    const { bytes, how, read } = await inflate(body, wanted);
    const isEarly = how === 'broken' && bytes.length < WINDOW && read < WINDOW && body.length >= system;
    if (how !== 'enough' && (bytes.length === 0 || isEarly)) return { stored: true, bytes: body.slice(0, wanted) };
    if (how === 'broken') {
        const at = `byte ${HEADER + read} of the file, after ${bytes.length} of ${system + graphics} bytes`;
        throw new BadContainer(`the deflate stream breaks at ${at}`);
    }
    if (how === 'short') throw truncated(bytes.length, system + graphics);
    return { stored: false, bytes };
}

// Inflates until there are enough bytes, the stream ends, it breaks, or the input is too short.
async function inflate(body, wanted) {
    if (wanted === 0) return { bytes: new Uint8Array(0), how: 'enough', read: 0 };
    const whole = await fed(body, wanted, PIECE, body.length);
    if (whole.how !== 'broken') return whole;
    // the piece that broke again, byte by byte: what stands before the break is kept
    const from = Math.max(0, whole.read - PIECE), single = await fed(body, wanted, PIECE, body.length, from);
    if (single.how !== 'broken') return single;
    // a stream that ends where it seemed to break has something behind it, which nobody reads
    const before = await fed(body.subarray(0, single.read), wanted, PIECE, single.read, from);
    return before.how === 'ended' ? before : single;
}

// Feeds a body in pieces, from a place on byte by byte.
async function fed(body, wanted, piece, end, singlesFrom = end) {
    const stream = new DecompressionStream('deflate-raw'), writer = stream.writable.getWriter();
    const taken = collected(stream.readable.getReader(), wanted);
    let read = 0;
    try {
        while (read < end && !taken.isEnough) {
            const to = read < singlesFrom ? Math.min(read + piece, singlesFrom)
                : Math.min(read + 1, end, singlesFrom + piece);
            if (to <= read) break;
            await Promise.race([writer.write(body.subarray(read, to)), taken.enough]);
            read = to;
        }
        if (taken.isEnough) return taken.as('enough', read);
        await Promise.race([writer.close(), taken.enough]);
        await taken.done;
        return taken.as(taken.isEnough ? 'enough' : 'ended', read);
    } catch {
        if (taken.isEnough) return taken.as('enough', read);
        return taken.as(read >= end ? 'short' : 'broken', read);
    } finally {
        writer.abort().catch(() => {});
    }
}

// Reads what comes out until there is enough.
function collected(reader, wanted) {
    const parts = [], all = { length: 0, isEnough: false };
    let enough;
    all.enough = new Promise(f => { enough = f; });
    const take = async () => {
        for (;;) {
            const { done, value } = await reader.read();
            if (done) return;
            parts.push(value);
            all.length += value.length;
            if (all.length < wanted) continue;
            all.isEnough = true;
            enough();
            await reader.cancel();
            return;
        }
    };
    all.done = take().catch(() => {});
    all.as = (how, read) => {
        const bytes = new Uint8Array(all.length);
        parts.reduce((at, part) => (bytes.set(part, at), at + part.length), 0);
        return { how, read, bytes: bytes.subarray(0, Math.min(wanted, bytes.length)) };
    };
    return all;
}

// The page flags of one page of at least so many bytes, and how many it has.
function onePage(length) {
    const least = 0x200 << LEAST_SHIFT;
    let page = least, doublings = 0;
    while (page < length) {
        page *= 2;
        doublings++;
    }
    const k = Math.min(doublings, 8);
    return [(1 << COUNTS[k][0] | LEAST_SHIFT + doublings - k) >>> 0, page];
}

// The container of a written section: one system page, no graphics page, version 1, deflated.
export async function closeContainer(section) {
    const [flags, page] = onePage(section.length), pages = new Uint8Array(page);
    pages.set(section);
    pages[PAGE_COUNT_AT] = 1;
    const stream = new Blob([pages]).stream().pipeThrough(new CompressionStream('deflate-raw'));
    const body = new Uint8Array(await new Response(stream).arrayBuffer()), file = new Uint8Array(HEADER + body.length);
    const view = new DataView(file.buffer);
    file.set(new TextEncoder().encode(MARKS[0]));
    // the version's upper half stands over the system flags, its lower half over the graphics flags
    [VERSION, flags | VERSION >>> 4 << 28, (VERSION & 15) << 28].forEach((w, i) => view.setUint32(4 + 4 * i, w, true));
    file.set(body, HEADER);
    return file;
}
