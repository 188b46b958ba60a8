// Room in the module's memory for what is lent to the calls. Blocks that are given back are lent again. Addresses are
// kept as numbers. No view of the memory is kept over a lend: growing it makes all earlier views empty.
const PAGE = 65536, STEP = 16;
// A memory never gets smaller: over so many bytes the next yard gets a new one.
const LARGE = 96 * 1048576;

export class Memory {
    constructor(memory, base, most) {
        Object.assign(this, { memory, most, top: upTo(base), sizes: new Map(), free: [] });
    }

    // So many bytes at a multiple of 16, never at address 0.
    lend(bytes) {
        const size = upTo(Math.max(bytes, 1)), k = this.free.findIndex(([, has]) => has >= size);
        if (k < 0) return this.behind(size);
        const [at, has] = this.free[k];
        if (has > size) this.free[k] = [at + size, has - size];
        else this.free.splice(k, 1);
        this.sizes.set(at, size);
        return at;
    }

    // A block behind all others.
    behind(size) {
        const at = this.top, end = at + size, has = this.memory.buffer.byteLength;
        if (end > this.most) throw new TooMuch(size, this.most);
        if (end > has) this.grow(Math.ceil((end - has) / PAGE));
        this.top = end;
        this.sizes.set(at, size);
        return at;
    }

    // A 64-bit memory takes a BigInt, a 32-bit one a number.
    grow(pages) {
        try {
            this.memory.grow(BigInt(pages));
        } catch (x) {
            if (!(x instanceof TypeError)) throw new TooMuch(pages * PAGE, this.memory.buffer.byteLength);
            this.memory.grow(pages);
        }
    }

    giveBack(at) {
        const size = this.sizes.get(at);
        if (!size) throw new Error(`no block at ${at}`);
        this.sizes.delete(at);
        this.free.push([at, size]);
        this.free.sort((a, b) => a[0] - b[0]);
        this.free = this.free.reduce(joined, []);
        const last = this.free.at(-1);
        if (last && last[0] + last[1] === this.top) this.top = this.free.pop()[0];
    }

    // Blocks of these sizes, or none at all.
    lendAll(sizes) {
        const lent = [];
        try {
            for (const bytes of sizes) lent.push(this.lend(bytes));
            return lent;
        } catch (x) {
            for (const at of lent) this.giveBack(at);
            throw x;
        }
    }

    // Runs a function with a lender of its own, whose blocks are given back when it ends.
    lending(f) {
        const lent = [], room = bytes => {
            lent.push(this.lend(bytes));
            return lent.at(-1);
        };
        try {
            return f(room);
        } finally {
            for (const at of lent) this.giveBack(at);
        }
    }

    get isLarge() { return this.memory.buffer.byteLength > LARGE; }
    bytes(at, n) { return new Uint8Array(this.memory.buffer, at, n); }
    words(at, n) { return new Uint32Array(this.memory.buffer, at, n); }
    size(at) { return Number(new BigUint64Array(this.memory.buffer, at, 1)[0]); }
}

// More than the page lends.
class TooMuch extends Error {
    constructor(bytes, most) {
        const mega = n => Math.ceil(n / 1048576);
        super(`it asks for ${mega(bytes)} MB of memory at once, and this page lends ${mega(most)} MB in all`);
        this.name = 'TooMuch';
    }
}

function upTo(n) {
    return Math.ceil(n / STEP) * STEP;
}

function joined(all, block) {
    const last = all.at(-1);
    if (last && last[0] + last[1] === block[0]) last[1] += block[1];
    else all.push([...block]);
    return all;
}
