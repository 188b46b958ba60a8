// The calls of bofrashem.h, by name, on an instance of the module. The kinds of their parameters come from the header.
import { KINDS } from './kinds.mjs';
import { Memory } from './memory.mjs';

const MEMORY_MOST = 192 * 1048576, OUT = 64, TEXT_MOST = 128;

// A call's refusal: its number, its place, and the library's words.
export class Refused extends Error {
    constructor(call, number, place, words) {
        super(`refused ${number} ${place}: ${words}`);
        Object.assign(this, { name: 'Refused', call, number, place, words });
    }
}

// What of WebAssembly this browser lacks for a module, or ''.
export function lacks(bytes) {
    if (typeof WebAssembly !== 'object') return 'WebAssembly';
    if (typeof BigUint64Array !== 'function') return '64-bit numbers';
    return WebAssembly.validate(bytes) ? '' : '64-bit memories of WebAssembly (memory64)';
}

export class Library {
    constructor(module, most = MEMORY_MOST) {
        this.exports = new WebAssembly.Instance(module, {}).exports;
        this.memory = new Memory(this.exports.memory, Number(this.exports.__heap_base), most);
        // what answers are left in: seven words of 64 bits, and the place behind them
        this.out = this.memory.lend(OUT);
        // a trap leaves the instance shut: no later call of it is answered
        this.isDead = false;
    }

    // One call: numbers in, its result out.
    plain(name, ...given) {
        const [kinds, result] = KINDS[name].split(':');
        if (given.length !== kinds.length) throw new TypeError(`${name} takes ${kinds.length} words: ${given.length}`);
        const words = given.map((w, i) => kinds[i] === 'j' ? BigInt(w) : w);
        try {
            const got = this.exports['ynd_' + name](...words);
            return result === 'j' ? Number(got) : result === 'i' ? got >>> 0 : got;
        } catch (x) {
            this.isDead ||= x instanceof WebAssembly.RuntimeError;
            throw x;
        }
    }

    // One that can be refused; its last parameter is the place.
    call(name, ...given) {
        const at = this.out + OUT - 8, number = this.plain(name, ...given, at);
        if (number) throw new Refused('ynd_' + name, number, this.memory.size(at), this.text(number));
    }

    text(number) {
        return this.memory.lending(room => {
            const at = room(TEXT_MOST), n = this.plain('refusal_text', number, at, TEXT_MOST);
            return new TextDecoder().decode(this.memory.bytes(at, n).slice());
        });
    }

    get version() {
        const n = this.plain('version');
        return [n / 10000 | 0, (n / 100 | 0) % 100, n % 100].join('.');
    }

    // The answers that a call left: words of 32 bits, or one of 64.
    outWords(n) { return this.memory.words(this.out, n); }
    outSize(k) { return this.memory.size(this.out + 8 * k); }
    outIsTrue(k) { return this.memory.bytes(this.out + 8 * k, 1)[0] === 1; }
    // Where the kth answer of 64 bits goes.
    to(k) { return this.out + 8 * k; }

    // A copy of bytes, for a call.
    copied(room, bytes) {
        const at = room(bytes.length);
        this.memory.bytes(at, bytes.length).set(bytes);
        return at;
    }
}
