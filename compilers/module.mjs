// The driver of `make compilers` in Node, over the module that is shipped: the same words as compilers/main.c takes.
//
//     node [--experimental-wasm-memory64] compilers/module.mjs LIBRARY DRIVER digests SEED FIRST BLOCKS CALLS
//
// The driver's module imports each call from the library's and works in its memory, so that what is tried is the file
// itself; no number and no float passes through JavaScript between the two.
import fs from 'fs';

const [, , libraryFile, driverFile, what, ...words] = process.argv;
const library = new WebAssembly.Instance(new WebAssembly.Module(fs.readFileSync(libraryFile)), {}).exports;
const driver = new WebAssembly.Module(fs.readFileSync(driverFile));
const memory = library.memory;

// The driver's data begin at 4 MiB (--global-base). A memory of 64-bit addresses grows by a BigInt, a lowered one by a
// number.
const PAGES = 256;
const more = PAGES - memory.buffer.byteLength / 65536;
try { memory.grow(BigInt(more)); } catch { memory.grow(more); }

const out = [];
const flush = () => fs.writeSync(1, out.splice(0).join(''));
const text = (at, n) => {
    out.push(Buffer.from(new Uint8Array(memory.buffer, Number(at), Number(n))).toString());
    if (out.length > 4096) flush();
};
const env = { memory };
for (const { module, name, kind } of WebAssembly.Module.imports(driver)) {
    if (module !== 'env' || kind !== 'function') continue;
    if (!library[name]) throw new Error(`the library has no ${name}`);
    env[name] = library[name];
}
const run = new WebAssembly.Instance(driver, { env, host: { text } }).exports;

const [seed, first, ...counts] = words.map(BigInt);
if (what === 'digests' && counts.length === 2) {
    for (let block = first; block < first + counts[0]; block++) {
        const digest = BigInt.asUintN(64, run.digest(seed, block, Number(counts[1])));
        out.push(`${block} ${digest.toString(16).padStart(16, '0')}\n`);
        if (out.length > 63) flush();
    }
} else if ((what === 'each' || what === 'show') && counts.length === 1) {
    run[what](seed, first, Number(counts[0]));
} else {
    console.error('module.mjs LIBRARY DRIVER digests SEED FIRST BLOCKS CALLS, or each|show SEED BLOCK CALLS');
    process.exitCode = 1;
}
flush();
