// The text that the program printround prints of a section and a round file.
import { Cell } from './cell.mjs';
import { Refused } from './library.mjs';
import { stepsOfBits } from './numbers.mjs';
import { endText, readRound } from './rounds.mjs';

// The longest input, with the four bytes of the section's length; and what the program lends.
const INPUT_MOST = 65536, LENT = [1024, 8192, 256, 65536, 1024], VISITED_LENT = 16384;

// Its text, and whether that is said of more than printround takes: 'text', and 'large' where they differ.
export function printed(lib, section, file) {
    const text = answered(() => lines(lib, section, file, false));
    if (text !== 'bad input\n' && text !== 'refused 7\n') return { text, large: null };
    return { text, large: answered(() => lines(lib, section, file, true)) };
}

function answered(f) {
    try {
        return f();
    } catch (x) {
        if (!(x instanceof Refused)) throw x;
        return `refused ${x.number}\n`;
    }
}

function lines(lib, section, file, isLarge) {
    if (!isLarge && 4 + section.length + file.length > INPUT_MOST) return 'bad input\n';
    if (!isLarge && !fits(lib, section)) return 'refused 7\n';
    const cell = Cell.read(lib, section, new Uint8Array(0));
    try {
        const round = readRound(lib, file), walk = cell.follow(round);
        if (!isLarge && walk.places.length > VISITED_LENT) return 'refused 7\n';
        return textOf(lib, cell, round, walk);
    } finally {
        cell.close();
    }
}

// Whether the program's lists hold a section's entries; a section that is refused is no matter here.
function fits(lib, section) {
    return lib.memory.lending(room => {
        lib.call('count', lib.copied(room, section), section.length, 0, 0, lib.out);
        return LENT.every((most, i) => lib.outSize(i) <= most);
    });
}

function textOf(lib, cell, round, walk) {
    const words = cell.nodeWords.slice(), out = [`round area ${cell.area() ?? 0} choices ${round.choices.length}`];
    walk.places.forEach((p, k) => {
        const [x, y, z] = stepsOfBits(lib, words.subarray(13 * p + 2, 13 * p + 5));
        out.push(`${k} node ${words[13 * p] >>> 16} x ${x} y ${y} z ${z}`);
    });
    return [...out, endText(walk.end), ''].join('\n');
}
