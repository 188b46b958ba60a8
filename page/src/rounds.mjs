// Round files, and the rounds that are open.
import { LIMITS } from './sizes.mjs';

export function isRound(name, bytes) {
    return /\.round$/i.test(name) || bytes[0] === 82 && bytes[1] === 78 && bytes[2] === 68;
}

// The round of a file of version 1 or 2.
export function readRound(lib, file) {
    return lib.memory.lending(room => {
        const at = lib.copied(room, file), n = LIMITS.choices, choices = room(n);
        lib.call('read_round_versioned', at, file.length, choices, n, ...[0, 1, 2, 3].map(k => lib.to(k)));
        const [version, area, start] = [0, 1, 2].map(k => lib.outWords(8)[2 * k] & 65535);
        return { version, area, start, choices: lib.memory.bytes(choices, lib.outSize(3)).slice() };
    });
}

// The file of a round.
export function writeRound(lib, { version, area, start, choices }) {
    return lib.memory.lending(room => {
        const given = lib.copied(room, choices), most = 11 + choices.length, file = room(most);
        lib.call('write_round_versioned', version, area, start, given, choices.length, file, most, lib.out);
        return lib.memory.bytes(file, lib.outSize(0)).slice();
    });
}

// How a walk ended, as printround says it.
export function endText({ how, area, number }) {
    return how === 'left' ? `end left ${area} ${number}` : `end ${how}`;
}

// The same for people.
export function endWords({ how, area, number }) {
    switch (how) {
        case 'done': return 'It goes on to its last choice (end done).';
        case 'no-link': return 'It ends early: the node has no link of the number chosen (end no-link).';
        case 'left':
            return `It leaves to area ${area}, node ${number}, which is not open (end left ${area} ${number}).`;
        default: return 'It ends early: the link chosen leads to a number that no node has (end no-node).';
    }
}
