// A refusal in words: number, place, the library's words, and what the place is. As the tool says it.
import { Refused } from './library.mjs';

const LISTS = [
    'the nodes', 'the links', 'the junctions', 'the heightmap', 'the refs', 'the section', 'the scratch',
    'the new places', 'the list or round', "the path's scratch", 'the members',
];

// What the place of a refusal is, where it names one.
function placeWords(number, place) {
    switch (number) {
        case 2: return ['the system section', 'the graphics section'][Math.min(place, 1)];
        case 3: case 7: return LISTS[place] ?? '';
        case 6: return ['nodes', 'junctions'][Math.min(place, 1)];
        case 4: case 8: case 9: return `node ${place}`;
        case 5: case 10: return `junction ${place}`;
        default: return '';
    }
}

// What went wrong, in words for people; a fault of the page itself too.
export function wordsOf(x) {
    if (!(x instanceof Refused)) return x?.message ?? String(x);
    const at = placeWords(x.number, x.place);
    return x.message + (at ? ` (${at})` : '');
}

// What a person may do about it.
export function hintOf(x, bytes) {
    if (!(x instanceof Refused)) return '';
    if (x.number === 18) return 'Two cells of one area can\'t be in a set: take one out first.';
    if (x.number === 14 && x.call === 'ynd_set_join') return 'A set has at most 9 cells, and 65,536 nodes together.';
    if ([1, 3].includes(x.number) && looksLikeText(bytes)) return 'This looks like a text file, not like a yard.';
    if (x.number === 3) return 'If this yard has a graphics section of its own, open both files at once.';
    return '';
}

function looksLikeText(bytes) {
    const first = bytes?.subarray(0, 64) ?? [];
    return first.length > 0 && [...first].every(b => b >= 32 && b < 127 || b === 9 || b === 10 || b === 13);
}
