// What files are: containers, sections alone or a system section beside its graphics section, round files.
import { Cell } from './cell.mjs';
import { isContainer, openContainer } from './container.mjs';
import { Refused } from './library.mjs';
import { isRound } from './rounds.mjs';

const GRAPHICS = /(^|[._ -])(gfx|graphics)([._ -]|$)/i, NONE = new Uint8Array(0);

// Yards and rounds of files, and what could not be taken; all in the order of the files.
export async function sortedOut(lib, files) {
    const yards = [], rounds = [], refused = [], sections = [];
    for (const [order, file] of files.entries()) {
        if (isRound(file.name, file.bytes)) rounds.push(file);
        else if (!isContainer(file.bytes)) sections.push({ ...file, order });
        else {
            try {
                const { version, stored, system, graphics } = await openContainer(file.bytes);
                yards.push({ order, name: file.name, system, graphics, container: { version, stored } });
            } catch (error) {
                refused.push({ name: file.name, bytes: file.bytes, error });
            }
        }
    }
    yards.push(...paired(lib, sections));
    yards.sort((a, b) => a.order - b.order);
    return { yards, rounds, refused };
}

// A section that is refused alone for an array's address takes one of the others as its graphics section, if both are
// accepted together: one that is named as such, then one of the same name, then any. One that is named as this one's
// graphics section is taken in any case, and the refusal is then that of both.
function paired(lib, sections) {
    const used = new Set(), yards = [];
    const isNamed = s => GRAPHICS.test(s.name) ? 1 : 0;
    for (const s of sections.toSorted((a, b) => isNamed(a) - isNamed(b))) {
        if (used.has(s)) continue;
        used.add(s);
        const others = sections.filter(g => !used.has(g)).sort((a, b) => likeness(s, b) - likeness(s, a));
        const graphics = isBadArray(lib, s.bytes)
            && (others.find(g => isAccepted(lib, s.bytes, g.bytes)) ?? others.find(g => likeness(s, g) === 3));
        if (graphics) used.add(graphics);
        const beside = graphics ? { graphics: graphics.bytes, beside: graphics.name } : { graphics: NONE };
        yards.push({ order: s.order, name: s.name, system: s.bytes, container: null, ...beside });
    }
    return yards;
}

const stem = name => name.replace(/\..*$/, '').replace(GRAPHICS, '');

function likeness(system, graphics) {
    return (GRAPHICS.test(graphics.name) ? 2 : 0) + (stem(system.name) === stem(graphics.name) ? 1 : 0);
}

function isBadArray(lib, system) {
    try {
        Cell.read(lib, system, NONE).close();
        return false;
    } catch (x) {
        return x instanceof Refused && x.number === 3;
    }
}

function isAccepted(lib, system, graphics) {
    try {
        Cell.read(lib, system, graphics).close();
        return true;
    } catch {
        return false;
    }
}

// A file's name without its ending.
export function baseOf(name) {
    return name.replace(/\.(section|ynd|sys|round)$/i, '');
}
