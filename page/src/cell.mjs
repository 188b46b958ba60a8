// A cell that was read, with the lists that are lent to it.
import { ENDS, LIMITS, SIZES } from './sizes.mjs';

const LISTS = ['nodes', 'links', 'junctions', 'heights', 'refs'];

export class Cell {
    // A cell with room for so many entries of each list.
    constructor(lib, counts) {
        const [ynd, ...at] = lib.memory.lendAll([SIZES.cell, ...LISTS.map((name, i) => counts[i] * SIZES[name])]);
        Object.assign(this, { lib, counts, ynd });
        LISTS.forEach((name, i) => { this[name] = [at[i], counts[i]]; });
        this.lists = LISTS.flatMap(name => this[name]);
    }

    // The counts are asked first, so that no file gets more memory than the page lends.
    static read(lib, system, graphics) {
        return lib.memory.lending(room => {
            const s = lib.copied(room, system), g = lib.copied(room, graphics);
            lib.call('count', s, system.length, g, graphics.length, lib.out);
            const cell = new Cell(lib, LISTS.map((_, i) => lib.outSize(i)));
            try {
                lib.call('read', cell.ynd, s, system.length, g, graphics.length, ...cell.lists);
            } catch (x) {
                cell.close();
                throw x;
            }
            return cell;
        });
    }

    close() {
        for (const at of [this.ynd, ...LISTS.map(name => this[name][0])]) this.lib.memory.giveBack(at);
    }

    // Views, good until the next lend.
    get word() { return this.lib.memory.words(this.ynd, SIZES.cell / 4); }
    get nodeWords() { return this.lib.memory.words(this.nodes[0], this.nodeCount * SIZES.nodes / 4); }
    get linkWords() { return this.lib.memory.words(this.links[0], this.links[1] * SIZES.links / 4); }
    get junctionWords() { return this.lib.memory.words(this.junctions[0], this.word[12] * SIZES.junctions / 4); }
    get refWords() { return this.lib.memory.words(this.refs[0], this.word[14] * SIZES.refs / 4); }
    get nodeCount() { return this.word[10]; }

    // The first node's area, or null.
    area() {
        this.lib.call('area_of_cell', this.ynd, ...this.nodes, this.lib.to(0), this.lib.to(1));
        return this.lib.outIsTrue(0) ? this.lib.outWords(4)[2] : null;
    }

    // Whether it is sound, and then the place of each number.
    soundness() {
        return this.lib.memory.lending(room => {
            const lib = this.lib, scratch = room(4 * LIMITS.scratch);
            lib.call('sound', this.ynd, ...this.nodes, ...this.links, ...this.refs, scratch, LIMITS.scratch, lib.out);
            const sound = lib.outIsTrue(0);
            return { sound, index: sound ? lib.memory.words(scratch, LIMITS.scratch).slice() : null };
        });
    }

    // Places within a radius of a point, nearest first; all in steps.
    within(x, y, radius) {
        return this.lib.memory.lending(room => {
            const lib = this.lib, n = this.nodeCount, places = room(4 * n);
            lib.call('within', this.ynd, ...this.nodes, x, y, radius, places, n, lib.out);
            return lib.memory.words(places, lib.outSize(0)).slice();
        });
    }

    // The nearest node's place, and its squared distance in steps; or null.
    nearest(x, y) {
        const lib = this.lib;
        lib.call('nearest', this.ynd, ...this.nodes, x, y, lib.to(0), lib.to(1), lib.to(2));
        return lib.outIsTrue(0) ? { place: lib.outSize(1), squared: lib.outSize(2) } : null;
    }

    // The place of the node that has a number, or null.
    node(number) {
        const lib = this.lib;
        lib.call('node', this.ynd, ...this.nodes, number, lib.to(0), lib.to(1));
        return lib.outIsTrue(0) ? lib.outSize(1) : null;
    }

    junctionOf(area, number) {
        const lib = this.lib;
        lib.call('junction_of', this.ynd, ...this.nodes, ...this.refs, area, number, lib.to(0), lib.to(1));
        return lib.outIsTrue(0) ? lib.outSize(1) : null;
    }

    // The heightmap values of a junction.
    values(junction) {
        return this.lib.memory.lending(room => {
            const lib = this.lib, at = room(LIMITS.values);
            const lists = [...this.junctions, ...this.heights];
            lib.call('shown_values', this.ynd, ...lists, junction, at, LIMITS.values, lib.out);
            return lib.memory.bytes(at, lib.outSize(0)).slice();
        });
    }

    shortestPath(from, to) {
        return this.lib.memory.lending(room => {
            const lib = this.lib, n = this.nodeCount, scratch = room(16 * n), choices = room(n), places = room(4 * n);
            const lists = [...this.nodes, ...this.links], lent = [scratch, 4 * n, choices, n, places, n];
            lib.call('shortest_path', this.ynd, ...lists, from, to, ...lent, lib.to(0), lib.to(1));
            const metres = lib.outWords(1)[0], count = lib.outSize(1);
            const visited = lib.memory.words(places, count + 1).slice();
            return { metres, choices: lib.memory.bytes(choices, count).slice(), places: visited };
        });
    }

    walk(start, choices) {
        return this.walked('walk_indexed', [start], choices);
    }

    // A walk of one choice.
    step(start, choice) {
        return this.walked('walk', [start], Uint8Array.of(choice), false);
    }

    // Follows a round. The call without the index says whether the round is this cell's; the other walks.
    follow({ version, area, start, choices }) {
        this.walked('follow_round_versioned', [version, area, start], new Uint8Array(0), false);
        return this.walked('follow_round_indexed', [start], choices);
    }

    walked(call, from, choices, isIndexed = true) {
        return this.lib.memory.lending(room => {
            const lib = this.lib, n = choices.length, given = lib.copied(room, choices), visited = room(4 * (n + 1));
            const scratch = isIndexed ? [room(4 * LIMITS.scratch), LIMITS.scratch] : [];
            const lent = [given, n, visited, n + 1, ...scratch, lib.to(0), lib.to(2)];
            lib.call(call, this.ynd, ...this.nodes, ...this.links, ...from, ...lent);
            const end = endOf(lib), places = lib.memory.words(visited, lib.outSize(2)).slice();
            return { end, places };
        });
    }

    // The new place of the node at each old place.
    renumber() {
        return this.lib.memory.lending(room => {
            const lib = this.lib, n = this.nodeCount, scratch = room(4 * LIMITS.scratch), places = room(4 * n);
            lib.call('renumber', this.ynd, ...this.lists, scratch, LIMITS.scratch, places, n);
            return lib.memory.words(places, n).slice();
        });
    }

    // The section that it is written as.
    write() {
        return this.lib.memory.lending(room => {
            const lib = this.lib, length = this.writtenMost(), section = room(length);
            lib.call('write', this.ynd, ...this.lists, section, length, lib.out);
            return lib.memory.bytes(section, lib.outSize(0)).slice();
        });
    }

    // Bytes that hold what is written: its lists have no more entries than these.
    writtenMost() {
        return this.lib.memory.lending(room => {
            const lib = this.lib, [nodes, links, junctions, heights, refs] = this.word.slice(10), addresses = room(40);
            try {
                lib.call('lay_out', refs, heights, junctions, links, nodes, addresses, lib.out);
                return lib.outSize(0);
            } catch {
                return LIMITS.section;
            }
        });
    }
}

// How a walk ended, of the three words at the front of the answers.
export function endOf(lib) {
    const [how, area, number] = lib.outWords(3);
    return { how: ENDS[how], area, number };
}
