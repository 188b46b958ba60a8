// A set of cells, whose walks go on in the next cell: the members, and the five lists that hold all their entries.
import { endOf } from './cell.mjs';
import { LIMITS, SIZES } from './sizes.mjs';

const LISTS = ['nodes', 'links', 'junctions', 'heights', 'refs'];

export class CellSet {
    constructor(lib) {
        this.lib = lib;
        this.members = lib.memory.lend(LIMITS.members * SIZES.member);
        this.count = 0;
        this.lists = LISTS.map(() => [lib.memory.lend(0), 0]);
    }

    close() {
        for (const at of [this.members, ...this.lists.map(([at]) => at)]) this.lib.memory.giveBack(at);
    }

    get given() { return [this.members, this.count]; }
    list(name) { return this.lists[LISTS.indexOf(name)]; }
    get walkLists() { return [...this.list('nodes'), ...this.list('links')]; }
    get all() { return this.lists.flat(); }

    // A cell joins, in longer lists. A refusal leaves the set as it was.
    join(cell) {
        const lib = this.lib, memory = lib.memory, was = this.lists;
        const counts = was.map(([, n], i) => n + cell.counts[i]);
        const blocks = memory.lendAll(counts.map((n, i) => n * SIZES[LISTS[i]]));
        const now = blocks.map((to, i) => {
            const [at, n] = was[i], size = n * SIZES[LISTS[i]];
            memory.bytes(to, size).set(memory.bytes(at, size));
            return [to, counts[i]];
        });
        try {
            memory.lending(room => this.joined(room, now, cell));
        } catch (x) {
            for (const [at] of now) memory.giveBack(at);
            throw x;
        }
        for (const [at] of was) memory.giveBack(at);
        this.lists = now;
    }

    joined(room, lists, cell) {
        const lib = this.lib, sizes = room(40), count = room(8);
        new BigUint64Array(lib.memory.memory.buffer, sizes, 5).set(cell.counts.map(BigInt));
        new BigUint64Array(lib.memory.memory.buffer, count, 1)[0] = BigInt(this.count);
        const set = [count, this.members, LIMITS.members, ...lists.flat()];
        lib.call('set_join', ...set, cell.ynd, ...cell.lists, sizes);
        this.count = lib.memory.size(count);
    }

    // The member of an area leaves.
    leave(area) {
        this.lib.call('set_leave', ...this.given, ...this.all, area, this.lib.out);
        this.count = this.lib.outSize(0);
    }

    // The member of an area, copied into a cell that has room for it.
    handBack(area, cell) {
        this.lib.call('set_hand_back', ...this.given, ...this.all, area, cell.ynd, ...cell.lists);
    }

    isSound() {
        return this.lib.memory.lending(room => {
            const lib = this.lib, scratch = room(4 * LIMITS.scratch), refs = this.list('refs');
            lib.call('set_sound', ...this.given, ...this.walkLists, ...refs, scratch, LIMITS.scratch, lib.out);
            return lib.outIsTrue(0);
        });
    }

    // The first member of an area, or null.
    memberOfArea(area) {
        const lib = this.lib;
        lib.plain('set_member_of_area', ...this.given, ...this.list('nodes'), area, lib.to(0), lib.to(1));
        return lib.outIsTrue(0) ? lib.outSize(1) : null;
    }

    walk(member, start, choices) {
        return this.walked('set_crossing_walk', [member, start], choices);
    }

    // Follows a round; of version 1 from the member that is given.
    follow({ version, area, start, choices }, member) {
        return this.walked('set_follow_round', [version, area, member, start], choices);
    }

    walked(call, from, choices) {
        return this.lib.memory.lending(room => {
            const lib = this.lib, n = choices.length, given = lib.copied(room, choices);
            const visited = room(SIZES.location * (n + 1)), lent = [given, n, visited, n + 1];
            lib.call(call, ...this.given, ...this.walkLists, ...from, ...lent, lib.to(0), lib.to(2));
            const end = endOf(lib), words = lib.memory.words(visited, 2 * lib.outSize(2));
            const visits = Array.from({ length: words.length / 2 }, (_, i) => [words[2 * i], words[2 * i + 1]]);
            return { end, visits };
        });
    }

    // Renumbers a member; links of the others follow. The new place of each of its nodes.
    renumber(member, n) {
        return this.lib.memory.lending(room => {
            const lib = this.lib, scratch = [room(4 * LIMITS.scratch), LIMITS.scratch], places = room(4 * n);
            lib.call('set_renumber', ...this.given, ...this.all, ...scratch, places, n, member);
            return lib.memory.words(places, n).slice();
        });
    }
}
