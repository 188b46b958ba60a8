// What is open: cells, which are members of a set, and rounds. All answers come from the library's calls; nothing here
// touches the page.
import { Cell } from './cell.mjs';
import { closeContainer } from './container.mjs';
import { baseOf, sortedOut } from './files.mjs';
import { Library, Refused } from './library.mjs';
import { junctionAt, linkMetres } from './nodes.mjs';
import { gridOfArea } from './numbers.mjs';
import { cellReason, fieldsOf, setReason } from './reasons.mjs';
import { hintOf, wordsOf } from './refusals.mjs';
import { readRound, writeRound } from './rounds.mjs';
import { CellSet } from './set.mjs';

// More heightmap values than this are not drawn, only their outlines.
const VALUES_MOST = 400000;

export class Site {
    constructor(module) {
        this.module = module;
        this.rounds = [];
        this.clear(new Library(module));
    }

    clear(lib) {
        Object.assign(this, { lib, members: [], set: new CellSet(lib), firsts: [0] });
    }

    // Opens files in place of what is open, or beside it.
    async open(files, isJoining) {
        const lib = this.lib.isDead || !isJoining && this.lib.memory.isLarge ? new Library(this.module) : this.lib;
        return this.take(lib, isJoining, await sortedOut(lib, files));
    }

    // What can't be opened is said; where none of the yards can, what was open stays.
    take(lib, isJoining, { yards, rounds, refused }) {
        const was = this.members.length, next = isJoining && lib === this.lib ? this : Object.create(Site.prototype);
        if (next !== this) next.clear(lib);
        let opened = 0;
        for (const yard of yards) {
            try {
                next.join(yard);
                opened++;
            } catch (error) {
                refused.push({ name: yard.name, bytes: yard.system, error });
            }
        }
        const isReplaced = opened > 0 && next !== this;
        if (isReplaced) {
            this.close();
            Object.assign(this, { lib, members: next.members, set: next.set, rounds: [] });
        } else if (next !== this) next.close();
        if (opened) this.recount();
        const taken = this.takeRounds(rounds, refused);
        if (opened && was && !isReplaced) this.followAgain();
        return { opened, rounds: taken, isReplaced, refused: refused.map(saidOf) };
    }

    // Gives all memory back.
    close() {
        for (const { cell } of this.members) cell.close();
        this.set.close();
    }

    join(yard) {
        const cell = Cell.read(this.lib, yard.system, yard.graphics);
        try {
            this.set.join(cell);
        } catch (x) {
            cell.close();
            throw x;
        }
        const form = { container: yard.container, system: yard.system, graphics: yard.graphics, beside: yard.beside };
        this.members.push({ name: yard.name, cell, ...form, isChanged: false });
        this.look(this.members.at(-1));
    }

    // What the checks say of a member.
    look(member) {
        const { cell } = member, { sound, index } = cell.soundness();
        Object.assign(member, { area: cell.area(), sound, index, reason: sound ? null : cellReason(cell) });
        member.grid = member.area === null ? null : gridOfArea(this.lib, member.area);
    }

    // Where each member's nodes begin when they are counted over all.
    recount() {
        this.firsts = this.members.reduce((all, m) => [...all, all.at(-1) + m.cell.nodeCount], [0]);
        const cells = this.members.map(m => m.cell);
        this.isSound = this.members.length > 0 && this.set.isSound();
        this.reason = this.isSound || !cells.length ? null : cells.length === 1 ? this.members[0].reason
            : setReason(cells);
    }

    leave(m) {
        const [member] = this.members.splice(m, 1);
        this.set.leave(member.area ?? 0);
        member.cell.close();
        this.rounds = this.rounds.filter(r => r.version === 2 || r.member !== m);
        for (const r of this.rounds) if (r.member > m) r.member--;
        this.recount();
        this.followAgain();
    }

    global([m, place]) { return this.firsts[m] + place; }
    get total() { return this.firsts.at(-1); }

    positionOf([m, place]) {
        const { lib, members } = this, at = members[m].cell.nodes[0] + 52 * place + 8;
        return [...new Float32Array(lib.memory.memory.buffer, at, 2)];
    }

    numberOf([m, place]) {
        return fieldsOf.number(this.members[m].cell.nodeWords, place);
    }

    // The nearest node of all cells, and those within a radius, nearest first; in steps.
    nearest(x, y) {
        const all = this.members.map((m, i) => ({ at: i, near: m.cell.nearest(x, y) })).filter(n => n.near);
        const best = all.reduce((a, b) => a && a.near.squared <= b.near.squared ? a : b, null);
        return best && { at: [best.at, best.near.place], squared: best.near.squared };
    }

    within(x, y, radius) {
        const lists = this.members.map((m, i) => this.withDistance(m.cell, i, x, y, [...m.cell.within(x, y, radius)]));
        if (lists.length === 1) return lists[0];
        return lists.flat().sort((a, b) => a.squared - b.squared || a.at[0] - b.at[0] || a.at[1] - b.at[1]);
    }

    withDistance(cell, m, x, y, places) {
        const words = cell.nodeWords, floats = new Float32Array(words.buffer, words.byteOffset, words.length);
        return places.map(p => {
            const dx = Math.trunc(4 * floats[13 * p + 2]) - x, dy = Math.trunc(4 * floats[13 * p + 3]) - y;
            return { at: [m, p], squared: dx * dx + dy * dy };
        });
    }

    // Where link k of a node leads: a node, or how the walk of this one choice ends.
    lead([m, place], k) {
        const choices = Uint8Array.of(k), isOne = this.members.length === 1;
        const walk = isOne ? this.members[0].cell.step(place, k) : this.set.walk(m, place, choices);
        const to = isOne ? walk.places[1] : walk.visits[1];
        return { to: to === undefined ? null : isOne ? [m, to] : to, end: walk.end };
    }

    // Follows a round, or says why not.
    follow(round) {
        round.walk = null;
        round.trouble = '';
        if (!this.members.length) return Object.assign(round, { trouble: 'no yard is open' });
        try {
            if (this.members.length === 1) {
                const { end, places } = this.members[0].cell.follow(round);
                round.walk = { end, visits: Array.from(places, p => [0, p]) };
            } else round.walk = this.set.follow(round, Math.min(round.member ?? 0, this.members.length - 1));
            round.metres = this.metresOf(round);
        } catch (x) {
            if (!(x instanceof Refused)) throw x;
            round.trouble = wordsOf(x);
        }
        return round;
    }

    metresOf({ walk: { visits }, choices }) {
        let metres = 0;
        for (let k = 0; k + 1 < visits.length; k++) metres += this.linkMetres(visits[k], choices[k]) ?? 0;
        return metres;
    }

    linkMetres([m, place], k) { return linkMetres(this.members[m].cell, place, k); }

    followAgain() { for (const r of this.rounds) this.follow(r); }

    takeRounds(files, refused) {
        const taken = [];
        for (const { name, bytes, member = 0 } of files) {
            try {
                const round = { name, ...readRound(this.lib, bytes), member, isSaved: true };
                taken.push(this.follow(round));
            } catch (error) {
                refused.push({ name, bytes, error });
            }
        }
        this.rounds.push(...taken);
        return taken;
    }

    // A round that begins at a node: its number has to find it.
    begin([m, place], name) {
        const { cell, area } = this.members[m], start = this.numberOf([m, place]);
        const finds = cell.node(start);
        if (finds !== place) {
            throw new Error(`no round can start at place ${place}: its number, ${start}, finds place ${finds}`);
        }
        const round = { name, version: 2, area: area ?? 0, start, choices: new Uint8Array(0), member: m,
            isSaved: false };
        this.rounds.push(round);
        return this.follow(round);
    }

    choose(round, choices) {
        round.choices = Uint8Array.from(choices);
        round.isSaved = false;
        return this.follow(round);
    }

    // The bytes of a round's file, in a version.
    fileOf(round, version = round.version) {
        const m = round.walk?.visits[0][0] ?? round.member ?? 0;
        const area = version === 2 && round.version === 1 ? this.members[m]?.area ?? 0 : round.area;
        return writeRound(this.lib, { ...round, version, area });
    }

    // The way with the fewest metres between two nodes of one cell.
    way(from, to) {
        if (from[0] !== to[0]) throw new Error('the short way is looked for within one cell, and these are in two');
        const { metres, choices, places } = this.members[from[0]].cell.shortestPath(from[1], to[1]);
        return { from, to, metres, choices, visits: Array.from(places, p => [from[0], p]) };
    }

    // Renumbers a member; links of the others follow. What changed is counted; open rounds get their start's number.
    renumber(m) {
        const { cell, area } = this.members[m], n = cell.nodeCount;
        const before = Array.from({ length: n }, (_, p) => this.numberOf([m, p]));
        const starts = this.rounds.map(r => r.walk?.visits[0] ?? null);
        const places = this.members.length === 1 ? cell.renumber() : this.set.renumber(m, n);
        if (this.members.length > 1) this.handedBack(m);
        else this.rejoin();
        const moved = places.filter((p, old) => p !== old).length;
        const changed = [...places.keys()].filter(p => before[p] !== places[p]);
        for (const other of this.members) this.look(other);
        if (changed.length || moved) this.members[m].isChanged = true;
        const rounds = this.renumberRounds(m, starts, places);
        this.recount();
        this.followAgain();
        return { area, places, before, moved, changed, rounds };
    }

    // The members' own cells as the set now has them; of others links may have changed.
    handedBack(m) {
        this.members.forEach((other, i) => {
            const before = other.cell.linkWords.slice();
            this.set.handBack(other.area ?? 0, other.cell);
            const after = other.cell.linkWords;
            if (i !== m && before.some((w, k) => w !== after[k])) other.isChanged = true;
        });
    }

    // The set anew, of a cell that was renumbered alone.
    rejoin() {
        this.set.leave(this.members[0].area ?? 0);
        this.set.join(this.members[0].cell);
    }

    renumberRounds(m, starts, places) {
        let count = 0;
        this.rounds.forEach((r, i) => {
            if (starts[i]?.[0] !== m || r.start === places[starts[i][1]]) return;
            Object.assign(r, { start: places[starts[i][1]], isSaved: false });
            count++;
        });
        return count;
    }

    // A member's file: a section, or a container.
    async written(m, isContainer) {
        const section = this.members[m].cell.write();
        return isContainer ? closeContainer(section) : section;
    }

    // The section that a member's round is printed of: the file's, or what would be saved.
    sectionOf(m) {
        const member = this.members[m];
        return member.isChanged || member.container || member.graphics.length ? member.cell.write() : member.system;
    }

    get isUnsaved() {
        return this.members.some(m => m.isChanged) || this.rounds.some(r => !r.isSaved && r.choices.length);
    }

    // What the drawing side is told.
    scene() {
        const count = this.members.reduce((n, m) => n + m.cell.word[13], 0);
        return { cells: this.members.map(member => this.sceneOf(member, count <= VALUES_MOST)) };
    }

    sceneOf({ cell, area, index, grid }, hasValues) {
        const junctions = Array.from({ length: cell.word[12] }, (_, at) => {
            const { x, y, width, height, values } = junctionAt(this.lib, cell, at, hasValues);
            return { x, y, width, height, values };
        });
        const words = cell.nodeWords.slice(), links = cell.linkWords.slice();
        return { words, links, count: cell.nodeCount, area: area ?? 0, index, junctions,
            bounds: grid?.bounds ?? null };
    }

    roundName(start) {
        const base = this.members.length ? baseOf(this.members[0].name) : 'round';
        return `${base}-from-${start}.round`;
    }
}

function saidOf({ name, bytes, error }) {
    return { name, words: wordsOf(error), hint: hintOf(error, bytes), number: error.number ?? null,
        place: error.place ?? null };
}
