// What a person has chosen, and what the map shows of it. The panels read and change this.
import { byId } from './dom.mjs';
import { pointSteps, stepsOfBits } from './numbers.mjs';
import { drawing } from './drawing.mjs';
import { YardMap } from './map.mjs';

// Rings around nodes are left out over so many.
const RINGS_MOST = 2000;

export class App {
    constructor(site) {
        Object.assign(this, { site, chosen: null, point: null, near: [], radius: 40, tab: 'yard', round: null,
            step: 0 });
        Object.assign(this, { isRecording: false, next: [], way: { from: null, to: null, found: null }, reason: [] });
        this.panels = {};
        this.map = new YardMap(byId('picture'),
            { onView: map => this.viewed(map), onSheet: told => this.sheeted(told) });
    }

    // The map's colours, for the legend.
    get colours() {
        return this.isDark ? this.parts.DARK : this.parts.LIGHT;
    }

    // The drawing side in this thread.
    get parts() {
        this.drawingParts ??= drawing();
        return this.drawingParts;
    }

    say(text) { byId('said').textContent = text; }

    // What is open has changed.
    reopened(isFit) {
        const { site, map } = this;
        Object.assign(this, { chosen: null, point: null, near: [], reason: [],
            way: { from: null, to: null, found: null } });
        this.stopRecording();
        if (!site.rounds.includes(this.round)) this.round = site.rounds.at(-1) ?? null;
        this.step = 0;
        document.body.classList.toggle('empty', !site.members.length);
        document.title = [...site.members.map(m => m.name), 'Bofrashem'].join(' · ');
        map.show(site.scene(), boxOf(site));
        if (isFit) map.fit();
        this.refresh();
    }

    sheeted({ box, counts }) {
        this.counts = counts;
        this.map.box = box;
        if (!this.isMoved) this.map.fit();
        this.panels.yard?.();
    }

    viewed(map) {
        const most = 150 / map.scale, ten = 10 ** Math.floor(Math.log10(most)), [bar, text] = byId('scale').children;
        const long = [5, 2, 1].map(k => k * ten).find(m => m <= most) ?? ten;
        bar.style.width = `${long * map.scale}px`;
        text.textContent = `${+long.toPrecision(3)} m`;
    }

    // Every panel, and the marks of the map.
    refresh() {
        for (const show of Object.values(this.panels)) show();
        this.mark();
    }

    mark() {
        const { site, map } = this, global = at => site.global(at), tracks = [];
        if (this.way.found) tracks.push({ name: 'way', nodes: Uint32Array.from(this.way.found.visits, global) });
        if (this.round?.walk) {
            tracks.push({ name: 'round', nodes: Uint32Array.from(this.round.walk.visits, global), hasSteps: true });
        }
        map.mark({ tracks, rings: this.rings(global), circle: this.circle() });
    }

    rings(global) {
        const rings = this.reason.map(at => [global(at), 'reason']);
        if (this.tab === 'near' && this.near.length <= RINGS_MOST) rings.push(...this.near.map(n => [global(n.at),
            'near']));
        if (this.isRecording) rings.push(...this.next.filter(n => n.to).map(n => [global(n.to), 'next']));
        if (this.tab === 'way' && this.way.from) rings.push([global(this.way.from), 'from']);
        const now = this.tab === 'round' && this.round?.walk?.visits[this.step];
        if (now) rings.push([global(now), 'now']);
        if (this.chosen) rings.push([global(this.chosen), 'chosen']);
        return rings;
    }

    circle() {
        if (this.tab !== 'near' || !this.point) return null;
        return [this.point[0] / 4, this.point[1] / 4, this.radius / 4];
    }

    // A tap on the map, in CSS pixels.
    tapped(x, y) {
        const { site, map } = this;
        if (!site.total) return;
        this.isMoved = true;
        this.point = pointSteps(site.lib, ...map.metresAt(x, y));
        const found = site.nearest(...this.point), at = this.under(found.at);
        this.chosen = at;
        this.listNear();
        const took = this.panels[this.tab]?.tapped?.(at);
        if (took) return;
        this.say(`${this.named(at)}, ${metresOf(found.squared)} from the tap`);
        this.refresh();
    }

    // Of nodes in one spot the next one at each tap; while recording, one that can be gone to.
    under(at) {
        const { site, chosen } = this, p = site.positionOf(at);
        const [x, y] = this.stepsOf(at), all = site.within(x, y, 0).map(n => n.at);
        if (all.length < 2) return at;
        if (this.isRecording) return all.find(a => this.next.some(n => n.to && equal(n.to, a))) ?? at;
        const k = chosen && equal(site.positionOf(chosen), p) ? all.findIndex(a => equal(a, chosen)) : -1;
        return all[(k + 1) % all.length];
    }

    stepsOf([m, place]) {
        const { lib, members } = this.site, words = members[m].cell.nodeWords;
        return stepsOfBits(lib, words.slice(13 * place + 2, 13 * place + 5));
    }

    listNear() {
        this.near = this.point ? this.site.within(...this.point, this.radius) : [];
    }

    choose(at, isBrought = true) {
        this.chosen = at;
        this.isMoved = true;
        if (isBrought) this.map.bring(this.site.positionOf(at));
        this.say(this.named(at));
        this.refresh();
    }

    // "node 12 (place 3)": in a set with its cell.
    named(at) {
        const { site } = this, number = site.numberOf(at),
            where = site.members.length > 1 ? ` of ${site.members[at[0]].name}` : '';
        return `node ${number}${number === at[1] ? '' : ` (place ${at[1]})`}${where}`;
    }

    stopRecording() {
        this.isRecording = false;
        this.next = [];
    }

    toTab(name) {
        if (name !== this.tab) byId('tabs-body').scrollTop = 0;
        this.tab = name;
        this.panels.tabs?.();
        this.refresh();
    }
}

export const equal = (a, b) => a[0] === b[0] && a[1] === b[1];
export const metresOf = squared => `${(Math.sqrt(squared) / 4).toFixed(2)} m`;

// Where all nodes are, until the drawing side says it with the heightmaps.
function boxOf({ members }) {
    let [l, b, r, t] = [Infinity, Infinity, -Infinity, -Infinity];
    for (const { cell } of members) {
        const words = cell.nodeWords, floats = new Float32Array(words.buffer, words.byteOffset, words.length);
        for (let p = 0; p < cell.nodeCount; p++) {
            const x = floats[13 * p + 2], y = floats[13 * p + 3];
            [l, b, r, t] = [Math.min(l, x), Math.min(b, y), Math.max(r, x), Math.max(t, y)];
        }
    }
    return l <= r ? [l, b, r, t] : [-10, -10, 10, 10];
}
