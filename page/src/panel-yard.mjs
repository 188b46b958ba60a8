// The panel of what is open: cells, what the checks say, renumbering, saving, the map's legend.
import { button, byId, counted, el, fill, many, offer } from './dom.mjs';
import { baseOf } from './files.mjs';
import { legend } from './legend.mjs';
import { kindCounts, outside } from './nodes.mjs';
import { areaOfName } from './numbers.mjs';
import { wordsOf } from './refusals.mjs';

export function yardPanel(app) {
    const { site, map } = app;
    byId('tint').onchange = e => map.look({ tint: e.target.value });
    return () => {
        fill(byId('members'), ...site.members.map((member, m) => card(app, member, m)));
        byId('together').textContent = together(site);
        byId('together').className = site.isSound ? 'good' : 'bad';
        fill(byId('legend'), ...legend(app));
        byId('version').textContent = `Library ${site.lib.version}, compiled to WebAssembly.`;
    };
}

function together({ members, total, isSound, reason }) {
    if (members.length < 2) return '';
    const sound = isSound ? 'sound' : `not sound: ${reason?.text ?? ''}`;
    return `A set of ${members.length} cells with ${many(total)} nodes together, ${sound}`;
}

function card(app, member, m) {
    const { site } = app, [nodes, links, junctions] = member.cell.counts, k = member.kinds ??= kindCounts(member.cell);
    const size = `${counted(nodes, 'node')} (${many(k.road)} road, ${many(k.ped)} ped, ${counted(k.posts, 'post')})`;
    const more = `${counted(links, 'link')}, ${counted(junctions, 'junction')}`;
    const sound = member.sound ? el('p', { className: 'good' }, 'sound')
        : el('p', { className: 'bad' }, `not sound: ${member.reason?.text ?? ''}`);
    return el('section', { className: 'card' },
        el('h3', {}, (site.members.length > 1 ? `${m}: ` : '') + member.name
            + (member.isChanged ? ' (not saved)' : '')),
        el('p', {}, areaWords(site, member)), el('p', {}, `${size}, ${more}`), formWords(member), sound,
        member.note ? el('p', { className: 'small' }, member.note) : null, buttons(app, member, m));
}

function areaWords({ lib }, member) {
    if (member.area === null) return member.system.length ? 'no nodes' : 'no nodes: a yard not drawn yet';
    const { cell: [cx, cy], bounds: [x0, y0, x1, y1], isIsland } = member.grid, named = areaOfName(lib, member.name);
    const other = named !== null && named !== member.area ? `, but the file’s name says ${named}` : '';
    const out = member.outside ??= outside(lib, member), away = out ? `; ${counted(out, 'node')} outside it` : '';
    const island = isIsland ? ' (an island’s)' : '';
    const edges = `x ${x0} to ${x1} m, y ${y0} to ${y1} m`;
    return `area ${member.area}${island}${other}, grid cell (${cx}, ${cy}): ${edges}${away}`;
}

function formWords({ container, system, graphics, beside }) {
    const more = graphics.length ? ` and ${many(graphics.length)} graphics bytes` : '';
    const bytes = `${many(system.length)} bytes${more}`;
    const kind = container ? `container, version ${container.version}, ${container.stored ? 'stored' : 'deflated'}`
        : 'section';
    return el('p', { className: 'small' }, `${kind}: ${bytes}${beside ? ` (${beside})` : ''}`);
}

function buttons(app, member, m) {
    const { site } = app, does = (text, f) => button(text, () => guarded(app, f));
    return el('p', { className: 'row' },
        does('Check', () => check(app, member, m)),
        does('Renumber', () => renumber(app, member, m)),
        does('Save as .section', () => save(app, member, m, false)),
        does('Save as .ynd', () => save(app, member, m, true)),
        site.members.length > 1 ? does('Take out', () => takeOut(app, member, m)) : null);
}

// What goes wrong is said. A fault of the page itself goes to the browser's console too.
export async function guarded(app, f) {
    try {
        await f();
    } catch (x) {
        const isFault = [TypeError, RangeError, ReferenceError,
            WebAssembly.RuntimeError].some(kind => x instanceof kind);
        if (isFault) console.error(x);
        app.say((isFault ? 'the page has a fault: ' : '') + wordsOf(x));
    }
}

function check(app, member, m) {
    const { site } = app;
    site.look(member);
    site.recount();
    const reason = member.reason ?? (site.isSound ? null : site.reason);
    app.reason = reason ? reason.nodes.map(p => [member.reason ? m : reason.member ?? m, p]) : [];
    app.isMoved = true;
    if (app.reason.length) app.map.bring(site.positionOf(app.reason[0]));
    app.say(reason ? `${member.name} is not sound: ${reason.text}` : `${member.name} is sound`);
    app.refresh();
}

function renumber(app, member, m) {
    const told = app.site.renumber(m);
    member.note = renumbered(told);
    delete member.kinds;
    app.reopened(false);
    app.say(`renumbered: ${counted(told.changed.length, 'node')} with another number`);
}

// Which numbers changed, and what that means for rounds.
function renumbered({ changed, moved, places, before, rounds }) {
    const some = changed.slice(0, 8).map(p => `${before[p]} → ${places[p]}`).join(', ');
    const which = changed.length ? ` ${some}${changed.length > 8 ? ' ..' : ''}.` : '';
    return `Renumbered: ${counted(changed.length, 'node')} got another number, ${many(moved)} another place.${which} `
        + 'Every walk visits the same nodes as before: that is proved. '
        + (rounds ? `${counted(rounds, 'open round')} got the start’s new number: save again. ` : '')
        + 'Round files name numbers: write rounds of before again.';
}

async function save(app, member, m, isContainer) {
    const bytes = await app.site.written(m, isContainer),
        name = `${baseOf(member.name)}${isContainer ? '.ynd' : '.section'}`;
    offer(name, bytes);
    member.isChanged = false;
    app.say(`${name}: ${many(bytes.length)} bytes, handed to the browser’s downloads`);
    app.refresh();
}

function takeOut(app, member, m) {
    if (member.isChanged
        && !confirm(`${member.name} was renumbered and isn’t saved. Take it out all the same?`)) return;
    app.site.leave(m);
    app.reopened(true);
    app.say(`${member.name} left the set`);
}
