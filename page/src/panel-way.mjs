// The panel of the short way: the fewest metres between two nodes of one cell.
import { button, byId, counted, el, fill, many } from './dom.mjs';
import { asked, foundBy } from './panel-node.mjs';
import { guarded } from './panel-yard.mjs';

const LISTED_MOST = 400;

export function wayPanel(app) {
    byId('way-form').onsubmit = e => {
        e.preventDefault();
        guarded(app, () => {
            Object.assign(app.way, { from: nodeOf(app, byId('way-from').value),
                to: nodeOf(app, byId('way-to').value) });
            find(app);
        });
    };
    byId('way-clear').onclick = () => {
        app.way = { from: null, to: null, found: null };
        app.refresh();
    };
    byId('way-round').onclick = () => guarded(app, () => asRound(app));
    const show = () => shown(app);
    show.tapped = at => (guarded(app, () => tapped(app, at)), true);
    return show;
}

// The node that a number or "place 12" names.
function nodeOf(app, text) {
    const wanted = asked(text), found = wanted ? foundBy(app.site, wanted) : [];
    if (!found.length) throw new Error(`no node is found by “${text}”`);
    return found[0].at;
}

function tapped(app, at) {
    const { way } = app;
    if (!way.from || way.to) {
        app.way = { from: at, to: null, found: null };
        app.say(`from ${app.named(at)}: tap where the way ends`);
        return app.refresh();
    }
    way.to = at;
    find(app);
}

function find(app) {
    const { way, site } = app;
    way.found = null;
    try {
        way.found = site.way(way.from, way.to);
        app.say(`${many(way.found.metres)} m, ${counted(way.found.choices.length, 'link')}`);
    } finally {
        app.refresh();
    }
}

function asRound(app) {
    const { site, way: { found } } = app;
    app.stopRecording();
    app.round = site.begin(found.from, site.roundName(site.numberOf(found.from)));
    site.choose(app.round, found.choices);
    app.step = 0;
    app.toTab('round');
    app.say(`the short way is a round of ${counted(found.choices.length, 'choice')}: save it as a round file`);
}

function shown(app) {
    const { way: { from, to, found } } = app, number = at => {
        if (!at) return '';
        const n = app.site.numberOf(at);
        return app.site.members[at[0]].cell.node(n) === at[1] ? n : `place ${at[1]}`;
    };
    byId('way-from').value = number(from);
    byId('way-to').value = number(to);
    byId('way-round').hidden = !found;
    byId('way-said').textContent = said(app);
    const visits = found?.visits ?? [], rows = visits.slice(0, LISTED_MOST).map((at, k) =>
        el('li', {}, button(`${k} ${app.named(at)}`, () => app.choose(at))));
    if (visits.length > LISTED_MOST) rows.push(el('li', {},
        el('span', {}, `and ${many(visits.length - LISTED_MOST)} more`)));
    fill(byId('way-list'), ...rows);
}

function said(app) {
    const { way: { from, to, found } } = app;
    if (!from) return 'Tap where the way begins, then where it ends.';
    if (!to) return `From ${app.named(from)}. Tap where the way ends.`;
    const ends = `from ${app.named(from)} to ${app.named(to)}`;
    if (!found) return `No way ${ends}.`;
    return `${many(found.metres)} m by ${counted(found.choices.length, 'link')}, ${ends}: no other way is shorter.`;
}
