// The printed page: the map with the round, and its steps.
import { byId, counted, fill, many } from './dom.mjs';
import { legend } from './legend.mjs';

const WIDE = 1800, HIGH = 1150, RATIO = 2, EDGE = 60;

// Fills the sheet, which only a printer sees, from what is open.
export function toPaper(app) {
    const { site, round } = app, names = site.members.map(m => m.name).join(', ');
    byId('sheet-title').textContent = names + (round ? ` · ${round.name}` : '');
    const areas = site.members.map(m => `area ${m.area ?? 'none'}`).join(', ');
    const walk = round?.walk
        ? ` · round of ${counted(round.walk.visits.length - 1, 'link')}, ${many(round.metres)} m` : '';
    const today = new Date().toLocaleDateString('sv');
    byId('sheet-sub').textContent = `${areas} · ${counted(site.total, 'node')}${walk} · printed ${today}`;
    byId('sheet-lines').textContent = round?.printed ? (round.printed.large ?? round.printed.text) + across(app) : '';
    byId('sheet-note').textContent = round ? 'x and y are quarters of a metre, z thirty-seconds.' : '';
    fill(byId('sheet-legend'), ...legend(app, app.parts.LIGHT));
    if (site.members.length) draw(app);
}

// printround knows one cell: what a walk visits across several stands below its lines.
function across(app) {
    if (app.site.members.length < 2 || !app.round.walk) return '';
    return ['across the cells', ...app.round.walk.visits.map((at, k) => `${k} ${app.named(at)}`)].join('\n');
}

function draw(app) {
    const { kept, box } = app.map, canvas = byId('paper'), [l, b, r, t] = box;
    const scale = Math.min((WIDE - 2 * EDGE) / Math.max(r - l, 4), (HIGH - 2 * EDGE) / Math.max(t - b, 4));
    const view = { scale, ox: WIDE / 2 - scale * (l + r) / 2, oy: HIGH / 2 + scale * (b + t) / 2, dpr: RATIO };
    const marks = { ...kept.marks, rings: [], circle: null };
    Object.assign(canvas, { width: WIDE, height: HIGH });
    canvas.getContext('2d').putImageData(app.parts.painted(kept.scene, marks, view, WIDE, HIGH), 0, 0);
}
