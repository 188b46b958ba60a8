// The page: the library starts, files come in, panels and keys are connected.
import { App } from './app.mjs';
import { byId, counted, el, fill } from './dom.mjs';
import { embedded, unpacked } from './embedded.mjs';
import { followKeys, followPointers } from './gestures.mjs';
import { lacks } from './library.mjs';
import { nearPanel } from './panel-near.mjs';
import { nodePanel } from './panel-node.mjs';
import { playPanel, roundPanel } from './panel-round.mjs';
import { wayPanel } from './panel-way.mjs';
import { guarded, yardPanel } from './panel-yard.mjs';
import { toPaper } from './paper.mjs';
import { Site } from './site.mjs';
import { tabsPanel } from './tabs.mjs';

const FILE_MOST = 2 * 16777216 + 1048576;

async function start() {
    const bytes = await unpacked(byId('module')), lacking = lacks(bytes);
    if (lacking) {
        for (const input of document.querySelectorAll('input[type=file]')) input.disabled = true;
        fill(byId('welcome'), el('h1', {}, 'Bofrashem'), el('p', { role: 'alert' }, `This browser has no ${lacking}. `
            + 'Take a newer Chrome, Edge, Firefox or Safari; or the program bofrashem.'));
        return null;
    }
    const app = new App(new Site(await WebAssembly.compile(bytes)));
    app.panels = {
        tabs: tabsPanel(app), play: playPanel(app), yard: yardPanel(app), node: nodePanel(app), near: nearPanel(app),
        round: roundPanel(app), way: wayPanel(app),
    };
    connect(app);
    await takeEmbedded(app);
    app.refresh();
    return app;
}

function connect(app) {
    const stage = byId('stage'), { map } = app;
    followPointers(stage, map, (x, y) => guarded(app, () => app.tapped(x, y)));
    followKeys(stage, map, {
        onTap: (x, y) => guarded(app, () => app.tapped(x, y)),
        more: { ',': () => app.play.to(app.step - 1), '.': () => app.play.to(app.step + 1),
            ' ': () => app.play.run() },
    });
    byId('in').onclick = () => map.zoom(...map.middle, 1.5);
    byId('out').onclick = () => map.zoom(...map.middle, 1 / 1.5);
    byId('all').onclick = () => map.fit();
    for (const input of document.querySelectorAll('input[type=file]')) {
        input.onchange = () => {
            const files = [...input.files];
            input.value = '';
            guarded(app, () => open(app, files, input.id === 'adder'));
        };
    }
    followDrops(app);
    const dark = matchMedia('(prefers-color-scheme: dark)'), look = () => {
        app.isDark = dark.matches;
        map.look({ isDark: dark.matches });
        app.panels.yard();
    };
    dark.onchange = look;
    look();
    addEventListener('beforeprint', () => toPaper(app));
    addEventListener('beforeunload', e => app.site.isUnsaved && e.preventDefault());
}

// Files dropped on the page: in place of what is open, or beside it.
function followDrops(app) {
    const zone = byId('dropzone'), [open_, add] = zone.children;
    let leaving = 0;
    addEventListener('dragover', e => {
        if (![...e.dataTransfer.types].includes('Files')) return;
        e.preventDefault();
        clearTimeout(leaving);
        zone.hidden = false;
        open_.textContent = app.site.members.length ? 'Open in place of what is open' : 'Open';
        for (const half of zone.children) half.classList.toggle('over', half === e.target);
        leaving = setTimeout(() => { zone.hidden = true; }, 400);
    });
    addEventListener('drop', e => {
        e.preventDefault();
        zone.hidden = true;
        const files = [...e.dataTransfer.files];
        guarded(app, () => open(app, files, e.target === add));
    });
}

async function open(app, files, isJoining) {
    if (!files.length) return;
    const { site } = app, onlyRounds = files.every(f => /\.round$/i.test(f.name));
    if (!isJoining && !onlyRounds && site.isUnsaved
        && !confirm('Something isn’t saved. Open in its place all the same?')) return;
    const read = await Promise.all(files.map(async f => {
        const bytes = f.size > FILE_MOST ? new Uint8Array(FILE_MOST + 1) : new Uint8Array(await f.arrayBuffer());
        return { name: f.name, bytes };
    }));
    taken(app, await app.site.open(read, isJoining));
}

// What was opened, and what wasn't, is shown and said.
function taken(app, told) {
    const { site } = app;
    showRefused(told.refused);
    if (told.rounds.length) Object.assign(app, { round: told.rounds.at(-1), step: 0 });
    app.isMoved = false;
    if (told.opened) app.reopened(true);
    else app.refresh();
    if (told.rounds.length && !told.opened) {
        app.stopRecording();
        app.toTab('round');
    }
    const opened = told.opened ? site.members.length > 1 ? `${counted(site.members.length, 'cell')} open`
        : `${site.members[0].name} is open` : '';
    const rounds = told.rounds.length ? `${counted(told.rounds.length, 'round')} opened` : '';
    const refused = told.refused.length
        ? `${counted(told.refused.length, 'file')} refused: ${told.refused[0].name}: ${told.refused[0].words}` : '';
    app.say([opened, rounds, refused].filter(Boolean).join('; '));
    if (told.refused.length) app.toTab('yard');
}

function showRefused(refused) {
    fill(byId('refused'), ...refused.map(({ name, words, hint }) =>
        el('p', { className: 'bad' }, `${name}: ${words}${hint ? `. ${hint}` : ''}`)));
}

// What the tool put into this page, and what the address asks for.
async function takeEmbedded(app) {
    const { yards, rounds, asked } = await embedded();
    if (yards.length) {
        taken(app, app.site.take(app.site.lib, false, { yards, rounds, refused: [] }));
        if (asked.way) {
            app.way = { from: [0, asked.way[0]], to: [0, asked.way[1]], found: null };
            app.way.found = app.site.way(app.way.from, app.way.to);
        }
        if (asked.near) near(app, asked.near);
        if (app.round && !asked.near) app.toTab('round');
    }
    hash(app);
    addEventListener('hashchange', () => hash(app));
}

function near(app, [x, y, radius]) {
    app.point = [x, y];
    app.radius = radius;
    app.listNear();
    app.toTab('near');
}

// #step=3, #node=5 (a place), #zoom=4
function hash(app) {
    const asked = new URLSearchParams(location.hash.slice(1)), { map, site } = app;
    const number = name => asked.has(name) ? parseInt(asked.get(name), 10) : NaN;
    const zoom = number('zoom'), step = number('step'), node = number('node');
    if (zoom > 0) map.zoom(...map.middle, zoom);
    if (step >= 0 && app.round?.walk) {
        app.toTab('round');
        app.play.to(step);
    }
    if (node >= 0 && node < site.members[0]?.cell.nodeCount) {
        app.toTab('node');
        app.choose([0, node]);
    }
}

// The page as it runs: tests ask it.
export const started = start().catch(x => byId('welcome').append(el('p', { role: 'alert' },
    `The library did not start: ${x.message}`)));
