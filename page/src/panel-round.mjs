// The panel of rounds: recording by taps or links, undo, playing, saving, the printed text.
import { button, byId, counted, el, fill, many, offer } from './dom.mjs';
import { baseOf } from './files.mjs';
import { equal } from './app.mjs';
import { away } from './panel-node.mjs';
import { guarded } from './panel-yard.mjs';
import { linksAt } from './nodes.mjs';
import { printed } from './printed.mjs';
import { endWords } from './rounds.mjs';

// More steps than this are listed in part.
const LISTED_MOST = 400;

export function roundPanel(app) {
    const does = (id, f) => { byId(id).onclick = () => guarded(app, f); };
    does('record', () => record(app, null));
    does('go-on', () => record(app, app.round));
    does('undo', () => undo(app));
    does('record-end', () => ended(app));
    does('save-1', () => save(app, 1));
    does('save-2', () => save(app, 2));
    does('drop', () => drop(app));
    does('print', () => print());
    does('save-text', () => offer(`${baseOf(app.round.name)}.txt`, app.round.printed.text));
    byId('rounds').onchange = e => take(app, app.site.rounds[e.target.selectedIndex]);
    byId('of-member').onchange = e => {
        app.round.member = e.target.selectedIndex;
        take(app, app.site.follow(app.round));
    };
    const show = () => shown(app);
    show.tapped = at => app.isRecording && (guarded(app, () => stepTo(app, at)), true);
    return show;
}

function take(app, round) {
    app.stopRecording();
    Object.assign(app, { round, step: 0 });
    app.refresh();
}

function shown(app) {
    const { site, round, isRecording } = app;
    fill(byId('rounds'), ...site.rounds.map(r => el('option', { selected: r === round },
        `${r.name}${r.isSaved ? '' : ' (not saved)'}`)));
    byId('rounds').disabled = !site.rounds.length;
    byId('record').hidden = isRecording;
    byId('record').disabled = !site.total;
    byId('go-on').hidden = isRecording || round?.walk?.end.how !== 'done';
    byId('undo').hidden = byId('record-end').hidden = !isRecording;
    byId('undo').disabled = !round;
    byId('round-said').textContent = said(app);
    byId('round-said').className = round?.trouble ? 'bad' : '';
    showNext(app);
    showKeep(app);
    app.panels.play?.();
}

function said({ site, round, isRecording }) {
    if (!round) {
        if (isRecording) return 'Tap where the round begins.';
        return site.total ? 'No round is open. Open a .round file, or record one.' : 'Open a yard first.';
    }
    const area = round.version === 2 ? `, area ${round.area}` : '';
    const choices = counted(round.choices.length, 'choice');
    const head = `Version ${round.version}${area}, from node ${round.start}, ${choices}.`;
    if (round.trouble) return `${head} It can’t be followed: ${round.trouble}`;
    const links = counted(round.walk.visits.length - 1, 'link');
    return `${head} ${links} followed, ${many(round.metres)} m. ${endWords(round.walk.end)}`;
}

// Recording: a new round, or an open one goes on.
function record(app, round) {
    Object.assign(app, { round, isRecording: true, detour: null });
    look(app);
    app.say(round ? 'tap where the round goes on' : 'tap where the round begins');
    app.refresh();
}

// Where the round can go on.
function look(app) {
    const { site, round } = app;
    app.next = [];
    if (!round?.walk) return;
    const at = round.walk.visits.at(-1), { cell } = site.members[at[0]];
    app.next = linksAt(site.lib, cell, at[1]).map(link => ({ link, ...site.lead(at, link.k) }));
    app.step = round.walk.visits.length - 1;
    app.chosen = at;
    app.map.bring(site.positionOf(at));
}

function stepTo(app, at) {
    if (!app.round) return begin(app, at);
    const way = app.next.find(n => n.to && equal(n.to, at));
    if (way) return choose(app, [way.link.k]);
    const from = app.round.walk.visits.at(-1);
    if (equal(from, at)) return app.say(`the round stands at ${app.named(at)}: tap a node with a ring`);
    app.detour = null;
    try {
        app.detour = app.site.way(from, at);
    } catch {
        // the words below say it
    }
    const more = app.detour ? ', but there is a short way' : '';
    app.say(`no link leads from ${app.named(from)} to ${app.named(at)}${more}`);
    app.chosen = at;
    app.refresh();
}

function begin(app, at) {
    app.round = app.site.begin(at, app.site.roundName(app.site.numberOf(at)));
    gone(app, `the round begins at ${app.named(at)}`);
}

function choose(app, choices) {
    app.site.choose(app.round, [...app.round.choices, ...choices]);
    const at = app.round.walk.visits.at(-1);
    gone(app, `step ${app.round.walk.visits.length - 1}: ${app.named(at)}, ${many(app.round.metres)} m so far`);
}

function gone(app, text) {
    app.detour = null;
    look(app);
    app.say(text);
    app.refresh();
}

function undo(app) {
    const { site, round } = app;
    if (round.choices.length) {
        site.choose(round, round.choices.slice(0, -1));
        return gone(app, `undone: the round stands at ${app.named(round.walk.visits.at(-1))}`);
    }
    site.rounds = site.rounds.filter(r => r !== round);
    app.round = null;
    app.next = [];
    app.say('undone: tap where the round begins');
    app.refresh();
}

function ended(app) {
    app.stopRecording();
    app.say(app.round ? 'recorded: save it as a round file' : 'nothing was recorded');
    app.refresh();
}

function showNext(app) {
    const { isRecording, round, next, detour, chosen } = app, rows = [];
    byId('next').hidden = !isRecording;
    if (!isRecording) return;
    if (!round && chosen) rows.push(button(`Begin at ${app.named(chosen)}`,
        () => guarded(app, () => begin(app, chosen))));
    if (detour) {
        const long = `${counted(detour.choices.length, 'link')}, ${detour.metres} m`;
        const words = `By the short way to ${app.named(detour.to)}: ${long}`;
        rows.push(button(words, () => guarded(app, () => choose(app, detour.choices))));
    }
    for (const { link, to, end } of next) {
        const text = `link ${link.k} → ${to ? app.named(to) : away(end, link)}, ${link.metres} m`;
        rows.push(to ? button(text, () => guarded(app, () => choose(app, [link.k]))) : el('span', {}, text));
    }
    if (round && !next.length) rows.push(el('span', {}, 'No link leads on from here.'));
    fill(byId('next-list'), ...rows.map(r => el('li', {}, r)));
}

function showKeep(app) {
    const { site, round, isRecording } = app, isShown = !!round && !isRecording;
    byId('keep').hidden = !isShown;
    if (!isShown) return;
    byId('of-member').closest('p').hidden = site.members.length < 2 || round.version === 2;
    fill(byId('of-member'), ...site.members.map((m, i) => el('option', { selected: i === round.member }, m.name)));
    round.printed = printedOf(site, round);
    const { text, large } = round.printed;
    byId('printed').textContent = large ?? text;
    byId('printed-note').textContent = (large === null ? 'To the byte what the program printround prints.'
        : `printround itself says “${text.trim()}”: it takes less than this. These are its lines all the same.`)
        + (site.members.length > 1 ? ' It follows the round in its first cell alone.' : '')
        + ' x and y are quarters of a metre, z thirty-seconds.';
}

// The printed text, worked out once for a walk.
function printedOf(site, round) {
    if (round.printed && round.printed.walk === round.walk) return round.printed;
    if (!site.members.length) return { text: '', large: null };
    const m = round.version === 2 ? site.set.memberOfArea(round.area) ?? 0
        : Math.min(round.member, site.members.length - 1);
    return { ...printed(site.lib, site.sectionOf(m), site.fileOf(round)), walk: round.walk };
}

function save(app, version) {
    const { site, round } = app, bytes = site.fileOf(round, version), name = `${baseOf(round.name)}.round`;
    offer(name, bytes);
    round.isSaved = true;
    app.say(`${name}: ${many(bytes.length)} bytes, version ${version}, handed to the browser’s downloads`);
    app.refresh();
}

function drop(app) {
    const { site, round } = app;
    if (!round.isSaved && round.choices.length
        && !confirm(`${round.name} isn’t saved. Close it all the same?`)) return;
    site.rounds = site.rounds.filter(r => r !== round);
    take(app, site.rounds.at(-1) ?? null);
}

// Playing: a slider, keys, and a clock.
export function playPanel(app) {
    let clock = 0;
    const last = () => (app.round?.walk?.visits.length ?? 1) - 1;
    const stop = () => {
        clearInterval(clock);
        clock = 0;
        byId('run').textContent = 'Play';
        byId('run').setAttribute('aria-pressed', 'false');
    };
    const to = step => {
        if (!app.round?.walk) return;
        app.step = Math.min(Math.max(step, 0), last());
        const at = app.round.walk.visits[app.step];
        app.map.bring(app.site.positionOf(at));
        app.chosen = at;
        app.say(`step ${app.step} of ${last()}: ${app.named(at)}`);
        show(app, last());
        app.mark();
    };
    const run = () => {
        if (clock) return stop();
        if (app.step >= last()) to(0);
        const pace = () => app.step < last() ? to(app.step + 1) : stop();
        clock = setInterval(pace, 1000 / Number(byId('speed').value));
        byId('run').textContent = 'Pause';
        byId('run').setAttribute('aria-pressed', 'true');
    };
    byId('back').onclick = () => to(app.step - 1);
    byId('on').onclick = () => to(app.step + 1);
    byId('slider').oninput = e => to(+e.target.value);
    byId('run').onclick = run;
    byId('speed').onchange = () => clock && (stop(), run());
    app.play = { to, run, stop };
    return () => {
        const isShown = !!app.round?.walk && !app.isRecording;
        if (!isShown && clock) stop();
        byId('play').hidden = !isShown;
        // another round, or the same in other cells, may be shorter
        app.step = Math.min(app.step, last());
        if (isShown) show(app, last());
    };
}

function show(app, last) {
    const { round, step } = app, { visits } = round.walk, slider = byId('slider');
    slider.max = last;
    slider.value = step;
    const at = visits[step], words = `Step ${step} of ${last}: ${app.named(at)}`;
    byId('step-said').textContent = words;
    slider.setAttribute('aria-valuetext', words);
    const from = visits.length <= LISTED_MOST ? 0
        : Math.max(0, Math.min(step - LISTED_MOST / 2, visits.length - LISTED_MOST));
    const rows = visits.slice(from, from + LISTED_MOST).map((v, i) => row(app, v, from + i, last));
    fill(byId('steps'), ...rows);
    const current = byId('steps').querySelector('[aria-current]');
    if (current && app.tab === 'round') keepInSight(current);
}

// Scrolls the list, and nothing else, so that a row is in sight.
function keepInSight(row) {
    const box = byId('steps');
    if (row.offsetTop < box.scrollTop || row.offsetTop + row.offsetHeight > box.scrollTop + box.clientHeight) {
        box.scrollTop = row.offsetTop - box.clientHeight / 3;
    }
}

function row(app, at, k, last) {
    const { site, round } = app, choice = round.choices[k],
        metres = choice === undefined ? null : site.linkMetres(at, choice);
    const chosen = choice === undefined ? '' : metres === null ? `, no link ${choice}`
        : `, link ${choice} of ${metres} m`;
    const text = `${k} ${app.named(at)}${chosen}${k === last ? ' (end)' : ''}`;
    return el('li', {}, button(text, () => app.play.to(k), k === app.step ? { 'aria-current': 'step' } : {}));
}
