// What the page answers of a yard: the body of a function whose first argument says what is asked. Its answer has the
// names of the tool's JSON.
const asked = arguments[0], done = arguments[arguments.length - 1];
const { Site } = modules.site, { kindCounts, outside, linkMetres } = modules.nodes, { printed } = modules.printed;
const { Refused } = modules.library, { readRound } = modules.rounds;
const bytesOf = text => Uint8Array.from(atob(text), c => c.charCodeAt(0));
const text = bytes => btoa(Array.from(bytes, b => String.fromCharCode(b)).join(''));
const fault = x => x instanceof Refused ? { number: x.number, place: x.place } : { words: x.message };
const tried = f => {
    try {
        return f();
    } catch (x) {
        return { error: fault(x) };
    }
};

function info(site) {
    const [m] = site.members, [nodes, links, junctions, heights, refs] = m.cell.counts, k = kindCounts(m.cell),
        g = m.grid;
    return {
        nodes, links, junctions, heights, refs, road_nodes: k.road, ped_nodes: k.ped, posts: k.posts, area: m.area,
        grid_cell: g?.cell ?? null, grid_bounds: g?.bounds ?? null, file_name: g?.fileName ?? null,
            island: g?.isIsland ?? null,
        nodes_outside_grid_cell: g ? outside(site.lib, m) : null, sound: m.sound,
            unsound_because: m.reason?.text ?? null,
    };
}

// A walk in the tool's names.
function told(cell, { end, places }, choices) {
    let metres = 0;
    for (let k = 0; k + 1 < places.length; k++) metres += linkMetres(cell, places[k], choices[k]);
    return { how: end.how, left: end.how === 'left' ? [end.area, end.number] : null, visited: [...places], metres };
}

const ask = {
    walk: (site, { start, choices }) => {
        const { cell } = site.members[0], given = Uint8Array.from(choices);
        return told(cell, cell.walk(start, given), given);
    },
    near: (site, { x, y, radius }) => site.within(x, y, radius).map(n => [n.at[1], n.squared]),
    nearest: (site, { x, y }) => site.nearest(x, y)?.at[1] ?? null,
    way: (site, { from, to }) => {
        const { metres, choices, places } = site.members[0].cell.shortestPath(from, to);
        return { metres, choices: [...choices], visited: [...places] };
    },
    follow: (site, { round }) => {
        const { cell } = site.members[0], read = readRound(site.lib, bytesOf(round));
        return told(cell, cell.follow(read), read.choices);
    },
    print: (site, { round, section }) => printed(site.lib, bytesOf(section), bytesOf(round)).text,
    renumber: site => {
        site.renumber(0);
        return text(site.members[0].cell.write());
    },
    write: site => text(site.members[0].cell.write()),
};

(async () => {
    // one that begins with nothing open, each time
    window.asking ??= new Site(app.site.module);
    const site = window.asking, out = {};
    while (site.members.length) site.leave(0);
    site.rounds = [];
    const opened = await site.open(asked.files.map(({ name, bytes }) => ({ name, bytes: bytesOf(bytes) })), false);
    out.refused = opened.refused;
    out.dead = site.lib.isDead;
    out.memory = site.lib.memory.memory.buffer.byteLength;
    // several files with nothing to ask of the first are a set
    if (!asked.ask) {
        out.set = { sound: site.isSound, because: site.isSound ? null : site.reason?.text ?? null,
            areas: site.members.map(m => m.area ?? 0) };
        out.walk = site.members.length ? tried(() => {
            const { end, visits } = site.set.walk(asked.walk.member, asked.walk.start,
                Uint8Array.from(asked.walk.choices));
            return { how: end.how, left: end.how === 'left' ? [end.area, end.number] : null, visited: visits };
        }) : null;
        return out;
    }
    if (site.members.length) out.info = info(site);
    for (const [what, given] of asked.ask) out[what] = site.members.length || what === 'print'
        ? tried(() => ask[what](site, given)) : null;
    return out;
})().then(done, x => done({ thrown: String(x.stack) }));
