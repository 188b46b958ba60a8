// The panel of a point: the nodes within a radius, nearest first.
import { button, byId, counted, el, fill } from './dom.mjs';
import { metresOf } from './app.mjs';
import { pointSteps } from './numbers.mjs';

const LISTED_MOST = 300, STEPS_MOST = 65535;

// The slider's place as steps: finer where radii are small.
const stepsAt = value => Math.min(STEPS_MOST, Math.round(value <= 0 ? 0 : 4 ** (value / 12.5)));

export function nearPanel(app) {
    const slider = byId('radius');
    app.radius = stepsAt(+slider.value);
    slider.oninput = () => {
        app.radius = stepsAt(+slider.value);
        app.listNear();
        show(app);
        app.mark();
    };
    byId('point').onsubmit = e => {
        e.preventDefault();
        const [x, y] = ['point-x', 'point-y'].map(id => byId(id).valueAsNumber);
        if (!Number.isFinite(x) || !Number.isFinite(y)
            || !app.site.total) return app.say('x and y are numbers of metres');
        app.point = pointSteps(app.site.lib, x, y);
        const found = app.site.nearest(...app.point);
        app.listNear();
        app.map.bring([app.point[0] / 4, app.point[1] / 4]);
        app.choose(found.at, false);
    };
    return () => show(app);
}

function show(app) {
    const { point, near, radius } = app, said = `${radius / 4} m`;
    byId('radius-said').textContent = said;
    byId('radius').setAttribute('aria-valuetext', said);
    if (!point) {
        byId('near-said').textContent = 'Tap a point of the map.';
        return fill(byId('near-list'));
    }
    byId('point-x').value = point[0] / 4;
    byId('point-y').value = point[1] / 4;
    const nearest = app.site.nearest(...point);
    const none = near.length ? '' : `; the nearest is ${app.named(nearest.at)}, ${metresOf(nearest.squared)} away`;
    const where = `(${point[0] / 4}, ${point[1] / 4})`;
    byId('near-said').textContent = `${counted(near.length, 'node')} within ${said} of ${where}${none}`;
    const rows = near.slice(0, LISTED_MOST).map(({ at, squared }) =>
        el('li', {}, button(`${metresOf(squared)}  ${app.named(at)}`, () => app.choose(at))));
    if (near.length > LISTED_MOST) rows.push(el('li', {}, el('span', {}, `and ${near.length - LISTED_MOST} more`)));
    fill(byId('near-list'), ...rows);
}
