// The tabs of the panel; on a small screen the panel is a drawer, which a tab or its handle opens and closes.
import { byId } from './dom.mjs';

const NAMES = ['yard', 'node', 'near', 'round', 'way'];

export function tabsPanel(app) {
    const panel = byId('panel'), isSmall = () => getComputedStyle(byId('fold')).display !== 'none';
    // the map moves so that what was in the middle stays there
    const cover = () => {
        const was = app.map.covered, now = app.map.covered = isSmall() ? panel.offsetHeight : 0;
        if (was !== now && app.map.box) app.map.pan(0, (was - now) / 2);
    };
    const open = isOpen => {
        panel.classList.toggle('open', isOpen);
        byId('fold').setAttribute('aria-expanded', String(isOpen));
        cover();
    };
    byId('fold').onclick = () => open(!panel.classList.contains('open'));
    NAMES.forEach((name, k) => {
        const tab = byId(`tab-${name}`);
        tab.onclick = () => {
            open(app.tab !== name || !panel.classList.contains('open'));
            app.toTab(name);
        };
        tab.onkeydown = e => {
            const by = { ArrowRight: 1, ArrowLeft: -1 }[e.key];
            if (!by || e.ctrlKey || e.altKey || e.metaKey) return;
            e.preventDefault();
            const next = NAMES[(k + by + NAMES.length) % NAMES.length];
            app.toTab(next);
            byId(`tab-${next}`).focus();
        };
    });
    addEventListener('resize', cover);
    cover();
    return () => {
        for (const name of NAMES) {
            const isOn = app.tab === name, tab = byId(`tab-${name}`);
            tab.setAttribute('aria-selected', String(isOn));
            tab.tabIndex = isOn ? 0 : -1;
            byId(name).hidden = !isOn;
        }
    };
}
