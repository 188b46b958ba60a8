// What fingers, a mouse and keys do to the map. A touch that moves less than a few pixels is a tap.
const SLACK = { touch: 8, pen: 8, mouse: 4 }, STEP = 60, FACTOR = 1.5;

// The fingers that are down, or the mouse's button, by their ids.
class Fingers {
    constructor(map) {
        Object.assign(this, { map, held: new Map(), moved: 0 });
    }

    down(id, at) {
        if (!this.held.size) this.moved = 0;
        this.held.set(id, at);
        this.map.isHeld = true;
    }

    move(id, now, slack) {
        const was = this.held.get(id);
        if (!was) return;
        if (this.held.size === 1) this.drag(was, now, slack);
        else this.pinch(was, now, [...this.held].find(([other]) => other !== id)[1]);
        this.held.set(id, now);
    }

    drag(was, now, slack) {
        const by = [now[0] - was[0], now[1] - was[1]];
        this.moved += Math.hypot(...by);
        if (this.moved > slack) this.map.pan(...by);
    }

    // What is between two fingers stays there.
    pinch(was, now, other) {
        const far = p => Math.hypot(p[0] - other[0], p[1] - other[1]);
        this.moved = Infinity;
        this.map.pan((now[0] - was[0]) / 2, (now[1] - was[1]) / 2);
        this.map.zoom((now[0] + other[0]) / 2, (now[1] + other[1]) / 2, far(now) / Math.max(far(was), 1));
    }

    // Whether that was a tap.
    up(id, slack) {
        const was = this.held.delete(id);
        this.map.isHeld = this.held.size > 0;
        if (!this.map.isHeld) this.map.ask();
        return was && !this.held.size && this.moved <= slack;
    }
}

export function followPointers(area, map, onTap) {
    const fingers = new Fingers(map), slack = e => SLACK[e.pointerType] ?? SLACK.mouse;
    const at = e => {
        const box = area.getBoundingClientRect();
        return [e.clientX - box.left, e.clientY - box.top];
    };
    area.addEventListener('pointerdown', e => {
        if (e.button > 0) return;
        area.setPointerCapture(e.pointerId);
        fingers.down(e.pointerId, at(e));
    });
    area.addEventListener('pointermove', e => fingers.move(e.pointerId, at(e), slack(e)));
    area.addEventListener('pointerup', e => {
        if (fingers.up(e.pointerId, slack(e))) onTap(...at(e));
    });
    area.addEventListener('pointercancel', e => fingers.up(e.pointerId, -1));
    area.addEventListener('wheel', e => {
        e.preventDefault();
        map.zoom(...at(e), Math.exp(-e.deltaY * (e.deltaMode ? 16 : 1) / 400));
    }, { passive: false });
}

// Keys of the map, without a modifier but Shift, so that the browser keeps its own.
export function followKeys(area, map, { onTap, more }) {
    area.addEventListener('keydown', e => {
        if (e.ctrlKey || e.altKey || e.metaKey || e.target !== area) return;
        const by = STEP * (e.shiftKey ? 4 : 1), keys = {
            ArrowLeft: () => map.pan(by, 0), ArrowRight: () => map.pan(-by, 0),
            ArrowUp: () => map.pan(0, by), ArrowDown: () => map.pan(0, -by),
            '+': () => map.zoom(...map.middle, FACTOR), '=': () => map.zoom(...map.middle, FACTOR),
            '-': () => map.zoom(...map.middle, 1 / FACTOR), 0: () => map.fit(),
            Enter: () => onTap(...map.middle), ...more,
        };
        const done = Object.hasOwn(keys, e.key) && keys[e.key];
        if (!done) return;
        e.preventDefault();
        done();
    });
}
