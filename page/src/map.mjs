// The map: a canvas that shows the last picture, moved and scaled to the view until the drawing side has a newer one.
import { drawing } from './drawing.mjs';

// CSS pixels that a picture has more on each side; how long after a move the fine picture is asked for; the ratio of
// pixels while moving, and beside no worker.
const EDGE = 48, REST = 140, MOVING_RATIO = 1.5, MOST_RATIO = 3;
// The column of the buttons, in CSS pixels.
const BUTTONS = 44;

// The drawing side's port: a worker of its own, or where there is none, this thread.
function drawer(onError) {
    const beside = () => {
        const { port1, port2 } = new MessageChannel();
        drawing().serve(port2);
        return Object.assign(port1, { isBeside: true });
    };
    try {
        const text = `'use strict';(${drawing})().serve(self);`;
        const url = URL.createObjectURL(new Blob([text], { type: 'text/javascript' })), worker = new Worker(url);
        worker.onerror = () => onError(beside());
        return worker;
    } catch {
        return beside();
    }
}

const same = (a, b) => !!a && !!b && ['scale', 'ox', 'oy', 'isFine', 'version'].every(k => a[k] === b[k]);

export class YardMap {
    constructor(canvas, { onView = () => {}, onSheet = () => {} } = {}) {
        Object.assign(this, { canvas, onView, onSheet, box: null, view: { scale: 1, ox: 0, oy: 0 } });
        Object.assign(this, { drawn: null, busy: null, got: null, ids: 0, raf: 0, movedAt: 0, isHeld: false,
            version: 0 });
        // what covers the map at its lower edge, in CSS pixels
        this.covered = 0;
        this.stats = { fresh: 0, works: [], paints: [], last: null };
        this.pen = canvas.getContext('2d', { alpha: false });
        this.use(drawer(port => this.use(port, true)));
        this.resize();
        new ResizeObserver(() => this.resize()).observe(canvas.parentNode);
    }

    use(port, isAgain = false) {
        this.port = port;
        port.onmessage = e => this.answered(e.data);
        if (!isAgain || !this.kept) return;
        const { scene, marks, look } = this.kept;
        this.busy = this.got = null;
        if (look) port.postMessage({ look });
        if (scene) port.postMessage({ scene });
        if (marks) port.postMessage({ marks });
        this.ask();
    }

    // What is open: goes to the drawing side, which keeps a copy.
    show(scene, box) {
        this.kept = { ...this.kept, scene, marks: null };
        Object.assign(this, { box, busy: null, got: null, drawn: null, isReady: false });
        this.port.postMessage({ scene });
    }

    mark(marks) {
        this.kept = { ...this.kept, marks };
        this.port.postMessage({ marks });
        this.again();
    }

    look(look) {
        this.kept = { ...this.kept, look: { ...this.kept?.look, ...look } };
        this.port.postMessage({ look });
        this.again();
    }

    again() {
        this.version++;
        this.ask();
    }

    answered(data) {
        if (data.sheet !== undefined) {
            this.isReady = true;
            // the first picture is a quick one
            this.movedAt = performance.now();
            this.onSheet(data);
            return this.ask();
        }
        if (!this.busy || data.id !== this.busy.id) return;
        this.got = data;
        this.stats.paints.push(data.ms);
        this.stats.last = data;
        this.ask();
    }

    ask() {
        this.raf ||= requestAnimationFrame(() => this.frame());
    }

    frame() {
        this.raf = 0;
        const from = performance.now(), isFine = from - this.movedAt > REST && !this.isHeld;
        const aim = { ...this.view, isFine, version: this.version };
        this.put();
        if (this.isReady && (!this.busy || this.busy.isFine && !isFine) && !same(aim, this.drawn)) this.send(aim);
        this.place();
        this.stats.works.push(performance.now() - from);
        if (this.isReady && !same({ ...this.view, isFine: true, version: this.version }, this.drawn)) this.ask();
    }

    // Puts the picture that came.
    put() {
        const { got, busy, canvas } = this;
        if (!got || !busy) return;
        if (canvas.width !== got.w || canvas.height !== got.h) Object.assign(canvas, { width: got.w, height: got.h });
        this.pen.putImageData(new ImageData(new Uint8ClampedArray(got.px), got.w, got.h), 0, 0);
        canvas.style.width = busy.cssWide + 'px';
        canvas.style.height = busy.cssHigh + 'px';
        this.drawn = busy;
        this.got = this.busy = null;
        this.stats.fresh++;
        this.onView(this);
    }

    // Asks for a picture; while moving one of fewer pixels.
    send(aim) {
        const { dpr } = this, most = this.port.isBeside || !aim.isFine ? MOVING_RATIO : MOST_RATIO;
        const q = Math.min(1, most / dpr), m = Math.round(EDGE * dpr);
        const w = Math.round((this.wide + 2 * m) * q), h = Math.round((this.high + 2 * m) * q);
        this.busy = { ...aim, id: ++this.ids, m, cssWide: w / q / dpr, cssHigh: h / q / dpr };
        const view = { scale: aim.scale * q, ox: (aim.ox + m) * q, oy: (aim.oy + m) * q, dpr: dpr * q };
        this.port.postMessage({ id: this.ids, view, w, h, isFine: aim.isFine });
    }

    // Moves and scales the last picture to the view.
    place() {
        const { drawn, view, dpr, canvas } = this;
        if (!drawn) return;
        const s = view.scale / drawn.scale, x = (view.ox - (drawn.ox + drawn.m) * s) / dpr;
        const y = (view.oy - (drawn.oy + drawn.m) * s) / dpr;
        canvas.style.transform = `translate(${x}px, ${y}px) scale(${s})`;
    }

    resize() {
        const { clientWidth, clientHeight } = this.canvas.parentNode,
            was = { wide: this.wide, high: this.high, dpr: this.dpr };
        const dpr = Math.min(devicePixelRatio || 1, MOST_RATIO);
        const wide = Math.round(clientWidth * dpr), high = Math.round(clientHeight * dpr);
        if (wide === was.wide && high === was.high && dpr === was.dpr || !wide || !high) return;
        Object.assign(this, { dpr, wide, high, busy: null, got: null });
        const s = was.dpr ? dpr / was.dpr : 1, { scale, ox, oy } = this.view;
        if (was.wide) {
            const [x, y] = [(wide - was.wide * s) / 2, (high - was.high * s) / 2];
            this.view = { scale: scale * s, ox: ox * s + x, oy: oy * s + y };
        } else this.fit();
        this.again();
    }

    moved() {
        this.movedAt = performance.now();
        this.ask();
        this.onView(this);
    }

    // The whole of a box in the part of the map that nothing covers, left of the buttons.
    fit(box = this.box) {
        if (!box || !this.wide) return;
        const { dpr } = this, wide = this.wide - BUTTONS * dpr, high = this.high - this.covered * dpr, edge = 28 * dpr;
        const [l, b, r, t] = box, scale = Math.min((wide - 2 * edge) / Math.max(r - l, 4),
            (high - 2 * edge) / Math.max(t - b, 4));
        this.view = { scale, ox: wide / 2 - scale * (l + r) / 2, oy: high / 2 + scale * (b + t) / 2 };
        this.ask();
        this.onView(this);
    }

    pan(dx, dy) {
        const { view, dpr } = this;
        this.view = { ...view, ox: view.ox + dx * dpr, oy: view.oy + dy * dpr };
        this.moved();
    }

    // By a factor, about a point in CSS pixels.
    zoom(x, y, by) {
        if (!this.box) return;
        const { view, wide, high, dpr, box } = this, long = Math.max(box[2] - box[0], box[3] - box[1], 4);
        const least = Math.min(0.4 * Math.min(wide, high) / long, view.scale), most = Math.max(400 * dpr, view.scale);
        const scale = Math.min(Math.max(view.scale * by, least), most), s = scale / view.scale,
            [px, py] = [x * dpr, y * dpr];
        this.view = { scale, ox: px - (px - view.ox) * s, oy: py - (py - view.oy) * s };
        this.moved();
    }

    // The middle of what nothing covers, in CSS pixels.
    get middle() { return [this.wide / this.dpr / 2, (this.high / this.dpr - this.covered) / 2]; }

    metresAt(x, y) {
        const { scale, ox, oy } = this.view;
        return [(x * this.dpr - ox) / scale, (oy - y * this.dpr) / scale];
    }

    pixelsAt([x, y]) {
        const { scale, ox, oy } = this.view;
        return [(ox + scale * x) / this.dpr, (oy - scale * y) / this.dpr];
    }

    // CSS pixels a metre.
    get scale() { return this.view.scale / this.dpr; }

    // Moves so far that a point is well in sight.
    bring(point) {
        const [x, y] = this.pixelsAt(point), [mx, my] = this.middle, edge = 20;
        const dx = x < edge || x > 2 * mx - edge ? mx - x : 0, dy = y < edge || y > 2 * my - edge ? my - y : 0;
        if (dx || dy) this.pan(dx, dy);
    }
}
