// The drawing side, in a worker or beside the page: takes what is open, marks and colours, then views; answers each
// view with a picture. A newer view puts an end to one that is half painted.
import { Picture } from './picture.mjs';
import { Sheet } from './sheet.mjs';

const SLICE = 12;

export function serve(port) {
    const picture = new Picture(), turn = new MessageChannel();
    let want = null, isRunning = false, go = null;
    turn.port1.onmessage = () => go();
    const tick = () => new Promise(f => {
        go = f;
        turn.port2.postMessage(0);
    });
    const paint = async asked => {
        const from = performance.now(), steps = begun(picture, asked);
        for (;;) {
            const end = performance.now() + SLICE;
            let step;
            do step = steps.next(); while (!step.done && performance.now() < end);
            if (step.done) return send(port, picture, asked, performance.now() - from);
            await tick();
            if (want) return;
        }
    };
    const run = async () => {
        isRunning = true;
        while (want) {
            const asked = want;
            want = null;
            await paint(asked);
        }
        isRunning = false;
    };
    port.onmessage = ({ data }) => {
        if (data.scene) return taken(port, picture, data.scene);
        if (data.marks) return picture.walks.take(data.marks);
        if (data.look) return Object.assign(picture, data.look);
        want = data;
        if (!isRunning) run();
    };
}

function begun(picture, { w, h, view, isFine }) {
    picture.pen.size(w, h);
    picture.begin(view, isFine);
    return picture.paint();
}

function taken(port, picture, scene) {
    const from = performance.now();
    picture.take(new Sheet(scene));
    port.postMessage({ sheet: performance.now() - from, box: picture.sheet.box, counts: picture.sheet.counts });
}

function send(port, picture, { id, w, h }, ms) {
    const px = picture.pen.image.data.slice().buffer, { shown, stride, isSmooth } = picture;
    port.postMessage({ id, w, h, px, ms, shown, stride, isSmooth }, [px]);
}

// A whole picture at once, for paper: of a scene, marks and a view.
export function painted(scene, marks, view, w, h) {
    const picture = new Picture();
    picture.take(new Sheet(scene));
    picture.walks.take(marks);
    for (const step of begun(picture, { w, h, view, isFine: true })) void step;
    return picture.pen.image;
}
