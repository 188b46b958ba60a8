// Damaged files dropped into the page, and what a person then does with them, by chance: the body of a function whose
// arguments are the seeds (name, base64), a number for the chance, and how many seconds. It answers what was counted,
// and every fault of the page.
const [seeds, chance, seconds] = arguments, done = arguments[arguments.length - 1];
const files = seeds.map(([name, text]) => [name, Uint8Array.from(atob(text), c => c.charCodeAt(0))]);
const counts = { opened: 0, refused: {}, actions: 0, containers: 0 }, faults = [];
let state = chance * 2654435761 >>> 0 || 1;
const below = n => {
    state ^= state << 13; state >>>= 0; state ^= state >>> 17; state ^= state << 5; state >>>= 0;
    return state % n;
};
const said = () => document.getElementById('said').textContent;
const pause = () => new Promise(f => setTimeout(f, 0));
addEventListener('error', e => faults.push(`error: ${e.message}`));
addEventListener('unhandledrejection', e => faults.push(`unhandled: ${e.reason?.stack ?? e.reason}`));
console.error = x => faults.push(`console: ${x?.stack ?? x}`);
// what leaves the page, or stops it
HTMLAnchorElement.prototype.click = () => {};
window.confirm = () => true;
window.print = () => dispatchEvent(new Event('beforeprint'));

function damaged(bytes) {
    const out = bytes.slice();
    for (let k = below(5); k > 0 && out.length; k--) {
        const near = below(3) ? Math.min(out.length, 120) : out.length, at = below(near), kind = below(4);
        out[at] = kind === 0 ? 255 : kind === 1 ? 0 : kind === 2 ? out[at] ^ 1 << below(8) : below(256);
    }
    return below(6) ? out : out.subarray(0, below(out.length + 1));
}

async function open() {
    const transfer = new DataTransfer(), n = 1 + below(3), isAdded = below(3) === 0;
    for (let k = 0; k < n; k++) {
        const [name, bytes] = files[below(files.length)];
        transfer.items.add(new File([damaged(bytes)], below(9) ? name : `<img src=x onerror=alert(1)>${name}`));
    }
    const input = document.querySelector(isAdded ? '#adder' : 'input.chooser');
    document.getElementById('said').textContent = '';
    input.files = transfer.files;
    input.dispatchEvent(new Event('change'));
    for (let k = 0; !said() && k < 2000; k++) await pause();
    const text = said();
    if (!text) faults.push(`no words after ${[...transfer.files].map(f => f.name)}`);
    if (/open/.test(text)) counts.opened++;
    for (const p of document.querySelectorAll('#refused p')) {
        const number = /refused (\d+)/.exec(p.textContent)?.[1] ?? /: ([a-z]+)/.exec(p.textContent)?.[1] ?? 'other';
        counts.refused[number] = (counts.refused[number] ?? 0) + 1;
    }
}

// A click on whatever can be clicked, a tap on the map, a slider, a key.
async function act() {
    counts.actions++;
    const kind = below(4), stage = document.getElementById('stage');
    if (kind === 0) {
        const at = { clientX: below(innerWidth), clientY: below(innerHeight), pointerId: 1, pointerType: 'mouse',
            bubbles: true };
        stage.setPointerCapture = () => {};
        stage.dispatchEvent(new PointerEvent('pointerdown', at));
        stage.dispatchEvent(new PointerEvent('pointerup', at));
    } else if (kind === 1) {
        const all = document.querySelectorAll('#panel input[type=range], #panel select');
        const inputs = [...all].filter(e => e.offsetParent);
        const e = inputs[below(inputs.length || 1)];
        if (!e) return;
        if (e.tagName === 'SELECT') e.selectedIndex = below(e.options.length || 1);
        else e.value = below(+e.max + 1);
        e.dispatchEvent(new Event('input'));
        e.dispatchEvent(new Event('change'));
    } else if (kind === 2) {
        const keys = ['ArrowLeft', '+', '-', '0', 'Enter', ',', '.', ' '];
        stage.dispatchEvent(new KeyboardEvent('keydown',
            { key: keys[below(keys.length)], bubbles: true, cancelable: true }));
    } else {
        const buttons = [...document.querySelectorAll('button')].filter(e => e.offsetParent && !e.disabled);
        buttons[below(buttons.length)].click();
    }
    await pause();
    if (document.querySelector('img')) faults.push('a file’s name became an element');
    if (!said() && app.site.members.length) faults.push('no words after an action');
    if (app.site.lib.isDead) faults.push('the library stopped');
}

(async () => {
    const end = performance.now() + 1000 * seconds;
    while (performance.now() < end && faults.length < 5) {
        await open();
        for (let k = below(12); k > 0 && faults.length < 5; k--) await act();
    }
    counts.memory = app.site.lib.memory.memory.buffer.byteLength;
    return { counts, faults, last: said() };
})().then(done, x => done({ counts, faults: [...faults, `thrown: ${x.stack}`] }));
