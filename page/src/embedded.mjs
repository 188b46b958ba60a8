// What is in the page itself: the module, and the files that the tool put there.

// The bytes of an element's text: base64, of gzip where it says so.
export async function unpacked(element) {
    const bytes = Uint8Array.from(atob(element.textContent.trim()), c => c.charCodeAt(0));
    if (element.dataset.packed !== 'gzip') return bytes;
    const stream = new Blob([bytes]).stream().pipeThrough(new DecompressionStream('gzip'));
    return new Uint8Array(await new Response(stream).arrayBuffer());
}

// The yards (a system section, and its graphics section behind it), the rounds, and what is asked of them:
// {"way": [from, to], "near": [x, y, radius]}, places and steps.
export async function embedded() {
    const yards = [], rounds = [];
    for (const e of document.querySelectorAll('script.embedded')) {
        const { name, kind, container } = e.dataset, bytes = await unpacked(e);
        if (kind === 'round') rounds.push({ name, bytes, member: Number(e.dataset.member ?? 0) });
        else if (kind === 'graphics') yards.at(-1).graphics = bytes;
        else yards.push({ name, system: bytes, graphics: new Uint8Array(0),
            container: container ? JSON.parse(container) : null });
    }
    const asked = document.getElementById('asked');
    return { yards, rounds, asked: asked ? JSON.parse(asked.textContent) : {} };
}
