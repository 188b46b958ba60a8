// Elements of the page. Words of files go in as text only.
export const byId = id => document.getElementById(id);

// An element with properties, what happens on events (on..), and children: elements or words.
export function el(tag, properties = {}, ...children) {
    const e = document.createElement(tag);
    for (const [name, value] of Object.entries(properties)) {
        if (name.startsWith('on')) e.addEventListener(name.slice(2), value);
        else if (name in e) e[name] = value;
        else e.setAttribute(name, value);
    }
    e.append(...children.filter(c => c !== null && c !== undefined));
    return e;
}

export function fill(e, ...children) {
    e.replaceChildren(...children.filter(c => c !== null && c !== undefined));
}

export const button = (text, onclick, properties = {}) => el('button', { type: 'button', onclick, ...properties },
    text);

// Rows of a name and a value.
export function table(rows) {
    const cell = value => value instanceof Node ? value : String(value);
    return el('table', {}, el('tbody', {}, ...rows.filter(Boolean).map(([name, value]) =>
        el('tr', {}, el('th', { scope: 'row' }, name), el('td', {}, cell(value))))));
}

// Hands bytes or text to the person as a file.
export function offer(name, content) {
    const a = el('a', { href: URL.createObjectURL(new Blob([content], { type: 'application/octet-stream' })),
        download: name });
    a.click();
    setTimeout(() => URL.revokeObjectURL(a.href), 10000);
}

// 12,345 as people read it.
export const many = n => n.toLocaleString('en');
export const counted = (n, one, more = `${one}s`) => `${many(n)} ${n === 1 ? one : more}`;
export const metres = v => `${+v.toFixed(2)} m`;
