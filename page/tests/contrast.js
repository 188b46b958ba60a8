// What is too faint: texts against what is behind them (4.5 to 1, large ones 3 to 1), and the map's marks against its
// paper (3 to 1). The body of a function.
const colour = text => {
    const all = (text.match(/[\d.]+/g) ?? [0, 0, 0, 0]).map(Number);
    return text.startsWith('color(') ? all.map((v, i) => i < 3 ? 255 * v : v) : all;
};
const light = rgb => {
    const [r, g, b] = rgb.map(v => v / 255).map(v => v <= 0.04045 ? v / 12.92 : ((v + 0.055) / 1.055) ** 2.4);
    return 0.2126 * r + 0.7152 * g + 0.0722 * b;
};
const ratio = (p, q) => {
    const [a, b] = [light(p), light(q)];
    return +((Math.max(a, b) + 0.05) / (Math.min(a, b) + 0.05)).toFixed(2);
};

function behind(e) {
    for (; e; e = e.parentElement) {
        const c = colour(getComputedStyle(e).backgroundColor);
        if (c.length < 4 || c[3] > 0.5) return c;
    }
    return [255, 255, 255];
}

function texts() {
    const faint = [];
    for (const e of document.querySelectorAll('body *')) {
        const hasText = [...e.childNodes].some(n => n.nodeType === 3 && n.textContent.trim());
        const isShown = e.offsetParent && !e.closest('[disabled], #sheet, .hidden, script');
        if (!isShown || !hasText && !e.matches('select, input:not([type=range], [type=file])')) continue;
        const style = getComputedStyle(e), size = parseFloat(style.fontSize), is = ratio(colour(style.color), behind(e));
        const isLarge = size >= 24 || size >= 18.66 && +style.fontWeight >= 700;
        if (is < (isLarge ? 3 : 4.5)) faint.push([e.id || e.tagName, e.textContent.slice(0, 30), is]);
    }
    return faint;
}

function marks() {
    const { paper, step, stepText, tints, ...c } = app.colours;
    const names = ['link', 'oneWay', 'head', 'node', 'ped', 'post', 'out', 'lost', 'text', 'round', 'way', 'near',
        'chosen', 'start', 'next', 'edge'];
    const all = [...names.map(n => [n, ratio(c[n], paper)]), ['step', ratio(step, paper)]];
    all.push(...tints.map((t, i) => [`tint ${i}`, ratio(t, paper)]));
    const faint = all.filter(([, is]) => is < 3);
    return ratio(stepText, step) < 4.5 ? [...faint, ['stepText', ratio(stepText, step)]] : faint;
}

return { texts: texts(), marks: marks() };
