// Paints views of what is open and gathers the boxes of all numbers and badges: the body of a function whose argument
// says how large the picture is and how far in. It answers how many there were, and those that cover each other.
const [{ wide, high, ratio, zooms }] = arguments, { Pen, Picture, Sheet } = app.parts;
const picture = new Picture(), sheet = new Sheet(app.site.scene()), boxes = [];
const write = Pen.prototype.text;
Pen.prototype.text = function (text, x, y, c, dpr) {
    boxes.push([x, y, x + Math.round(6 * dpr) * text.length, y + Math.round(10 * dpr), text]);
    return write.call(this, text, x, y, c, dpr);
};
picture.take(sheet);
picture.walks.take(app.map.kept.marks);
picture.pen.size(wide * ratio, high * ratio);
const [l, b, r, t] = sheet.box, whole = Math.min((wide - 40) / Math.max(r - l, 4),
    (high - 40) / Math.max(t - b, 4)) * ratio;
const out = { labels: 0, views: 0, crossing: [] };
for (const zoom of zooms) {
    const scale = whole * zoom;
    boxes.length = 0;
    picture.begin({ scale, ox: wide * ratio / 2 - scale * (l + r) / 2, oy: high * ratio / 2 + scale * (b + t) / 2,
        dpr: ratio }, true);
    for (const step of picture.paint()) void step;
    out.labels += boxes.length;
    out.views++;
    boxes.sort((p, q) => p[0] - q[0]);
    boxes.forEach((p, i) => {
        for (let k = i + 1; k < boxes.length && boxes[k][0] < p[2]; k++) {
            const q = boxes[k];
            if (q[1] < p[3] && p[1] < q[3] && out.crossing.length < 5) out.crossing.push([zoom, p, q]);
        }
    });
}
Pen.prototype.text = write;
return out;
