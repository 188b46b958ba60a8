// The colours of the map, in light and in dark.
const rgb = text => [1, 3, 5].map(at => parseInt(text.slice(at, at + 2), 16));
const all = colours => Object.fromEntries(Object.entries(colours).map(([name, text]) =>
    [name, Array.isArray(text) ? text.map(rgb) : rgb(text)]));

const SHADES = 12;

export const LIGHT = all({
    paper: '#ffffff', grid: '#d5dae0', edge: '#0b7a75', link: '#7f8e9d', oneWay: '#5a6e82', head: '#33475b',
        node: '#1f4e79',
    ped: '#b25600', post: '#3d3d3d', out: '#6a3d9a', lost: '#c41111', text: '#1b1b1b', round: '#c2185b',
        way: '#2e7d32',
    near: '#0b7a75', chosen: '#000000', start: '#1f7a1f', next: '#c2185b', low: '#f4ecd8', high: '#8c6a3f',
    outline: '#8a7443', step: '#c2185b', stepText: '#ffffff',
    tints: ['#1f4e79', '#b25600', '#0b7a75', '#6a3d9a', '#a0195a', '#4d6b00', '#8a4b2a', '#2b5fd0', '#007a3d',
        '#7a5c00',
        '#555555', '#b0272b', '#36648b'],
});

export const DARK = all({
    paper: '#12171d', grid: '#2c3640', edge: '#4fc9bf', link: '#71818f', oneWay: '#9aabb9', head: '#c3d0dc',
        node: '#74b3f2',
    ped: '#ffab5e', post: '#c9c9c9', out: '#c7a3ff', lost: '#ff7b7b', text: '#eceff2', round: '#ff6fa5',
        way: '#7fdc8f',
    near: '#4fc9bf', chosen: '#ffffff', start: '#8fe08f', next: '#ff9cc2', low: '#29271f', high: '#a8854f',
    outline: '#8f7c4d', step: '#ff6fa5', stepText: '#12171d',
    tints: ['#74b3f2', '#ffab5e', '#4fc9bf', '#c7a3ff', '#ff8fbf', '#b5d65a', '#e0a182', '#8fb0ff', '#67d99a',
        '#e3c04d',
        '#c9c9c9', '#ff8f8f', '#9cc3e0'],
});

// A pixel's word, and a colour mixed with the paper's.
export const word = ([r, g, b]) => (255 << 24 | b << 16 | g << 8 | r) >>> 0;
export const mixed = (colour, paper, share) => colour.map((v, i) => Math.round(paper[i] + (v - paper[i]) * share));
export const shade = ({ low, high }, value) => {
    const k = value * SHADES >> 8;
    return low.map((v, i) => Math.round(v + (high[i] - v) * k / (SHADES - 1)));
};
