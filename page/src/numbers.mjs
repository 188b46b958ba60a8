// Calls on numbers alone: steps, the grid, file names.
const signed = n => n << 16 >> 16;

// A point's metres as stored steps, quarters of a metre.
export function pointSteps(lib, x, y) {
    return [lib.plain('steps_xy', x), lib.plain('steps_xy', y)].map(signed);
}

// The stored steps of a position by its floats' bits: quarters along x and y, thirty-seconds along z.
export function stepsOfBits(lib, [x, y, z]) {
    const xy = bits => lib.plain('steps_xy_of_bits', bits);
    return [xy(x), xy(y), lib.plain('steps_z_of_bits', z)].map(signed);
}

// The grid cell of an area, its bounds in metres (x0, y0, x1, y1), and its file's name.
export function gridOfArea(lib, area) {
    lib.plain('cell_of_area', area, lib.out);
    const [cx, cy] = lib.outWords(2).slice();
    lib.call('cell_bounds', cx, cy, lib.out);
    const bounds = [...new Float32Array(lib.memory.memory.buffer, lib.out, 4)];
    const isIsland = lib.plain('is_island_area', area) === 1;
    return { cell: [cx, cy], bounds, isIsland, fileName: area < 1024 ? fileName(lib, cx, cy) : null };
}

function fileName(lib, cx, cy) {
    lib.call('cell_file_name', cx, cy, lib.to(1), lib.to(0));
    return new TextDecoder().decode(lib.memory.bytes(lib.to(1), lib.outSize(0)).slice());
}

export function cellForPosition(lib, x, y) {
    lib.plain('cell_for_position', x, y, lib.out);
    return [...lib.outWords(2)];
}

// The area that a file's name names, or null.
export function areaOfName(lib, name) {
    return lib.memory.lending(room => {
        const bytes = new TextEncoder().encode(name), at = lib.copied(room, bytes);
        return lib.plain('area_id_from_file_name', at, bytes.length, lib.out) ? lib.outWords(1)[0] : null;
    });
}
