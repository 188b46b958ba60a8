// Sizes and limits of bofrashem.h.

// Bytes of an entry.
export const SIZES = {
    cell: 60, nodes: 52, links: 8, junctions: 24, heights: 1, refs: 8, member: 80, location: 8,
};

export const LIMITS = {
    section: 16777216, scratch: 65536, nodes: 65536, members: 9, choices: 65535, values: 65025,
};

// How a walk ends, in the order of ynd_walk_how.
export const ENDS = ['done', 'no-link', 'left', 'no-node'];

// The island's bit of an area.
export const ISLAND = 1024;
