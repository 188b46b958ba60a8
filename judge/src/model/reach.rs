//! T-01, T-08: the nodes within reach of a point, the nearest first, and the nearest. Points, radii and distances are
//! whole steps.
use super::cell::{Cell, Node};
use super::steps::{steps, XY};
use super::{refuse_if, room, Answer, MOST_JUNCTIONS, MOST_NODES};

/// The squared distance of a node's stored x and y from the point.
pub fn squared(node: &Node, point: [i16; 2]) -> u64 {
    let [x, y, _] = node.position;
    let along = |bits: u32, at: i16| (steps(bits, XY) as i64 - at as i64).pow(2) as u64;
    along(x, point[0]) + along(y, point[1])
}

/// The place of every node that lies at most the radius away, by squared distance, equal distances by place.
pub fn within(cell: &Cell, point: [i16; 2], radius: u16) -> Vec<usize> {
    let near = |(s, _): &(u64, usize)| *s <= (radius as u64).pow(2);
    let mut found: Vec<(u64, usize)> = cell.nodes.iter().map(|n| squared(n, point)).zip(0..).filter(near).collect();
    found.sort();
    found.into_iter().map(|(_, p)| p).collect()
}

/// The nearest node's place, the lowest where distances are equal, and its squared distance.
pub fn nearest(cell: &Cell, point: [i16; 2]) -> Option<(usize, u64)> {
    (0..cell.nodes.len()).map(|p| (squared(&cell.nodes[p], point), p)).min().map(|(d, p)| (p, d))
}

/// What both calls refuse, of counts and of entries lent: a count over a limit, nodes fewer than their count.
pub fn refused(counts: [usize; 5], lent: [usize; 5]) -> Answer<()> {
    refuse_if(counts[0] > MOST_NODES || counts[2] > MOST_JUNCTIONS, 14, 0)?;
    room(0, &counts[..1], &lent[..1])
}
