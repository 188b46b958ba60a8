//! Inputs around each limit, each made once.
use super::files::{self, File, Shape};
use super::rng::Rng;
use super::scripts::{Op, Script};
use crate::model::cell::{Cell, Junction, Link, Node, Ref};
use crate::model::records::{ADDRESS_AT, COUNT_AT, COUNT_WIDTH, ROOT};
use crate::model::sections::{put_le, GRAPHICS, SYSTEM};
use crate::model::MOST_SECTION;

/// Files around the limits of reading: sections, root, nodes, junctions.
pub fn files(r: &mut Rng) -> Vec<(String, File)> {
    let mut out = Vec::new();
    let bare = |system: usize, graphics: usize| File { system: vec![0; system], graphics: vec![0; graphics], aux: 1 };
    for n in 0..=130 { out.push((format!("{n} zero bytes"), bare(n, 0))); }
    for n in [MOST_SECTION - 1, MOST_SECTION, MOST_SECTION + 1] {
        out.push((format!("a system section of {n} bytes"), bare(n, 0)));
        out.push((format!("a graphics section of {n} bytes"), bare(ROOT, n)));
        out.push((format!("no root, a graphics section of {n} bytes"), bare(0, n)));
    }
    // T-02: no system bytes are a yard not drawn yet, whatever graphics holds within its limit.
    for n in [0, 1, ROOT - 1, ROOT, ROOT + 1] {
        for g in [0, 7, MOST_SECTION, MOST_SECTION + 1] {
            out.push((format!("{n} zero bytes, a graphics section of {g}"), bare(n, g)));
        }
    }
    out.push(("both sections over the limit".into(), bare(MOST_SECTION + 1, MOST_SECTION + 1)));
    for n in [65_535, 65_536, 65_537] {
        out.push((format!("{n} nodes"), of_array(r, 0, n)));
        out.push((format!("{n} links"), of_array(r, 1, n)));
        out.push((format!("{n} heightmap bytes"), of_array(r, 3, n)));
        out.push((format!("{n} nodes at no address"), nowhere(0, n as u64)));
    }
    for n in [4_095, 4_096, 4_097] {
        out.push((format!("{n} junctions"), of_array(r, 2, n)));
        out.push((format!("{n} junctions at no address"), nowhere(2, n as u64)));
    }
    out.push(("65,537 nodes and 4,097 junctions".into(), two_arrays()));
    for n in [65_534, 65_535] { out.push((format!("{n} refs"), of_array(r, 4, n))); }
    out.push(("all counts at no address".into(), everywhere(0, u32::MAX as u64)));
    out.push(("all counts at a system address".into(), everywhere(SYSTEM, u32::MAX as u64)));
    out.push(("a large valid file".into(), large(r)));
    out
}

/// One array of `n` records of nothing but zeros, but for ranges that name nothing.
fn of_array(r: &mut Rng, array: usize, n: usize) -> File {
    let width = [40, 8, 12, 1, 8][array];
    let which = r.below(2);
    let mut sections = [vec![0; ROOT], vec![0; 3]];
    let at = sections[which].len() as u64;
    sections[which].resize(at as usize + n * width, 0);
    let [mut system, graphics] = sections;
    put_le(&mut system, ADDRESS_AT[array], 8, [SYSTEM, GRAPHICS][which] + at);
    put_le(&mut system, COUNT_AT[array], COUNT_WIDTH[array], n as u64);
    File { system, graphics, aux: r.next() }
}

/// One array of `n` records from system offset 0 on, over the root itself.
pub fn from_start(array: usize, n: usize) -> File {
    let mut system = vec![0; ROOT.max(n * [40, 8, 12, 1, 8][array])];
    put_le(&mut system, ADDRESS_AT[array], 8, SYSTEM);
    put_le(&mut system, COUNT_AT[array], COUNT_WIDTH[array], n as u64);
    File { system, graphics: Vec::new(), aux: 5 }
}

fn nowhere(array: usize, n: u64) -> File {
    let mut system = vec![0; ROOT];
    put_le(&mut system, COUNT_AT[array], COUNT_WIDTH[array], n);
    File { system, graphics: Vec::new(), aux: 2 }
}

fn everywhere(address: u64, n: u64) -> File {
    let mut system = vec![0; ROOT];
    for i in 0..5 {
        put_le(&mut system, ADDRESS_AT[i], 8, address);
        put_le(&mut system, COUNT_AT[i], COUNT_WIDTH[i], n);
    }
    File { system, graphics: Vec::new(), aux: 3 }
}

fn two_arrays() -> File {
    let mut system = vec![0; ROOT + 65_537 * 40];
    for (array, n) in [(0, 65_537), (2, 4_097)] {
        put_le(&mut system, ADDRESS_AT[array], 8, SYSTEM + ROOT as u64);
        put_le(&mut system, COUNT_AT[array], 4, n);
    }
    File { system, graphics: Vec::new(), aux: 4 }
}

pub fn large(r: &mut Rng) -> File {
    let arrays = files::arrays(r, Shape([60_000, 65_535, 300, 60_000, 5_000]));
    files::lay(r, arrays)
}

/// Cells around the limits of writing, which no reading gives.
pub fn cells(r: &mut Rng) -> Vec<(String, Cell)> {
    let mut out = Vec::new();
    for n in [30, 31, 32, 255] { out.push((format!("a node with {n} links"), with_links(&[3, n, n]))); }
    posts(&mut out);
    for sizes in [vec![(255, 255), (255, 2), (0, 0)], vec![(255, 255), (255, 2), (1, 1), (0, 9)],
        vec![(255, 255), (255, 3), (2, 2)], vec![(0, 255), (255, 0)]] {
        out.push((format!("heightmaps {sizes:?}"), with_values(r, &sizes)));
    }
    for n in [65_534, 65_535, 65_536] { out.push((format!("{n} refs"), with_refs(n))); }
    let mut both = with_links(&[1, 32]);
    both.refs = vec![Ref::default(); 65_536];
    out.push(("32 links and 65,536 refs".into(), both));
    out
}

/// T-05: 65,534 to 65,537 links before a node without links, and before one with a link; posts first, in the middle
/// and last. 65,534 links are 2,114 nodes with 31.
fn posts(out: &mut Vec<(String, Cell)>) {
    for (more, own) in (0..4).flat_map(|more| [0, 1, 32].map(|own| (more, own))) {
        let links = [vec![31; 2_114], vec![more]].concat();
        let before = 2_114 * 31 + more;
        for (where_, counts) in [
            ("last", [links.clone(), vec![own, 0, 0]].concat()),
            ("first", [vec![0, 0], links.clone(), vec![own]].concat()),
            ("in the middle", [links.clone(), vec![0, own, 0]].concat()),
            ("before another node with links", [links, vec![0, own, 0, 2]].concat()),
        ] {
            out.push((format!("{before} links before a node with {own}, posts {where_}"), with_links(&counts)));
        }
    }
    for n in [1, 3] { out.push((format!("{n} nodes, all posts"), with_links(&vec![0; n]))); }
}

fn with_links(counts: &[usize]) -> Cell {
    let nodes = counts.iter().enumerate().map(|(i, &n)| Node {
        node_id: i as u16,
        links: (0..n).map(|k| Link { node_id: (i + k) as u16, length: k as u8, ..Link::default() }).collect(),
        ..Node::default()
    });
    Cell { nodes: nodes.collect(), ..Cell::default() }
}

fn with_values(r: &mut Rng, sizes: &[(u8, u8)]) -> Cell {
    let junctions = sizes.iter().map(|&(width, height)| {
        let values = r.bytes(width as usize * height as usize);
        Junction { width, height, values, ..Junction::default() }
    });
    Cell { junctions: junctions.collect(), ..Cell::default() }
}

fn with_refs(n: usize) -> Cell {
    let junction_ref = |i| Ref { node_id: i as u16, junction_id: (i / 3) as u16, ..Ref::default() };
    Cell { refs: (0..n).map(junction_ref).collect(), ..Cell::default() }
}

/// Scripts that come to the limits of section 4: 65,536 nodes, 4,096 junctions, 255 links a node.
pub fn scripts(r: &mut Rng) -> Vec<(String, Script)> {
    let node = Op::AddNode { area_id: 1, position: [0; 3] };
    let junction = |count: usize| Op::AddJunction(
        Junction { width: 1, height: 1, values: vec![7; count], ..Junction::default() });
    let lent = [65_540, 300, 4_100, 10, 4];
    let at = |file: File, lent, ops: Vec<Op>| Script { file, lent, ops };
    let mut links = vec![Op::AddLink { place: 0, link: Link::default() }; 32];
    links.push(Op::Write { section: 60_000 });
    links.extend(vec![Op::AddLink { place: 0, link: Link::default() }; 225]);
    let to_last = |file: File, lent: [usize; 5], op: Op| at(file, lent, vec![op.clone(), op.clone(), op]);
    vec![
        ("nodes to the limit".into(), to_last(of_array(r, 0, 65_535), lent, node.clone())),
        ("nodes to the limit, and no room".into(), to_last(of_array(r, 0, 65_535), [65_536, 0, 0, 0, 0], node)),
        ("junctions to the limit".into(), to_last(of_array(r, 2, 4_095), lent, junction(1))),
        ("junctions to the limit, their values wrong".into(), to_last(of_array(r, 2, 4_096), lent, junction(2))),
        ("junctions to the limit, and no room".into(),
            to_last(of_array(r, 2, 4_095), [0, 0, 4_096, 0, 0], junction(1))),
        ("links of a node to the limit".into(), at(of_array(r, 0, 1), lent, links.clone())),
        ("links of a node to the limit, and no room".into(), at(of_array(r, 0, 1), [1, 255, 0, 0, 0], links)),
    ]
}
