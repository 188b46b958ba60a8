//! The module `ynd` beside the cell that it stands on, and where its functions panic. That its answers are the Rust's
//! is the judge's (`make diff`). Run by `make bindings` at the repository's root.
use bofrashem::math::{Vec2, Vec3};
use bofrashem::ynd::{
    self, Heightmap, NodeJunctionRef, NodeSpecial, NodeSpeed, PathJunction, PathLink, PathNode, Ynd,
};
use bofrashem::{Cell, Refusal};
use std::panic::catch_unwind;

fn section(name: &str) -> Vec<u8> {
    std::fs::read(format!(
        "{}/../../samples/{name}.section",
        env!("CARGO_MANIFEST_DIR")
    ))
    .expect("a sample yard")
}

fn sample(name: &str) -> Ynd {
    Ynd::from_sections(&section(name), &[]).expect("a sample yard is read")
}

fn junction(width: u8, height: u8, values: &[u8]) -> PathJunction {
    let heightmap = Heightmap {
        width,
        height,
        values: values.to_vec(),
    };
    PathJunction {
        position: Vec2::new(4.0, 8.0),
        min_z: 0.0,
        max_z: 2.5,
        heightmap,
    }
}

#[test]
fn a_cell_and_back() {
    for name in ["dock", "hall", "yard"] {
        let (cell, ynd) = (Cell::read(&section(name), &[]).unwrap(), sample(name));
        assert_eq!(Ynd::from(&cell), ynd);
        assert_eq!(Cell::try_from(&ynd).unwrap().write(), cell.write());
        assert_eq!(ynd.to_section(), cell.write());
        assert_eq!(ynd.area_id(), cell.area());
        assert_eq!(Ynd::from_dictionary(&ynd.to_dictionary().unwrap()), Ok(ynd));
    }
    assert_eq!(Ynd::new(), Ynd::from(&Cell::new()));
    assert_eq!(
        (Ynd::new().vft, Ynd::new().area_id()),
        (ynd::NODE_DICTIONARY_VFT, None)
    );
    assert_eq!(
        ynd::NodeDictionary::default(),
        Ynd::new().to_dictionary().unwrap()
    );
}

#[test]
fn renumbering_tells_the_new_places() {
    let (mut cell, mut ynd) = (Cell::read(&section("yard"), &[]).unwrap(), sample("yard"));
    assert_eq!(ynd.renumbered(), cell.renumber());
    assert_eq!(ynd, Ynd::from(&cell));
    for p in [0, 1, 4_999, 5_000] {
        assert_eq!(
            ynd.node(p).map(|n| n.node_id),
            ynd.nodes.get(p as usize).map(|_| p)
        );
    }
}

/// A number that is no place is looked for; of equal numbers the first has it.
#[test]
fn a_node_is_found_by_its_number() {
    let mut ynd = Ynd::new();
    for number in [7, 3, 7, 1] {
        ynd.add_node(489, Vec3::ZERO).node_id = number;
    }
    let at = |number| {
        ynd.node(number)
            .map(|n| ynd.nodes.iter().position(|m| std::ptr::eq(m, n)).unwrap())
    };
    assert_eq!(
        [0, 1, 3, 7, 9].map(at),
        [None, Some(3), Some(1), Some(0), None]
    );
}

#[test]
fn a_junction_is_found_by_the_refs() {
    let mut ynd = Ynd::new();
    ynd.add_node(489, Vec3::ZERO);
    ynd.junctions = vec![junction(1, 1, &[7]), junction(2, 1, &[8, 9])];
    let to = |node_id, junction_id| NodeJunctionRef {
        area_id: 489,
        node_id,
        junction_id,
        unk0: 0,
    };
    ynd.junction_refs = vec![to(0, 1), to(5, 2)];
    assert_eq!(ynd.junction_of(489, 0), Some(&ynd.junctions[1]));
    assert_eq!(
        (ynd.junction_of(489, 5), ynd.junction_of(490, 0)),
        (None, None)
    );
    assert_eq!(ynd.junctions[1].heightmap.row(0), [8, 9]);
    assert_eq!(Ynd::default().junction_of(489, 0), None);
}

#[test]
fn what_is_not_written_is_refused() {
    let mut ynd = sample("dock");
    ynd.nodes[3].links = vec![PathLink::to(1, 1); 32];
    assert_eq!(ynd.to_section(), Err(Refusal::OverThirtyOneLinks(3)));
    ynd.nodes[3].links = vec![PathLink::to(1, 1); 256];
    assert_eq!(
        (ynd.to_section(), ynd.renumbered()),
        (Err(Refusal::AtLimit), Err(Refusal::AtLimit))
    );
    assert!(catch_unwind(move || ynd.recalculate_node_indices()).is_err());
    let mut ynd = sample("dock");
    ynd.junctions.push(junction(2, 2, &[1, 2, 3]));
    assert_eq!(ynd.to_section(), Err(Refusal::ValuesNotSize));
    // values say nothing of numbers
    assert!(ynd.renumbered().is_ok());
    let mut refs = Ynd::new();
    refs.junction_refs = vec![NodeJunctionRef::default(); 65_536];
    assert_eq!(refs.to_section(), Err(Refusal::TooManyRefs));
    assert_eq!(
        Ynd::from_sections(&[0; 111], &[]),
        Err(Refusal::FewSystemBytes)
    );
}

#[test]
fn a_full_cell_takes_no_node() {
    let mut ynd = Ynd::new();
    ynd.nodes = vec![PathNode::default(); 65_535];
    assert_eq!(ynd.add_node(5, Vec3::ZERO).node_id, 65_535);
    assert!(ynd.renumbered().is_ok());
    let panicked = catch_unwind(move || {
        ynd.add_node(5, Vec3::ZERO);
    })
    .unwrap_err();
    assert!(panicked
        .downcast_ref::<String>()
        .is_some_and(|said| said.starts_with("refused 14 0")));
}

/// The limits hold for cells made by hand too.
#[test]
fn over_a_limit_is_said() {
    let nodes = Ynd {
        nodes: vec![
            PathNode {
                node_id: 9,
                ..PathNode::default()
            };
            65_537
        ],
        ..Ynd::new()
    };
    assert_eq!(nodes.node(9).map(|n| n.node_id), Some(9));
    assert_eq!(
        (nodes.to_section(), nodes.clone().renumbered()),
        (Err(Refusal::AtLimit), Err(Refusal::AtLimit))
    );
    assert_eq!(nodes.node(5), None);
    let junctions = Ynd {
        junctions: vec![junction(0, 0, &[]); 4_097],
        ..Ynd::new()
    };
    assert_eq!(junctions.to_section(), Err(Refusal::AtLimit));
    assert!(catch_unwind(|| junctions.junction_of(1, 1).is_some()).is_err());
}

#[test]
fn grid_numbers_over_31_panic() {
    assert_eq!(ynd::area_id(31, 31), 1_023);
    for [cx, cy] in [[32, 0], [0, 32]] {
        assert!(catch_unwind(|| ynd::area_id(cx, cy)).is_err());
        assert!(catch_unwind(|| ynd::cell_bounds(cx, cy)).is_err());
        assert!(catch_unwind(|| ynd::cell_file_name(cx, cy)).is_err());
    }
}

#[test]
fn kinds_and_speeds() {
    for v in 0..=255 {
        assert_eq!(NodeSpecial::from_value(v).value(), v);
    }
    assert!(NodeSpecial::from_value(10).is_ped() && !NodeSpecial::Other(10).is_ped());
    assert_eq!(
        (NodeSpecial::StopSign.name(), NodeSpecial::Other(3).name()),
        ("StopSign".into(), "Unknown3".into())
    );
    let mut n = PathNode::new(489, 7, Vec3::new(1.3, -0.3, 0.0));
    n.set_speed(NodeSpeed::Faster);
    n.set_special(NodeSpecial::PedRoadCrossingNoWait);
    assert_eq!(
        (n.speed(), n.is_ped_node(), n.position),
        (NodeSpeed::Faster, true, Vec3::new(1.25, -0.25, 0.0))
    );
}

/// A panic names the line that asked, not one of the wrapper's.
#[test]
fn a_panic_names_the_caller() {
    static AT: std::sync::Mutex<Vec<String>> = std::sync::Mutex::new(Vec::new());
    std::panic::set_hook(Box::new(|info| {
        let at = info.location().map(|l| l.file().to_string());
        AT.lock().unwrap().extend(at);
    }));
    let mut full = Ynd::new();
    full.nodes = vec![PathNode::default(); 65_537];
    let over = Ynd {
        junctions: vec![junction(0, 0, &[]); 4_097],
        ..Ynd::new()
    };
    let caught = [
        catch_unwind(|| ynd::area_id(32, 0)).is_err(),
        catch_unwind(|| ynd::cell_bounds(0, 32)).is_err(),
        catch_unwind(|| ynd::cell_file_name(40, 2)).is_err(),
        catch_unwind(|| over.junction_of(1, 1).is_some()).is_err(),
        catch_unwind(|| full.clone().recalculate_node_indices()).is_err(),
        catch_unwind(|| full.clone().add_node(5, Vec3::ZERO).node_id).is_err(),
    ];
    let _ = std::panic::take_hook();
    assert_eq!(caught, [true; 6]);
    let here = AT
        .lock()
        .unwrap()
        .iter()
        .filter(|at| at.ends_with("tests/ynd.rs"))
        .count();
    assert!(here >= 6, "{:?}", AT.lock().unwrap());
}

/// Fields are asked where they lie in the node, and a setter changes its own alone.
#[test]
fn fields_are_asked_where_they_lie() {
    let mut node = PathNode::new(489, 7, Vec3::new(1.3, -2.6, 3.01));
    node.links = vec![PathLink::to(489, 1), PathLink::to(490, 2)];
    for flags in 0..=255 {
        node.flags1 = flags;
        let mut entry = bofrashem::Node::new(489, 7, [0.0; 3]);
        entry.flags[1] = flags;
        assert_eq!(node.special().value(), entry.special());
        assert_eq!(node.is_ped_node(), matches!(flags >> 3, 10 | 14 | 18));
        node.set_special(NodeSpecial::Other(flags));
        assert_eq!(node.flags1, (flags & 7) | flags << 3);
        node.links[1].set_lane_count_forward(flags);
        assert_eq!(node.links[1].lane_count_forward(), flags & 7);
    }
    node.set_heuristic_value(127);
    node.set_density(15);
    node.set_speed(NodeSpeed::Faster);
    assert_eq!((node.flags3, node.flags4, node.flags5), (254, 15, 6));
    assert_eq!(
        (node.area_id, node.node_id, node.position),
        (489, 7, Vec3::new(1.25, -2.5, 3.0))
    );
    assert_eq!(node.links[0], PathLink::to(489, 1));
    assert_eq!(
        (
            node.links[1].area_id,
            node.links[1].node_id,
            node.links.len()
        ),
        (490, 2, 2)
    );
}

/// What renumbering moves: links and refs follow, and floats that no file can hold stay as they are.
#[test]
fn renumbering_moves_nodes_with_all_they_have() {
    let mut ynd = Ynd::new();
    for number in [7, 3, 5] {
        let node = ynd.add_node(489, Vec3::ZERO);
        node.node_id = number;
        node.position = Vec3::new(f32::from_bits(0x7fc0_1234), 1e30, 0.1);
        node.links = [7, 3, 5]
            .map(|to| PathLink {
                length: to as u8,
                ..PathLink::to(489, to)
            })
            .to_vec();
    }
    ynd.nodes[0].set_special(NodeSpecial::PedNodeRoadCrossing);
    ynd.junction_refs = vec![NodeJunctionRef {
        area_id: 489,
        node_id: 3,
        junction_id: 4,
        unk0: 9,
    }];
    assert_eq!(ynd.renumbered(), Ok(vec![2, 0, 1]));
    assert_eq!((ynd.vehicle_node_count, ynd.ped_node_count), (2, 1));
    for (place, node) in ynd.nodes.iter().enumerate() {
        assert_eq!(node.node_id as usize, place);
        assert_eq!(
            node.links
                .iter()
                .map(|l| (l.node_id, l.length))
                .collect::<Vec<_>>(),
            [(2, 7), (0, 3), (1, 5)]
        );
        assert_eq!(node.position.x.to_bits(), 0x7fc0_1234);
    }
    assert_eq!(
        ynd.junction_refs,
        [NodeJunctionRef {
            area_id: 489,
            node_id: 0,
            junction_id: 4,
            unk0: 9
        }]
    );
}

#[cfg(feature = "container")]
#[test]
fn files_in_a_container() {
    use bofrashem::container::Bad;
    use bofrashem::ynd::{parse_ynd, serialize_ynd, Unopened};
    for name in ["dock", "hall", "yard"] {
        let ynd = sample(name);
        let file = serialize_ynd(&ynd).unwrap();
        assert_eq!(parse_ynd(&file), Ok(ynd));
        assert!(matches!(
            parse_ynd(&file[..file.len() / 2]),
            Err(Unopened::Container(Bad::Truncated { .. }))
        ));
    }
    assert_eq!(
        parse_ynd(&section("dock")),
        Err(Unopened::Container(Bad::NoMark(*b"\xb0\xe3\x61\x40")))
    );
    assert_eq!(
        parse_ynd(b"RSC8 and more"),
        Err(Unopened::Container(Bad::Gen9))
    );
    let mut damaged = section("hall");
    damaged[19] ^= 0x10;
    let refused = parse_ynd(&bofrashem::container::close(&damaged));
    assert_eq!(refused, Err(Unopened::Refused(Refusal::BadArray(0))));
    assert!(refused
        .unwrap_err()
        .to_string()
        .starts_with("refused 3 0: "));
    let mut ynd = sample("dock");
    ynd.nodes[3].links = vec![PathLink::to(1, 1); 32];
    assert_eq!(serialize_ynd(&ynd), Err(Refusal::OverThirtyOneLinks(3)));
}
