//! The sample yards, and the refusals that a caller can meet. Run by `make bindings` at the repository's root.
use bofrashem::{count, numbers, Cell, End, Junction, Link, NearNode, Node, Ref, Refusal};

fn yard(name: &str) -> Vec<u8> {
    std::fs::read(format!(
        "{}/../../samples/{name}.section",
        env!("CARGO_MANIFEST_DIR")
    ))
    .expect("a sample yard")
}

fn read(name: &str) -> Cell {
    Cell::read(&yard(name), &[]).expect("a sample yard is read")
}

#[test]
fn counts_of_the_samples() {
    let counts = |name| {
        let c = count(&yard(name), &[]).unwrap();
        [c.nodes, c.links, c.junctions, c.heights, c.refs]
    };
    assert_eq!(counts("dock"), [13, 22, 0, 0, 0]);
    assert_eq!(counts("hall"), [18, 42, 2, 34, 2]);
    assert_eq!(counts("yard"), [5000, 19700, 0, 0, 0]);
}

#[test]
fn a_ramp_stands_over_the_floor() {
    let dock = read("dock");
    let over: Vec<_> = dock
        .nodes()
        .iter()
        .filter(|n| n.position[..2] == [-3320.0, -256.0])
        .map(|n| n.position[2])
        .collect();
    assert_eq!(over, [0.0, 3.0]);
}

#[test]
fn a_file_that_is_too_short_is_refused() {
    let e = Cell::read(&[0; 111], &[]).unwrap_err();
    assert_eq!((e, e.number(), e.place()), (Refusal::FewSystemBytes, 1, 0));
    assert_eq!(e.to_string(), "refused 1 0: 1 to 111 system bytes");
    assert!(Cell::read(&[0; 112], &[]).unwrap().nodes().is_empty());
}

#[test]
fn a_yard_not_drawn_yet_is_the_new_cell() {
    let mut cell = Cell::read(&[], &[]).unwrap();
    assert_eq!(cell, Cell::new());
    assert_eq!(
        (cell.vft(), cell.unknowns()),
        (0x4061_E3B0, [0, 0, 1, 0, 0, 0, 0])
    );
    assert_eq!(Cell::read(&[], &[7; 3]).unwrap(), cell);
    assert_eq!(Cell::read(&[0], &[]).unwrap_err(), Refusal::FewSystemBytes);
    let section = cell.write_then_read().unwrap();
    assert_eq!((section.len(), &cell), (1152, &Cell::new()));
    assert_eq!(Cell::read(&section, &[]).unwrap(), cell);
}

#[test]
fn a_bad_file_names_its_place() {
    let mut bad = yard("hall");
    bad[40..44].copy_from_slice(&0x7000_0000u32.to_le_bytes());
    assert_eq!(Cell::read(&bad, &[]).unwrap_err(), Refusal::BadArray(1));
    let mut bad = yard("hall");
    let nodes = u32::from_le_bytes(bad[16..20].try_into().unwrap()) as usize - 0x5000_0000;
    bad[nodes + 5 * 40 + 26..][..2].copy_from_slice(&60_000u16.to_le_bytes());
    assert_eq!(Cell::read(&bad, &[]).unwrap_err(), Refusal::BadLinkRange(5));
}

#[test]
fn walks_are_the_same_after_renumbering_and_writing() {
    for name in ["dock", "hall", "yard"] {
        let mut cell = read(name);
        assert!(cell.is_sound());
        let before = cell.clone();
        let places = cell.renumber().unwrap();
        let section = cell.write_then_read().unwrap();
        assert_eq!(section.len(), yard(name).len());
        for start in (0..before.nodes().len()).step_by(7) {
            let choices: Vec<u8> = (0..40).map(|i| ((start + i) % 3) as u8).collect();
            let (a, b) = (
                before.walk(start, &choices).unwrap(),
                cell.walk(places[start], &choices).unwrap(),
            );
            assert_eq!(a.end, b.end);
            assert_eq!(
                a.visited.iter().map(|&p| places[p]).collect::<Vec<_>>(),
                b.visited
            );
            for (&p, &q) in a.visited.iter().zip(&b.visited) {
                assert_eq!(before.shown_node(p), cell.shown_node(q));
                assert_eq!(before.shown_link(p, 1), cell.shown_link(q, 1));
            }
        }
    }
}

#[test]
fn renumbering_puts_ped_nodes_last() {
    let mut cell = read("yard");
    let places = cell.renumber().unwrap();
    assert_eq!(cell.kind_counts(), [4500, 500]);
    assert_eq!(places[0], 4500);
    assert!(cell
        .nodes()
        .iter()
        .enumerate()
        .all(|(i, n)| n.node_id as usize == i && n.is_ped_node() == (i >= 4500)));
}

#[test]
fn heightmaps_are_shown() {
    let hall = read("hall");
    let at = hall.junction_of(489, 16).unwrap();
    let seen = hall.shown_junction(at).unwrap();
    assert_eq!(
        (seen.width, seen.height, &seen.values[..]),
        (4, 4, hall.values_of(at).unwrap())
    );
    assert_eq!(seen.values, (0..16).map(|i| 16 * i).collect::<Vec<u8>>());
    assert_eq!(hall.shown_node(16).unwrap().junction, Some(at));
    assert_eq!(hall.shown_junction(2), Err(Refusal::NoSuchPlace));
}

#[test]
fn a_cell_made_by_edits_is_written_and_read() {
    let mut cell = Cell::new();
    for i in 0..3 {
        assert_eq!(cell.add_node(489, [i as f32, -0.3, 2.0]), Ok(i));
    }
    for to in [1, 2] {
        cell.add_link(0, Link::to(489, to)).unwrap();
    }
    cell.add_link(
        1,
        Link {
            length: 9,
            ..Link::to(7, 7)
        },
    )
    .unwrap();
    let junction = Junction::new([1.0, 2.0], [0.0, 3.0], 2, 3);
    assert_eq!(
        cell.add_junction(junction, &[1, 2, 3]),
        Err(Refusal::ValuesNotSize)
    );
    assert_eq!(cell.add_junction(junction, &[1, 2, 3, 4, 5, 6]), Ok(0));
    cell.add_ref(Ref {
        area_id: 489,
        node_id: 1,
        junction_id: 0,
        unk0: 0,
    })
    .unwrap();
    let mut node = cell.nodes()[2];
    node.set_special(10);
    node.street_name = 77;
    cell.put_node(2, node).unwrap();
    cell.put_height(0, 5, 99).unwrap();
    let again = Cell::read(&cell.write().unwrap(), &[]).unwrap();
    assert_eq!(again, cell);
    assert_eq!(
        again.links_of(0).unwrap(),
        [Link::to(489, 1), Link::to(489, 2)]
    );
    assert_eq!(again.values_of(0).unwrap(), [1, 2, 3, 4, 5, 99]);
    assert_eq!(again.walk(0, &[0, 0]).unwrap().end, End::Left(7, 7));
    assert_eq!(
        (again.node(2), again.node(3), again.area()),
        (Some(2), None, Some(489))
    );
    assert_eq!(cell.add_link(3, Link::default()), Err(Refusal::NoSuchPlace));
    assert_eq!(cell.walk(3, &[]), Err(Refusal::NoSuchPlace));
}

#[test]
fn links_have_limits() {
    let mut cell = Cell::new();
    cell.add_node(1, [0.0; 3]).unwrap();
    for _ in 0..31 {
        cell.add_link(0, Link::to(1, 0)).unwrap();
    }
    assert_eq!(cell.write().map(|s| s.len()), Ok(1152 + 31 * 8 + 8 + 40));
    for _ in 31..255 {
        cell.add_link(0, Link::to(1, 0)).unwrap();
    }
    assert_eq!(cell.add_link(0, Link::to(1, 0)), Err(Refusal::AtLimit));
    let before = cell.clone();
    assert_eq!(cell.write_then_read(), Err(Refusal::OverThirtyOneLinks(0)));
    assert_eq!(cell, before);
}

/// The hall's nodes by their own definition, beside the calls.
#[test]
fn near_nodes_of_the_hall() {
    let hall = read("hall");
    let square = |p: usize, [x, y]: [i16; 2]| {
        let [a, b, _] = numbers::quantise(hall.nodes()[p].position).map(i64::from);
        ((a - x as i64).pow(2) + (b - y as i64).pow(2)) as u64
    };
    let all = 0..hall.nodes().len();
    for point in [[0, 0], [40, 24], [-32768, 32767], [32767, 32767]] {
        for radius in [0, 1, 16, 40, 400, 65_535] {
            let near = |&p: &usize| square(p, point) <= (radius as u64).pow(2);
            let mut want: Vec<usize> = all.clone().filter(near).collect();
            want.sort_by_key(|&p| (square(p, point), p));
            assert_eq!(hall.within(point, radius), want, "{point:?} {radius}");
        }
        let best = hall.nearest(point).unwrap();
        assert_eq!(best.squared_distance, square(best.place, point));
        assert_eq!(
            Some(best.place),
            all.clone().min_by_key(|&p| square(p, point))
        );
    }
}

#[test]
fn near_nodes_at_the_corners() {
    let mut cell = Cell::new();
    assert_eq!(
        (cell.nearest([0, 0]), cell.within([0, 0], 65_535)),
        (None, vec![])
    );
    cell.add_node(489, [-8192.0, -8192.0, 0.0]).unwrap();
    cell.add_node(489, [3.0, 4.0, 0.0]).unwrap();
    cell.add_node(489, [-4.0, 3.0, 0.0]).unwrap();
    let corner = NearNode {
        place: 1,
        squared_distance: 32_755 * 32_755 + 32_751 * 32_751,
    };
    assert_eq!(cell.nearest([32767, 32767]), Some(corner));
    assert!(!cell.within([32767, 32767], 65_535).contains(&0));
    assert_eq!(
        cell.nearest([0, 0]),
        Some(NearNode {
            place: 1,
            squared_distance: 400
        })
    );
    assert_eq!(
        (cell.within([0, 0], 20), cell.within([0, 0], 19)),
        (vec![1, 2], vec![])
    );
    assert_eq!(cell.within([-17, 12], 65_535), vec![2, 1, 0]);
}

#[test]
fn numbers_of_document_01() {
    assert_eq!(
        numbers::quantise([-0.3, 8192.0, -1024.0]),
        [-1, 32767, -32768]
    );
    assert_eq!(numbers::quantise([f32::NAN; 3]), [0; 3]);
    assert_eq!(numbers::dequantise([-1, 4, 32]), [-0.25, 1.0, 1.0]);
    assert_eq!(
        numbers::cell_for_position(-1.0 / 8192.0, -1.0 / 2048.0),
        [16, 15]
    );
    assert_eq!(numbers::length_between([0.0; 3], [3.0, 4.0, 0.0]), 5);
    assert_eq!(numbers::cell_of_area(1177), [25, 4]);
    assert!(numbers::is_island_area(1177) && numbers::same_cell(1177, 153));
    assert_eq!(numbers::area_id([32, 0]), Err(Refusal::NoSuchPlace));
    assert_eq!(
        numbers::cell_file_name([25, 4]).as_deref(),
        Ok("nodes153.ynd")
    );
    assert_eq!(
        numbers::area_id_from_file_name(b"a/NODES+0153.ynd"),
        Some(153)
    );
    assert_eq!(numbers::cell_bounds([16, 16]), Ok([0.0, 0.0, 512.0, 512.0]));
}

#[test]
fn fields_of_a_node() {
    let mut node = Node::new(489, 3, [1.1, 0.0, 0.0]);
    assert_eq!(node.position, [1.0, 0.0, 0.0]);
    node.set_highway(true);
    node.set_speed(2);
    assert!(
        node.highway() && node.speed() == 2 && !node.tunnel() && node.flags == [0, 0, 64, 0, 0, 4]
    );
    assert!(bofrashem::special_is_ped(14) && !bofrashem::special_is_ped(15));
}

#[test]
fn cells_go_between_threads() {
    let hall = std::sync::Arc::new(read("hall"));
    let walk = |i| {
        let hall = hall.clone();
        std::thread::spawn(move || hall.walk(i, &[0; 200]).unwrap().visited.len())
    };
    let walks: Vec<_> = (0..4).map(walk).collect();
    for walk in walks {
        assert_eq!(walk.join().unwrap(), 201);
    }
}

#[test]
fn shortest_paths_are_walked() {
    for name in ["dock", "hall"] {
        let cell = read(name);
        let n = cell.nodes().len();
        for (from, to) in (0..n).flat_map(|p| (0..n).map(move |q| (p, q))) {
            let path = match cell.shortest_path(from, to) {
                Ok(path) => path,
                Err(e) => {
                    assert_eq!((e.number(), e.place(), from == to), (17, 0, false));
                    continue;
                }
            };
            let walk = cell.walk(from, &path.choices).unwrap();
            assert_eq!((walk.end, walk.visited.last()), (End::Done, Some(&to)));
            assert_eq!(walk.visited, path.places);
            assert_eq!(from == to, path.choices.is_empty());
        }
        assert_eq!(cell.shortest_path(0, n), Err(Refusal::NoSuchPlace));
    }
}

#[test]
fn a_longer_way_round_with_fewer_metres() {
    let mut cell = Cell::new();
    for _ in 0..3 {
        cell.add_node(489, [0.0; 3]).unwrap();
    }
    for (from, to, length) in [(0, 2, 90), (0, 1, 30), (1, 2, 40)] {
        cell.add_link(
            from,
            Link {
                area_id: 489,
                node_id: to,
                length,
                ..Link::default()
            },
        )
        .unwrap();
    }
    let path = cell.shortest_path(0, 2).unwrap();
    assert_eq!(
        (path.distance, path.choices, path.places),
        (70, vec![1, 0], vec![0, 1, 2])
    );
    assert_eq!(cell.shortest_path(2, 0), Err(Refusal::Unreachable));
}
