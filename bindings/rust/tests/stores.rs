//! Words, lists and heightmaps stored as a whole. Run by `make bindings` at the repository's root.
use bofrashem::{Cell, Junction, Link, Ref, Refusal};

fn to(number: u16) -> Link {
    Link::to(489, number)
}

/// Two nodes, with two links and one, and two junctions, with two values and one.
fn small() -> Cell {
    let mut cell = Cell::new();
    for i in 0..2 {
        cell.add_node(489, [i as f32, 0.0, 0.0]).unwrap();
    }
    for (at, number) in [(0, 1), (0, 2), (1, 3)] {
        cell.add_link(at, to(number)).unwrap();
    }
    for (width, values) in [(2, &[11, 12][..]), (1, &[13])] {
        cell.add_junction(Junction::new([1.0, 2.0], [0.0, 3.0], width, 1), values)
            .unwrap();
    }
    cell.add_ref(Ref {
        area_id: 489,
        node_id: 1,
        junction_id: 0,
        unk0: 0,
    })
    .unwrap();
    cell
}

#[test]
fn links_are_replaced() {
    for n in [0, 1, 2, 3, 31] {
        let (mut cell, links) = (small(), (0..n).map(to).collect::<Vec<_>>());
        cell.set_links(0, &links).unwrap();
        assert_eq!(
            (cell.links_of(0), cell.links_of(1)),
            (Ok(&links[..]), Ok(&[to(3)][..]))
        );
        assert_eq!(cell.link_count(), n as usize + 1);
        assert_eq!(
            cell.write().map(|s| s.len()),
            Ok(cell.written_length().unwrap())
        );
        assert_eq!(Cell::read(&cell.write().unwrap(), &[]), Ok(cell.clone()));
        let again = cell.clone();
        cell.write_then_read().unwrap();
        assert_eq!(cell, again);
    }
}

#[test]
fn heightmaps_are_replaced() {
    for (width, height) in [(0, 0), (1, 1), (1, 2), (2, 2), (5, 7), (9, 0)] {
        let (mut cell, values) = (small(), (0..width * height).collect::<Vec<u8>>());
        cell.set_heightmap(0, width, height, &values).unwrap();
        assert_eq!(
            (cell.values_of(0), cell.values_of(1)),
            (Ok(&values[..]), Ok(&[13][..]))
        );
        assert_eq!(
            (cell.junctions()[0].width, cell.junctions()[0].height),
            (width, height)
        );
        assert_eq!(Cell::read(&cell.write().unwrap(), &[]), Ok(cell));
    }
}

#[test]
fn lists_are_cut() {
    let mut cell = small();
    assert_eq!(cell.truncate_nodes(3), Err(Refusal::NoSuchPlace));
    assert_eq!(cell.truncate_refs(2), Err(Refusal::NoSuchPlace));
    assert_eq!(cell, small());
    cell.truncate_nodes(1).unwrap();
    cell.truncate_junctions(1).unwrap();
    cell.truncate_refs(0).unwrap();
    assert_eq!(
        (cell.nodes(), cell.links_of(0)),
        (&small().nodes()[..1], Ok(&[to(1), to(2)][..]))
    );
    assert_eq!(
        (cell.junctions().len(), cell.values_of(0), cell.refs().len()),
        (1, Ok(&[11, 12][..]), 0)
    );
    assert_eq!(cell.add_node(7, [0.0; 3]), Ok(1));
    assert_eq!(cell.links_of(1), Ok(&[][..]));
    assert_eq!(Cell::read(&cell.write().unwrap(), &[]), Ok(cell));
}

#[test]
fn own_words_are_stored() {
    let mut cell = small();
    cell.set_vft(7);
    cell.set_vehicle_node_count(8);
    cell.set_ped_node_count(9);
    cell.set_unknowns([1, 2, 3, 4, 5, 6, 7]);
    assert_eq!(
        (cell.vft(), cell.kind_counts(), cell.unknowns()),
        (7, [8, 9], [1, 2, 3, 4, 5, 6, 7])
    );
    assert_eq!(
        (cell.nodes(), cell.refs()),
        (small().nodes(), small().refs())
    );
    let again = Cell::read(&cell.write().unwrap(), &[]).unwrap();
    assert_eq!(again, cell);
    cell.renumber().unwrap();
    assert_eq!((cell.vft(), cell.kind_counts()), (7, [2, 0]));
}

#[test]
fn a_refused_store_changes_nothing() {
    let mut cell = small();
    assert_eq!(cell.set_links(2, &[]), Err(Refusal::NoSuchPlace));
    assert_eq!(cell.set_links(0, &[to(1); 256]), Err(Refusal::AtLimit));
    assert_eq!(cell.set_heightmap(2, 0, 0, &[]), Err(Refusal::NoSuchPlace));
    assert_eq!(
        cell.set_heightmap(0, 2, 2, &[1, 2, 3]),
        Err(Refusal::ValuesNotSize)
    );
    assert_eq!(cell, small());
    assert_eq!(cell.set_links(0, &[to(1); 255]), Ok(()));
}
