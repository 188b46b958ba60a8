//! Sets of cells whose walks cross. Run by `make bindings` at the repository's root.
use bofrashem::{
    Cell, CrossingWalk, End, Junction, Link, Location, Ref, Refusal, Round, VersionedRound, Yard,
};

const WEST: u16 = 489;
const EAST: u16 = 490;

fn to(area: u16, number: u16) -> Link {
    Link::to(area, number)
}

/// Two nodes with a link each; the first is a ped node where said so, so that renumbering takes it behind the other.
fn cell(area: u16, ped: bool, links: [Link; 2]) -> Cell {
    let mut cell = Cell::new();
    for (i, link) in links.into_iter().enumerate() {
        cell.add_node(area, [i as f32, 0.0, 0.0]).unwrap();
        cell.add_link(i, link).unwrap();
    }
    let mut first = cell.nodes()[0];
    first.set_special(if ped { 10 } else { 0 });
    cell.put_node(0, first).unwrap();
    cell
}

fn west() -> Cell {
    cell(WEST, false, [to(WEST, 1), to(EAST, 1)])
}

fn east() -> Cell {
    cell(EAST, true, [to(EAST, 1), to(WEST, 0)])
}

/// The round goes west, west, east and west again.
fn yard() -> Yard {
    let mut yard = Yard::new();
    assert_eq!((yard.join(&west()), yard.join(&east())), (Ok(0), Ok(1)));
    yard
}

fn walk(yard: &Yard) -> CrossingWalk {
    yard.crossing_walk(0, 0, &[0; 4]).unwrap()
}

fn over(at: &[[usize; 2]]) -> Vec<Location> {
    at.iter()
        .map(|&[member, place]| Location { member, place })
        .collect()
}

/// All that the two members hold, by what they write.
fn sections(yard: &Yard) -> Vec<Vec<u8>> {
    (0..yard.len()).map(|i| yard.write(i).unwrap()).collect()
}

#[test]
fn a_round_crosses() {
    let mut yard = Yard::new();
    yard.join(&west()).unwrap();
    let alone = CrossingWalk {
        end: End::Left(EAST, 1),
        visited: over(&[[0, 0], [0, 1]]),
    };
    assert_eq!(walk(&yard), alone);
    yard.join(&east()).unwrap();
    assert!(yard.is_sound());
    let way = over(&[[0, 0], [0, 1], [1, 1], [0, 0], [0, 1]]);
    assert_eq!(
        walk(&yard),
        CrossingWalk {
            end: End::Done,
            visited: way
        }
    );
    assert_eq!(yard.leave(EAST), Ok(east()));
    assert_eq!(walk(&yard), alone);
}

/// A round that says its area starts in the member of that area, whatever member is named.
#[test]
fn a_round_picks_its_member() {
    let yard = yard();
    let round = |area, start| VersionedRound {
        area,
        round: Round {
            start,
            choices: vec![0; 2],
        },
    };
    let from_east = CrossingWalk {
        end: End::Done,
        visited: over(&[[1, 1], [0, 0], [0, 1]]),
    };
    assert_eq!(
        (yard.member_of_area(EAST), yard.member_of_area(EAST ^ 1_024)),
        (Some(1), None)
    );
    assert_eq!(yard.follow(&round(Some(EAST), 1), 0), Ok(from_east.clone()));
    assert_eq!(yard.follow(&round(None, 1), 1), Ok(from_east));
    assert_eq!(yard.follow(&round(Some(7), 99), 0), Err(Refusal::OtherArea));
    assert_eq!(
        yard.follow(&round(Some(EAST), 99), 0),
        Err(Refusal::NoSuchPlace)
    );
    assert_eq!(yard.follow(&round(None, 1), 2), Err(Refusal::NoSuchPlace));
}

/// Renumbering a member leaves the crossing walk the same but for places and numbers; a plain walk's end changes.
#[test]
fn a_round_crosses_after_renumbering() {
    let mut yard = yard();
    let (before, plain) = (
        walk(&yard),
        yard.cell_of(WEST).unwrap().walk(0, &[0; 4]).unwrap(),
    );
    assert_eq!(yard.renumber(1), Ok(vec![1, 0]));
    assert!(yard.is_sound());
    let after = walk(&yard);
    let moved = |l: &Location| {
        if l.member == 1 {
            Location {
                place: [1, 0][l.place],
                ..*l
            }
        } else {
            *l
        }
    };
    assert_eq!(
        (after.end, after.visited),
        (
            before.end,
            before.visited.iter().map(moved).collect::<Vec<_>>()
        )
    );
    assert_eq!(plain.end, End::Left(EAST, 1));
    assert_eq!(
        yard.cell_of(WEST).unwrap().walk(0, &[0; 4]).unwrap().end,
        End::Left(EAST, 0)
    );
    assert_eq!(
        yard.write_then_read(1).map(|s| s.len()),
        Ok(yard.write(1).unwrap().len())
    );
    assert_eq!(walk(&yard).end, End::Done);
}

#[test]
fn refused_calls_leave_all() {
    let mut yard = yard();
    let before = sections(&yard);
    assert_eq!(yard.join(&west()), Err(Refusal::AreaInSet));
    assert_eq!(yard.leave(7), Err(Refusal::NoSuchPlace));
    assert_eq!(yard.cell_of(7), Err(Refusal::NoSuchPlace));
    assert_eq!(yard.renumber(2), Err(Refusal::NoSuchPlace));
    assert_eq!(yard.crossing_walk(2, 0, &[]), Err(Refusal::NoSuchPlace));
    assert_eq!(yard.crossing_walk(1, 2, &[]), Err(Refusal::NoSuchPlace));
    assert_eq!(
        (yard.write(2), yard.write_then_read(2)),
        (Err(Refusal::NoSuchPlace), Err(Refusal::NoSuchPlace))
    );
    assert_eq!(
        yard.member(2).map(|m| m.area()).unwrap_err(),
        Refusal::NoSuchPlace
    );
    let mut member = yard.member_mut(0).unwrap();
    assert_eq!(member.add_link(2, to(WEST, 0)), Err(Refusal::NoSuchPlace));
    assert_eq!(
        member.set_links(0, &[to(WEST, 1); 256]),
        Err(Refusal::AtLimit)
    );
    assert_eq!(
        member.add_junction(Junction::new([0.0; 2], [0.0; 2], 2, 2), &[1]),
        Err(Refusal::ValuesNotSize)
    );
    assert_eq!(member.truncate_nodes(3), Err(Refusal::NoSuchPlace));
    assert_eq!((yard.len(), sections(&yard)), (2, before));
}

/// A write that is refused in one member changes none.
#[test]
fn a_refused_write_changes_no_member() {
    let mut yard = yard();
    yard.member_mut(1)
        .unwrap()
        .set_links(0, &[to(EAST, 1); 32])
        .unwrap();
    let before = format!("{yard:?}");
    assert_eq!(yard.write(1), Err(Refusal::OverThirtyOneLinks(0)));
    assert_eq!(yard.write_then_read(1), Err(Refusal::OverThirtyOneLinks(0)));
    assert_eq!(format!("{yard:?}"), before);
}

/// Each edit of a member is the cell's own, wherever the member stands; its parts grow, and the others stay.
#[test]
fn a_member_is_edited_as_its_cell() {
    for place in [0, 1] {
        let (mut yard, mut cell) = (yard(), [west(), east()][place].clone());
        let area = [WEST, EAST][place];
        let other = yard.cell_of([EAST, WEST][place]);
        let junction = Junction::new([1.0, 2.0], [0.0, 3.0], 2, 1);
        let mut node = cell.nodes()[1];
        node.street_name = 77;
        let mut m = yard.member_mut(place).unwrap();
        for k in 0..5u16 {
            assert_eq!(
                m.add_node(area, [k as f32, -0.3, 2.0]),
                cell.add_node(area, [k as f32, -0.3, 2.0])
            );
            assert_eq!(
                m.add_link(k as usize, to(area, k)),
                cell.add_link(k as usize, to(area, k))
            );
            let r = Ref {
                area_id: area,
                node_id: k,
                junction_id: k,
                unk0: 0,
            };
            assert_eq!(m.add_ref(r), cell.add_ref(r));
            assert_eq!(
                m.add_junction(junction, &[k as u8, 9]),
                cell.add_junction(junction, &[k as u8, 9])
            );
        }
        m.put_node(1, node).unwrap();
        cell.put_node(1, node).unwrap();
        m.set_position(2, [5.1, 6.0, 7.0]).unwrap();
        cell.set_position(2, [5.1, 6.0, 7.0]).unwrap();
        m.put_link(0, 0, to(area, 3)).unwrap();
        cell.put_link(0, 0, to(area, 3)).unwrap();
        m.set_links(1, &[to(7, 7); 9]).unwrap();
        cell.set_links(1, &[to(7, 7); 9]).unwrap();
        m.put_ref(4, Ref::default()).unwrap();
        cell.put_ref(4, Ref::default()).unwrap();
        m.put_junction(3, Junction::new([4.0; 2], [1.0; 2], 1, 2))
            .unwrap();
        cell.put_junction(3, Junction::new([4.0; 2], [1.0; 2], 1, 2))
            .unwrap();
        m.put_height(3, 1, 200).unwrap();
        cell.put_height(3, 1, 200).unwrap();
        m.set_heightmap(0, 3, 2, &[1, 2, 3, 4, 5, 6]).unwrap();
        cell.set_heightmap(0, 3, 2, &[1, 2, 3, 4, 5, 6]).unwrap();
        m.truncate_nodes(6).unwrap();
        cell.truncate_nodes(6).unwrap();
        m.truncate_junctions(4).unwrap();
        cell.truncate_junctions(4).unwrap();
        m.truncate_refs(3).unwrap();
        cell.truncate_refs(3).unwrap();
        m.put_words(5, [6, 7], [1, 2, 3, 4, 5, 6, 7]).unwrap();
        cell.set_vft(5);
        cell.set_vehicle_node_count(6);
        cell.set_ped_node_count(7);
        cell.set_unknowns([1, 2, 3, 4, 5, 6, 7]);
        assert_eq!(yard.cell_of(area).as_ref(), Ok(&cell));
        assert_eq!(yard.cell_of([EAST, WEST][place]), other);
        assert_eq!(yard.write(place), cell.write());
        shows_the_same(&yard, place, &cell);
        assert_eq!(yard.leave(area), Ok(cell));
    }
}

/// Lookups, entries and what a walk shows, beside the cell's own.
fn shows_the_same(yard: &Yard, place: usize, cell: &Cell) {
    let m = yard.member(place).unwrap();
    assert_eq!(
        (m.area(), m.vft(), m.kind_counts()),
        (cell.area(), cell.vft(), cell.kind_counts())
    );
    assert_eq!(
        (m.unknowns(), m.counts().nodes),
        (cell.unknowns(), cell.nodes().len())
    );
    assert_eq!(
        (m.counts().junctions, m.counts().refs),
        (cell.junctions().len(), cell.refs().len())
    );
    for p in 0..=cell.nodes().len() {
        assert_eq!(m.get_node(p).ok(), cell.nodes().get(p).copied());
        assert_eq!(m.shown_node(p), cell.shown_node(p));
        assert_eq!(m.node(p as u16), cell.node(p as u16));
        let area = cell.nodes()[0].area_id;
        assert_eq!(
            m.junction_of(area, p as u16),
            cell.junction_of(area, p as u16)
        );
        for k in 0..3 {
            assert_eq!(
                m.get_link(p, k).ok(),
                cell.links_of(p).ok().and_then(|l| l.get(k)).copied()
            );
            assert_eq!(m.shown_link(p, k as u8), cell.shown_link(p, k as u8));
        }
    }
    for p in 0..=cell.junctions().len() {
        assert_eq!(m.get_junction(p).ok(), cell.junctions().get(p).copied());
        assert_eq!(m.shown_junction(p), cell.shown_junction(p));
        assert_eq!(
            m.get_height(p, 1).ok(),
            cell.values_of(p).ok().and_then(|v| v.get(1)).copied()
        );
    }
    assert_eq!(m.get_ref(0).ok(), cell.refs().first().copied());
    assert_eq!(m.get_ref(cell.refs().len()), Err(Refusal::NoSuchPlace));
}

#[test]
fn a_yard_has_limits() {
    let mut yard = Yard::new();
    assert!(yard.is_empty() && yard.is_sound());
    for area in 1..=9 {
        assert_eq!(
            yard.join(&cell(area, false, [to(area, 1); 2])),
            Ok(area as usize - 1)
        );
    }
    assert_eq!(yard.join(&Cell::new()), Err(Refusal::AtLimit));
    let mut full = Yard::new();
    full.join(&west()).unwrap();
    full.join(&Cell::new()).unwrap();
    let mut m = full.member_mut(1).unwrap();
    for _ in 0..65_534 {
        m.add_node(5, [0.0; 3]).unwrap();
    }
    assert_eq!(m.add_node(5, [0.0; 3]), Err(Refusal::AtLimit));
    assert_eq!(m.look().counts().nodes, 65_534);
    assert_eq!(
        full.member_mut(0).unwrap().add_node(WEST, [0.0; 3]),
        Err(Refusal::AtLimit)
    );
}
