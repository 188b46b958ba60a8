//! What the types are: for threads, as errors, as copies. Run by `make bindings` at the repository's root.
use bofrashem::{
    ynd, Cell, Counts, CrossingWalk, Link, Member, MemberMut, Node, Path, Refusal, Round, Walk,
    Yard,
};
use std::error::Error;

fn crosses_threads<T: Send + Sync>() {}
fn is_an_error<T: Error + Send + Sync + 'static>() {}

#[test]
fn types_cross_threads() {
    crosses_threads::<Cell>();
    crosses_threads::<Yard>();
    crosses_threads::<Member<'_>>();
    crosses_threads::<MemberMut<'_>>();
    crosses_threads::<(Node, Link, Counts, Round, Walk, CrossingWalk, Path)>();
    crosses_threads::<Refusal>();
    crosses_threads::<(ynd::Ynd, ynd::NodeDictionary)>();
    is_an_error::<Refusal>();
}

/// Nine threads read one yard at the same time.
#[test]
fn a_yard_is_read_by_many() {
    let mut cell = Cell::new();
    for x in 0..300u16 {
        cell.add_node(489, [x as f32, 0.0, 0.0]).unwrap();
        cell.add_link(x as usize, Link::to(489, (x + 1) % 300))
            .unwrap();
    }
    let mut yard = Yard::new();
    yard.join(&cell).unwrap();
    std::thread::scope(|s| {
        for start in 0..9 {
            let (yard, cell) = (&yard, &cell);
            s.spawn(move || {
                let crossing = yard.crossing_walk(0, start, &[0; 500]).unwrap();
                let plain = cell.walk(start, &[0; 500]).unwrap();
                assert_eq!(
                    crossing.visited.iter().map(|l| l.place).collect::<Vec<_>>(),
                    plain.visited
                );
            });
        }
    });
}

#[test]
fn a_refusal_says_what_it_is() {
    let asked = || -> Result<(), Box<dyn Error>> { Ok(Cell::new().put_node(3, Node::default())?) };
    let words = "refused 13 0: no such place or member, area not in the set, \
        round's start that no node has, or grid number over 31";
    assert_eq!(asked().unwrap_err().to_string(), words);
    assert_eq!(
        (
            Refusal::Unknown(20, 4).number(),
            Refusal::Unknown(20, 4).place()
        ),
        (20, 4)
    );
}
