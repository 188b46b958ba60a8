//! The library is found and linked. Run by `make bindings` at the repository's root.
use bofrashem_sys as sys;

#[test]
fn a_call_is_answered() {
    let (mut area, mut place) = (7, 7);
    let accepted = unsafe { sys::ynd_area_id(9, 16, &mut area, &mut place) };
    assert_eq!((accepted, area, place), (sys::YND_ACCEPTED, 521, 0));
    let refused = unsafe { sys::ynd_area_id(32, 0, &mut area, &mut place) };
    assert_eq!((refused, area, place), (sys::YND_NO_SUCH_PLACE, 521, 0));
}

#[test]
fn a_new_cell_has_the_default_words() {
    let mut cell = sys::ynd_cell {
        node_count: 7,
        ..Default::default()
    };
    unsafe { sys::ynd_new(&mut cell) };
    assert_eq!((cell.node_count, cell.unknowns), (0, [0, 0, 1, 0, 0, 0, 0]));
}
