//! Kinds 10 and 11: links added to a bare node, which is written; a junction added.
use super::cells::told;
use super::Field::{U16, U8};
use super::Records;
use crate::model::cell::{Cell, Junction, Link};
use crate::model::{edit, write, Answer};
use crate::rust;

const LINKS: u8 = 10;
const JUNCTION: u8 = 11;

/// What the program has room for.
const MOST_SECTION: usize = 8_192;

pub fn add(to: &mut Records) {
    for (place, n, lent) in [(0, 0, 300), (0, 31, 31), (0, 32, 300), (0, 255, 300), (0, 256, 300), (1, 1, 300),
        (0, 4, 3)] {
        links(to, place, n, lent);
    }
    for (width, height, n) in [(0, 9, 0), (2, 3, 6), (2, 3, 5), (2, 3, 7), (255, 1, 255), (0, 0, 1)] {
        junction(to, width, height, n);
    }
}

/// Links added to a cell of one bare node, which is then written.
fn links(to: &mut Records, place: usize, n: usize, lent: usize) {
    let mut cell = Cell { unknowns: [0, 0, 1, 0, 0, 0, 0], ..Cell::default() };
    edit::add_node(&mut cell, 1, [0; 3], [1; 5]).expect("a first node");
    let adding: Answer<()> = (0..n)
        .try_for_each(|_| edit::add_link(&mut cell, place, Link { area_id: 1, ..Link::default() },
            [1, lent, 1, 1, 1]));
    let writing = write::write(&cell, &mut vec![0; MOST_SECTION]);
    assert_eq!(writing.is_err(), rust::write(&rust::ynd_of(&cell)).is_err());
    let mut fields = vec![U8(place as u8), U16(n as u16), U16(lent as u16)];
    fields.extend(told(&adding));
    fields.extend(told(&writing));
    fields.push(U16(writing.unwrap_or(0) as u16));
    to.add(LINKS, &fields);
}

/// width, height, how many values; number and place.
fn junction(to: &mut Records, width: u8, height: u8, n: usize) {
    let adding = edit::add_junction(&mut Cell::default(),
        Junction { width, height, values: vec![7; n], ..Junction::default() }, [0, 0, 1, 300, 0]);
    let [number, place] = told(&adding);
    to.add(JUNCTION, &[U8(width), U8(height), U16(n as u16), number, place]);
}
