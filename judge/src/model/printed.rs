//! T-11 and T-13, from their sentences: round files of either version, and the round on paper.
use super::cell::Cell;
use super::read::read_into;
use super::rounds::{self, Round, BEFORE};
use super::sections::le;
use super::steps::steps;
use super::walk::End;
use super::{refuse_if, room, Answer, Refused};

/// The mark and version 2, behind which the area stands.
pub const HEAD_TWO: [u8; 5] = [b'R', b'N', b'D', 2, 0];
/// What T-13 lends: entries of the five lists, choices, visited places; and how long an input may be.
pub const LENT: [usize; 5] = [1_024, 8_192, 256, 65_536, 1_024];
pub const CHOICES: usize = 65_536;
pub const VISITED: usize = 16_384;
pub const MOST_INPUT: usize = 65_536;

/// 15 for every version but 1 and 2; 16 by the length of the version found; then 7 at 8. With the area of version 2.
pub fn read_version(file: &[u8], lent: usize) -> Answer<(Option<u16>, Round)> {
    if !file.starts_with(&HEAD_TWO) { return Ok((None, rounds::read(file, lent)?)); }
    refuse_if(file.len() < BEFORE + 2, 16, 0)?;
    let number = |at: usize| u16::from_le_bytes([file[at], file[at + 1]]);
    refuse_if(file.len() != BEFORE + 2 + number(9) as usize, 16, 0)?;
    room(8, &[file.len() - BEFORE - 2], &[lent])?;
    Ok((Some(number(5)), Round { start: number(7), choices: file[BEFORE + 2..].to_vec() }))
}

/// What is printed of an input, and the answer behind it: none where the frame is bad.
pub fn printed(input: &[u8]) -> (String, Option<Answer<End>>) {
    let Some((section, file)) = framed(input) else { return ("bad input\n".into(), None) };
    match followed(section, file) {
        Ok((text, end)) => (text, Some(Ok(end))),
        Err(Refused(number, place)) => (format!("refused {number}\n"), Some(Err(Refused(number, place)))),
    }
}

fn framed(input: &[u8]) -> Option<(&[u8], &[u8])> {
    if input.len() > MOST_INPUT || input.len() < 4 { return None; }
    let stated = le(input, 0, 4) as usize;
    if input.len() - 4 < stated { return None; }
    Some(input[4..].split_at(stated))
}

fn followed(section: &[u8], file: &[u8]) -> Answer<(String, End)> {
    let cell = read_into(section, &[], LENT)?;
    let (area, round) = read_version(file, CHOICES)?;
    refuse_if(area.is_some_and(|a| a != cell.area()), 19, 0)?;
    let w = rounds::follow(&cell, cell.counts(), LENT, &round, VISITED)?;
    let head = format!("round area {} choices {}\n", cell.area(), round.choices.len());
    let lines: String = w.places.iter().enumerate().map(|(k, &p)| line(&cell, k, p)).collect();
    let end = match w.end {
        End::Done => "end done\n".into(),
        End::NoLink => "end no-link\n".into(),
        End::NoNode => "end no-node\n".into(),
        End::Left(area, number) => format!("end left {area} {number}\n"),
    };
    Ok((head + &lines + &end, w.end))
}

fn line(cell: &Cell, k: usize, place: usize) -> String {
    let n = &cell.nodes[place];
    let [x, y, z] = [(0, 4.0), (1, 4.0), (2, 32.0)].map(|(i, scale)| steps(n.position[i], scale));
    format!("{k} node {} x {x} y {y} z {z}\n", n.node_id)
}
