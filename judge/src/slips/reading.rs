//! Wrong readings.
use super::{any, on, Slip};
use crate::model::records::{ADDRESS_AT, COUNT_AT, ROOT};
use crate::model::sections::{le, put_le, SYSTEM};
use crate::model::{Answer, Refused};
use crate::port::cells::count_right;
use crate::port::memory::Memory;

/// The system section as the wrong program takes it.
pub fn section(system: &[u8]) -> Option<Vec<u8>> {
    if !any() || system.len() < ROOT { return None; }
    let mut wrong = system.to_vec();
    if on(Slip::ReadsAt7) {
        for at in ADDRESS_AT { if wrong[at + 3] >> 4 == 7 { wrong[at + 3] ^= 0x10; } }
    } else if on(Slip::FirstRefCount) {
        wrong.copy_within(88..90, 90);
    } else if on(Slip::StartOnlyWithLinks) {
        // A start of 0 is never over; it is not kept, so nothing else changes.
        let (address, count) = (le(system, ADDRESS_AT[0], 8), le(system, COUNT_AT[0], 4) as usize);
        let from = address.wrapping_sub(SYSTEM) as usize;
        if address & !0x0FFF_FFFF != SYSTEM || from + 40 * count > system.len() { return None; }
        for b in wrong[from..from + 40 * count].chunks_mut(40) { if b[37] < 8 { b[26..28].fill(0); } }
    } else if on(Slip::ValueStartOnly) || on(Slip::Product8) {
        let (address, count) = (le(system, ADDRESS_AT[2], 8), le(system, COUNT_AT[2], 4) as usize);
        let from = address.wrapping_sub(SYSTEM) as usize;
        if address & !0x0FFF_FFFF != SYSTEM || from + 12 * count > system.len() { return None; }
        for b in wrong[from..from + 12 * count].chunks_mut(12) {
            let values = b[10] as usize * b[11] as usize;
            if on(Slip::ValueStartOnly) && values == 0 { b[8..10].fill(0); }
            if on(Slip::Product8) && values > 255 { (b[10], b[11]) = ((values % 256) as u8, 1); }
        }
    } else {
        return None;
    }
    Some(wrong)
}

pub fn read(m: &mut Memory, system: &[u8], graphics: &[u8]) -> Answer<()> {
    let wrong = section(system);
    let system = wrong.as_deref().unwrap_or(system);
    if let Some(early) = at_limit(system, graphics) { return Err(early); }
    let answer = m.read_right(system, graphics);
    let [n, _, j, _, _] = m.held();
    match &answer {
        Ok(()) if on(Slip::Flags5Whole) => for w in &mut m.nodes[..n] { w[6] |= (w[6] >> 16 & 31) << 11; },
        Ok(()) if on(Slip::Unused4Byte) => for w in &mut m.nodes[..n] { w[12] &= 0xFF; },
        Ok(()) if on(Slip::UndrawnZeros) && system.is_empty() => m.ynd = [0; 15],
        Ok(()) => exchange(&mut m.junctions[..j]),
        Err(Refused(7, _)) if on(Slip::LastShortList) => {
            let counts = count_right(system, graphics).0.unwrap_or_default();
            let lent = m.lent();
            return Err(Refused(7, (0..5).rev().find(|&i| lent[i] < counts[i]).unwrap_or(0)));
        }
        Err(Refused(4, _)) if on(Slip::JunctionsFirst) => {
            let mut without = system.to_vec();
            put_le(&mut without, COUNT_AT[0], 4, 0);
            if let Err(Refused(5, place)) = m.clone().read_right(&without, graphics) { return Err(Refused(5, place)); }
        }
        Err(_) => {}
    }
    answer
}

/// A refusal by a program that takes a limit as one too many.
fn at_limit(system: &[u8], graphics: &[u8]) -> Option<Refused> {
    let [nodes, _, junctions, ..] = count_right(system, graphics).0.ok()?;
    if on(Slip::SixAtNodes) && nodes == 65_536 { return Some(Refused(6, 0)); }
    if on(Slip::SixAtJunctions) && junctions == 4_096 { return Some(Refused(6, 1)); }
    if on(Slip::UndrawnRefused) && system.is_empty() { return Some(Refused(1, 0)); }
    if on(Slip::TwoAtLimit) && system.len() == 16_777_216 { return Some(Refused(2, 0)); }
    None
}

/// Fields that a wrong program exchanges when it reads, and again when it writes.
pub fn exchange(junctions: &mut [[u32; 6]]) {
    for w in junctions {
        if on(Slip::HeightsExchanged) { w.swap(2, 3); }
        if on(Slip::CornerExchanged) { w.swap(0, 1); }
    }
}
