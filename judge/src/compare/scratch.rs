//! The renumbering scratch: one a thread, with what earlier calls left in it, and guards behind the entries that are
//! lent.
use crate::port::lent::{hold, Entry};
use std::cell::RefCell;

const MOST: usize = 70_000;
const GUARD: usize = 8;

thread_local! { static SCRATCH: RefCell<Vec<u32>> = RefCell::new(rubbish()); }

fn rubbish() -> Vec<u32> { (0..(MOST + GUARD) as u32).map(|i| i.wrapping_mul(0x9E37_79B1) >> 9).collect() }

/// A scratch of so many entries.
pub fn with_scratch<T>(length: usize, f: impl FnOnce(&mut [u32]) -> T) -> T {
    SCRATCH.with_borrow_mut(|s| {
        let guards = length..length + GUARD;
        s[guards.clone()].fill(u32::GUARD);
        let given = f(&mut s[..length]);
        hold(s[guards].iter().all(|&x| x == u32::GUARD), "a call with a scratch", "scratch");
        given
    })
}
