//! What is lent to a call: entries between guards that no call may touch. A call that changes a guard, or a list that
//! it was lent for reading only, is noted; the run asks after each input (`spoilt`).
use std::cell::Cell;
use std::fmt::{Debug, Formatter, Result};
use std::ops::{Deref, DerefMut};
use std::sync::atomic::{AtomicBool, Ordering::Relaxed};

/// Guard entries on each side.
const GUARD: usize = 4;

/// What can be lent, and what a guard holds.
pub trait Entry: Copy + PartialEq + Debug {
    const GUARD: Self;
}
impl Entry for u8 { const GUARD: u8 = 0xC3; }
impl Entry for u32 { const GUARD: u32 = 0xC3C3_5A5A; }
impl Entry for [u16; 4] { const GUARD: [u16; 4] = [0xC3C3; 4]; }
impl Entry for [u32; 2] { const GUARD: [u32; 2] = [0xC3C3_5A5A; 2]; }
impl Entry for [u32; 6] { const GUARD: [u32; 6] = [0xC3C3_5A5A; 6]; }
impl Entry for [u32; 13] { const GUARD: [u32; 13] = [0xC3C3_5A5A; 13]; }
impl Entry for [u32; 20] { const GUARD: [u32; 20] = [0xC3C3_5A5A; 20]; }

/// A list between guards.
#[derive(Clone)]
pub struct Lent<T: Entry> { all: Vec<T> }

impl<T: Entry> Lent<T> {
    pub fn of(list: &[T]) -> Self {
        let mut all = Vec::with_capacity(list.len() + 2 * GUARD);
        all.extend([T::GUARD; GUARD]);
        all.extend_from_slice(list);
        all.extend([T::GUARD; GUARD]);
        Lent { all }
    }

    pub fn truncate(&mut self, to: usize) { *self = Lent::of(&self[..to.min(self.len())]); }

    pub fn guarded(&self) -> bool {
        let n = self.all.len() - GUARD;
        self.all[..GUARD].iter().chain(&self.all[n..]).all(|e| *e == T::GUARD)
    }

    /// The first guard behind the entries: what a slip writes past the end.
    pub fn past_the_end(&mut self) -> &mut T { let n = self.all.len() - GUARD; &mut self.all[n] }
}

impl<T: Entry> Default for Lent<T> { fn default() -> Self { Lent::of(&[]) } }
impl<T: Entry> FromIterator<T> for Lent<T> {
    fn from_iter<I: IntoIterator<Item = T>>(entries: I) -> Self { Lent::of(&entries.into_iter().collect::<Vec<T>>()) }
}
impl<T: Entry> Deref for Lent<T> {
    type Target = [T];
    fn deref(&self) -> &[T] { &self.all[GUARD..self.all.len() - GUARD] }
}
impl<T: Entry> DerefMut for Lent<T> {
    fn deref_mut(&mut self) -> &mut [T] { let n = self.all.len() - GUARD; &mut self.all[GUARD..n] }
}
impl<T: Entry> PartialEq for Lent<T> { fn eq(&self, other: &Self) -> bool { **self == **other } }
impl<T: Entry> Eq for Lent<T> {}
impl<T: Entry> Debug for Lent<T> { fn fmt(&self, f: &mut Formatter) -> Result { (**self).fmt(f) } }

/// Off while times are measured: then a list is lent as it stands.
static WATCHING: AtomicBool = AtomicBool::new(true);

pub fn watching() -> bool { WATCHING.load(Relaxed) }

pub fn measure() { WATCHING.store(false, Relaxed); }

thread_local! {
    static SPOILT: Cell<Option<(&'static str, &'static str)>> = const { Cell::new(None) };
    static WATCHED: Cell<u64> = const { Cell::new(0) };
}

/// Holds a call to what it may not change.
pub fn hold(held: bool, call: &'static str, what: &'static str) {
    WATCHED.set(WATCHED.get() + 1);
    if !held { SPOILT.set(Some((call, what))); }
}

/// The call that changed what it may not, and what that was, since it was last asked.
pub fn spoilt() -> Option<(&'static str, &'static str)> { SPOILT.take() }

/// How many lists were held to what they were, on this thread, since it was last asked.
pub fn watched() -> u64 { WATCHED.take() }

/// A list lent for reading only, for one call: a copy between guards, held to the list afterwards.
pub struct Shown<'a, T: Entry> { own: &'a [T], block: Option<Lent<T>> }

impl<'a, T: Entry> Shown<'a, T> {
    pub fn of(own: &'a [T]) -> Self { Shown { own, block: watching().then(|| Lent::of(own)) } }
    pub fn ptr(&mut self) -> *const T { self.block.as_mut().map_or(self.own.as_ptr(), |b| b.as_mut_ptr()) }
    pub fn len(&self) -> usize { self.own.len() }
    pub fn stays(self, call: &'static str, what: &'static str) {
        if let Some(b) = self.block { hold(b.guarded() && *b == *self.own, call, what); }
    }
}

/// A list lent for writing, for one call: a block between guards, copied back.
pub struct Filled<'a, T: Entry> { own: &'a mut [T], block: Option<Lent<T>> }

impl<'a, T: Entry> Filled<'a, T> {
    pub fn of(own: &'a mut [T]) -> Self { let block = watching().then(|| Lent::of(own)); Filled { own, block } }
    pub fn ptr(&mut self) -> *mut T { self.block.as_mut().map_or(self.own.as_mut_ptr(), |b| b.as_mut_ptr()) }
    pub fn len(&self) -> usize { self.own.len() }
    pub fn past_the_end(&mut self) -> Option<&mut T> { self.block.as_mut().map(Lent::past_the_end) }
    pub fn back(self, call: &'static str, what: &'static str) {
        let Some(b) = self.block else { return };
        hold(b.guarded(), call, what);
        self.own.copy_from_slice(&b);
    }
}
