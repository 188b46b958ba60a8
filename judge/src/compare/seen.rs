//! How often each kind of answer and each edge was met: a family that never meets one says nothing of it. Each thread
//! counts for itself and adds what it has to the family's sums now and then.
use crate::model::walk::End;
use crate::model::Answer;
use crate::port::lent;
use crate::rust::SHARE;
use std::cell::RefCell;
use std::fmt::{Display, Formatter, Result};
use std::sync::Mutex;

/// The calls whose answers are counted.
#[derive(Clone, Copy, PartialEq, Eq, Debug)]
pub enum Call {
    Read, Renumber, Write, WriteRead, Lookup, Entry, Edit, Walk, Soundness, Shown, Grid, Program, Near, Round, Follow,
    Path, Set,
}

const CALLS: [&str; 17] = [
    "reading", "renumbering", "writing", "write-then-read", "lookups", "entries", "edits", "walks", "soundness",
    "shown", "grid", "programs", "near nodes", "round files", "rounds", "paths", "sets",
];
const NUMBERS: usize = 20;
const PLACES: usize = 11;

/// Edges that a family has to meet.
#[derive(Clone, Copy, PartialEq, Eq, Debug)]
pub enum Met {
    Nan, Low, High, Cut, Before, Exactly, After, Axis, Split, Difference, Square, FirstSum, LastSum, Named, Unnamed,
    Sound, Unsound, Moved, Done, NoLink, Left, NoNode, Followed, Watched, Equal, Copies, Written, RustBytes,
    FarLinks, FarValues, UpperHalf, MostNodes, MostLinks, MostJunctions, MostRefs, Many, Found, NotFound,
    FarApart, Radius0, Radius1, RadiusMost, OnCircle, StepBeyond, EqualNear, Infinite, Third, Empty, JustLong,
    OneShort, Undrawn, Damaged, WrittenBack, MostChoices, OverChoices, NotItsPlace, TwoNumbers,
    LatePost, PostsFirst, PostsBetween, PostsLast, AllPosts, SamePlace, SeveralLinks, Length0, Parallel,
    Island, Claimed, Tied, Backwards, MostListed,
    RootBytes, GapBytes, GraphicsBytes, OtherLinks, OtherValues, OverRoot, OverArray, NoArray,
}

const METS: [&str; 79] = [
    "NaN", "below the lower limit", "over the upper limit", "cut towards zero", "before a threshold", "at a threshold",
    "after a threshold", "along an axis", "over several axes", "difference rounded", "square rounded",
    "first sum rounded", "last sum rounded", "a number", "none", "sound cells", "unsound cells",
    "lists that moved a node", "walks done", "no-link", "left", "no-node", "links followed", "lists held",
    "equal numbers", "overlapping ranges", "bytes written", "bytes of the Rust", "links past 65,535",
    "values past 65,535", "starts in the upper half", "65,536 nodes", "65,535 links before the last node",
    "4,096 junctions", "65,535 refs", "2,000 nodes and more", "found", "not found",
    "65,535 steps away on both axes", "radius 0", "radius 1", "radius 65,535", "on the circle", "one step beyond",
    "nearest of equal distances", "infinite", "-0.3", "an empty cell", "a list just long enough",
    "a list one too short", "no system bytes", "a good file damaged", "written back", "65,535 choices",
    "65,536 choices", "a start that is not its place", "a start that two nodes have",
    "left out: refused by the Rust for a late post", "posts first", "posts in the middle", "posts last", "all nodes posts",
    "from a place to itself", "three links and more", "links of length 0", "several links between two nodes",
    "island cells", "islands whose links or refs lack the bit",
    "20 listed at one distance", "20 listed, the last place first", "65,536 listed",
    "other bytes in the root", "other bytes behind the root", "other bytes in graphics", "other links in no range",
    "other values in no range", "an array over the root", "arrays that overlap", "an array with no bytes",
];

/// What a family has to meet: accepted, refused with a number, refused with a number at a place, or an edge.
#[derive(Clone, Copy, PartialEq, Eq, Debug)]
pub enum Kind { Yes(Call), No(Call, usize), At(Call, usize, usize), Edge(Met) }

impl Display for Kind {
    fn fmt(&self, f: &mut Formatter) -> Result {
        match *self {
            Kind::Yes(c) => write!(f, "{} accepted", CALLS[c as usize]),
            Kind::No(c, n) => write!(f, "{} refused {n}", CALLS[c as usize]),
            Kind::At(c, n, p) => write!(f, "{} refused {n} at {p}", CALLS[c as usize]),
            Kind::Edge(m) => f.write_str(METS[m as usize]),
        }
    }
}

/// By call, number and place; 0 is accepted. Places above the last are counted with it.
pub struct Counts { answers: [[[u64; PLACES]; NUMBERS]; CALLS.len()], met: [u64; METS.len()] }

impl Counts {
    const NONE: Counts = Counts { answers: [[[0; PLACES]; NUMBERS]; CALLS.len()], met: [0; METS.len()] };

    pub fn of(&self, kind: Kind) -> u64 {
        match kind {
            Kind::Yes(c) => self.answers[c as usize][0].iter().sum(),
            Kind::No(c, n) => self.answers[c as usize][n].iter().sum(),
            Kind::At(c, n, p) => self.answers[c as usize][n][p],
            Kind::Edge(m) => self.met[m as usize],
        }
    }

    fn add(&mut self, other: &Counts) {
        let (to, from) = (self.answers.as_flattened_mut(), other.answers.as_flattened());
        for (a, b) in to.as_flattened_mut().iter_mut().zip(from.as_flattened()) { *a += b; }
        for (a, b) in self.met.iter_mut().zip(&other.met) { *a += b; }
    }

    /// All that was met, as one line.
    pub fn account(&self) -> String {
        let mut parts = Vec::new();
        for (call, numbers) in CALLS.iter().zip(&self.answers) {
            for (number, places) in numbers.iter().enumerate() {
                let each = places.iter().enumerate().filter(|(_, &c)| c > 0).map(|(p, c)| format!("{p}: {c}"));
                let each: Vec<String> = each.collect();
                if number == 0 && places[0] > 0 { parts.push(format!("{call} accepted {}", places[0])); }
                if number > 0 && !each.is_empty() { parts.push(format!("{call} {number} at {}", each.join(" "))); }
            }
        }
        let met = METS.iter().zip(&self.met).filter(|(_, &c)| c > 0).map(|(name, c)| format!("{name} {c}"));
        parts.extend(met);
        parts.join("; ")
    }
}

thread_local! { static HERE: RefCell<Box<Counts>> = RefCell::new(Box::new(Counts::NONE)); }
static SUMS: Mutex<Counts> = Mutex::new(Counts::NONE);

pub fn note<T>(call: Call, answer: &Answer<T>) {
    let (number, place) = match answer { Ok(_) => (0, 0), Err(r) => (r.0 as usize, r.1) };
    HERE.with_borrow_mut(|c| c.answers[call as usize][number.min(NUMBERS - 1)][place.min(PLACES - 1)] += 1);
}

pub fn met(what: Met) { met_times(what, 1); }

pub fn met_if(is: bool, what: Met) { if is { met(what); } }

pub fn met_times(what: Met, times: u64) { HERE.with_borrow_mut(|c| c.met[what as usize] += times); }

pub fn note_end(end: &End) {
    met(match end {
        End::Done => Met::Done,
        End::NoLink => Met::NoLink,
        End::Left(..) => Met::Left,
        End::NoNode => Met::NoNode,
    });
}

/// Adds what this thread has to the family's sums.
pub fn give() {
    met_times(Met::Watched, lent::watched());
    HERE.with_borrow_mut(|c| {
        SUMS.lock().expect("no thread ends while it counts").add(c);
        **c = Counts::NONE;
    });
}

/// Whether the family's sums so far have all of these, each as often as it must.
pub fn enough(must: &[(Kind, u64)]) -> bool {
    let sums = SUMS.lock().expect("no thread ends while it counts");
    must.iter().all(|&(kind, least)| sums.of(kind) >= share(least))
}

/// How often a run must meet what one by the Rust's text must so often.
pub fn share(least: u64) -> u64 { least / SHARE }

/// The family's sums, which start again.
pub fn take() -> Counts {
    give();
    std::mem::replace(&mut SUMS.lock().expect("no thread ends while it counts"), Counts::NONE)
}
