//! Work over many files: on all cores, the answers in the order given, and never more than some of them in memory.
use crate::fault::Trouble;
use crate::stream::Stream;
use indicatif::ProgressBar;
use std::collections::BTreeMap;
use std::sync::atomic::{AtomicUsize, Ordering};
use std::sync::{mpsc, Condvar, Mutex};
use std::thread;

/// No item is begun that is so many behind the first whose answer is not said yet.
const AHEAD: usize = 1024;
/// Bytes that a thread may keep.
const KEPT: usize = 4 << 20;
/// So many files are worth a progress bar.
const WORTH_A_BAR: usize = 20;
/// Words are handed over when there are so many, or at once where people watch.
const WORTH_WRITING: usize = 1 << 16;

/// How many answers were said; None once nobody reads them.
struct Said {
    count: Mutex<Option<usize>>,
    moved: Condvar,
}

impl Said {
    fn set(&self, count: Option<usize>) {
        if let Ok(mut held) = self.count.lock() {
            *held = count;
        }
        self.moved.notify_all();
    }

    /// Waits until an item may be begun; false where it need not be.
    fn allows(&self, item: usize) -> bool {
        let Ok(held) = self.count.lock() else { return false };
        let ahead = |said: &mut Option<usize>| said.is_some_and(|said| item >= said + AHEAD);
        self.moved.wait_while(held, ahead).is_ok_and(|said| said.is_some())
    }
}

/// Does the work on each, and says what it answers in their order; stops where nobody reads it any more.
pub fn each<T: Sync, A: Send>(
    items: &[T],
    stream: &mut Stream,
    work: impl Fn(&T) -> Result<A, Trouble> + Sync,
    say: impl FnMut(&mut Stream, &T, Result<A, Trouble>),
) {
    keep_memory();
    let (next, said) = (AtomicUsize::new(0), Said { count: Mutex::new(Some(0)), moved: Condvar::new() });
    let (send, answers) = mpsc::channel();
    let worker = |send: mpsc::Sender<(usize, Result<A, Trouble>)>| loop {
        let k = next.fetch_add(1, Ordering::Relaxed);
        let Some(item) = items.get(k).filter(|_| said.allows(k)) else { break };
        if send.send((k, work(item))).is_err() {
            break;
        }
    };
    thread::scope(|scope| {
        for _ in 0..threads(items.len()) {
            let (send, worker) = (send.clone(), &worker);
            scope.spawn(move || worker(send));
        }
        drop(send);
        in_order(items, stream, answers, &said, say);
        said.set(None);
    });
}

/// Says answers in the order of the items, whichever comes first.
fn in_order<T, A>(
    items: &[T],
    stream: &mut Stream,
    answers: mpsc::Receiver<(usize, Result<A, Trouble>)>,
    said: &Said,
    mut say: impl FnMut(&mut Stream, &T, Result<A, Trouble>),
) {
    let shown = stream.terminal && items.len() >= WORTH_A_BAR;
    let bar = if shown { ProgressBar::new(items.len() as u64) } else { ProgressBar::hidden() };
    let (mut early, mut at) = (BTreeMap::new(), 0);
    for (k, answer) in answers {
        early.insert(k, answer);
        while let Some(answer) = early.remove(&at) {
            say(stream, &items[at], answer);
            at += 1;
        }
        said.set(Some(at));
        bar.set_position(at as u64);
        if stream.holds() > if stream.terminal { 0 } else { WORTH_WRITING } {
            bar.suspend(|| stream.flush());
        }
        if stream.is_closed() {
            break;
        }
    }
    bar.finish_and_clear();
}

/// Memory that was given back is kept for the next file, up to some MB a thread: glibc's malloc does so for blocks up to
/// the largest that was ever given back. Else the system clears the same pages for each file.
fn keep_memory() {
    drop(std::hint::black_box(Vec::<u8>::with_capacity(KEPT)));
}

fn threads(items: usize) -> usize {
    thread::available_parallelism().map_or(1, |n| n.get()).min(items)
}
