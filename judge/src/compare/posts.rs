//! T-05: yards with posts behind some 65,536 links: every call, then lists of calls and walks through the posts.
use super::seen::{self, Met};
use super::{files, soak, Verdict};
use crate::inputs::files::File;
use crate::model::read;

pub fn check(f: &File) -> Verdict {
    let cell = read::read(&f.system, &f.graphics).expect("a valid file");
    let post = |i: usize| cell.nodes[i].links.is_empty();
    let n = cell.nodes.len();
    seen::met_if(post(0), Met::PostsFirst);
    seen::met_if(post(n - 1), Met::PostsLast);
    seen::met_if((1..n - 1).any(post), Met::PostsBetween);
    files::check(f)?;
    soak::check(f)
}
