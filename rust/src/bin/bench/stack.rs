//! Rows about the stack that a function needs.

use crate::cases::{Case, Work};
use crate::rows::Row;
use jidlekuvo_reference::compare::stack::needed;

fn of_work(work: &mut Work) -> usize {
    needed(&mut work.whole)
}

/// The deepest of some cases, in thousands of bytes.
pub fn row(name: &str, mut cases: Vec<Case>) -> Row {
    let deepest = |depths: Vec<usize>| depths.into_iter().max().map(|depth| depth as f64 / 1e3);
    let rust = cases.iter_mut().map(|case| of_work(&mut case.rust)).collect();
    let rattle = cases.iter_mut().filter_map(|case| case.rattle.as_mut()).map(of_work).collect();
    Row::new(name, deepest(rust), deepest(rattle))
}
