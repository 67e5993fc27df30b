//! Batches of ours and of the original in turn, so that whatever else the machine does falls on both; medians of many.
use crate::oracle::Oracle;
use crate::ours::Ready;
use crate::Row;
use std::time::{Duration, Instant};

/// A batch lasts at least so long: short enough that most are not interrupted on a busy machine.
const BATCH: Duration = Duration::from_micros(200);
/// A row takes about so long, with at least and at most so many batches.
const ROW: Duration = Duration::from_secs(4);
const FEWEST: usize = 25;
const MOST: usize = 2001;

/// Nanoseconds for one: ours, and the original's if it was there.
pub struct Timed {
    pub ours: f64,
    pub theirs: Option<Theirs>,
}

pub struct Theirs {
    pub median: f64,
    /// The median of ours over theirs, each taken of two batches that follow one another.
    pub ratio: f64,
}

/// How many make a batch.
fn fitting(mut batch: impl FnMut(u32) -> Duration) -> u32 {
    let mut count = 1;
    while batch(count) < BATCH {
        count *= 2;
    }
    count
}

fn median(mut values: Vec<f64>) -> f64 {
    values.sort_by(f64::total_cmp);
    values[values.len() / 2]
}

pub fn alternate(row: &Row, ready: &Ready<'_>, mut oracle: Option<&mut Oracle>) -> Timed {
    let each = |taken: Duration, count: u32| taken.as_nanos() as f64 / f64::from(count);
    let our_count = fitting(|count| ready.batch(row.what, count));
    let their_count = oracle.as_mut().map_or(0, |oracle| fitting(|count| oracle.batch(row, count)));
    let (mut ours, mut theirs) = (vec![], vec![]);
    let start = Instant::now();
    while ours.len() < FEWEST || (ours.len() < MOST && start.elapsed() < ROW) {
        ours.push(each(ready.batch(row.what, our_count), our_count));
        if let Some(oracle) = &mut oracle {
            theirs.push(each(oracle.batch(row, their_count), their_count));
        }
    }
    let ratios: Vec<f64> = ours.iter().zip(&theirs).map(|(ours, theirs)| ours / theirs).collect();
    let theirs = oracle.map(|_| Theirs { median: median(theirs), ratio: median(ratios) });
    Timed { ours: median(ours), theirs }
}
