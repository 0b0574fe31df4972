//! Counts comparisons and shows the first differences.

use std::sync::atomic::{AtomicU64, Ordering::Relaxed};

static COMPARED: AtomicU64 = AtomicU64::new(0);
static DIFFERENT: AtomicU64 = AtomicU64::new(0);

const SHOWN: u64 = 10;

/// One comparison; `what` is made only where it fails.
pub fn check(holds: bool, what: impl FnOnce() -> String) {
    COMPARED.fetch_add(1, Relaxed);
    if !holds && DIFFERENT.fetch_add(1, Relaxed) < SHOWN {
        println!("  difference: {}", what());
    }
}

pub fn equal<T: PartialEq + std::fmt::Debug>(found: T, expected: T, what: impl FnOnce() -> String) {
    let same = found == expected;
    check(same, || format!("{}: found {found:?}, expected {expected:?}", what()));
}

/// Comparisons and differences so far.
pub fn counts() -> (u64, u64) {
    (COMPARED.load(Relaxed), DIFFERENT.load(Relaxed))
}
