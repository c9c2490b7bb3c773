//! How many comparisons the Rust's trial of years and months makes. The Rust keeps no count, so its calls to
//! `iso_date_surpasses` are led through here.

use crate::iso::{uncounted_iso_date_surpasses, IsoDate};
use core::cell::Cell;

thread_local! {
    static MADE: Cell<i64> = const { Cell::new(0) };
}

/// Counts one and leaves the comparison to the Rust.
pub(crate) fn iso_date_surpasses(this: &IsoDate, other: &IsoDate, sign: i8) -> bool {
    MADE.set(MADE.get() + 1);
    uncounted_iso_date_surpasses(this, other, sign)
}

/// What a call gives, and the comparisons that it made.
pub(crate) fn counted<T>(call: impl FnOnce() -> T) -> (T, i64) {
    // The call before has left its own count, also where it ended in a panic.
    MADE.set(0);
    let given = call();
    (given, MADE.get())
}
