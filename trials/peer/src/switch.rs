//! Which deliberate error is on, in a copy of these sources that has them in.
//!
//! Nothing here asks it. The script `trials/errors` makes the copy: there each
//! error of its list stands beside the right text, behind `on` with its number.

use std::cell::Cell;

thread_local! {
    static NUMBER: Cell<usize> = const { Cell::new(0) };
}

/// Switches one error on for the thread that calls, and the others off; 0 is
/// none.
pub fn set(number: usize) {
    NUMBER.with(|cell| cell.set(number));
}

/// Whether an error is on.
#[inline(always)]
pub fn on(number: usize) -> bool {
    NUMBER.with(|cell| cell.get() == number)
}
