//! Whether a build runs on this thread. Question 18 stands in none of the Rust's files, so the container
//! asks it; but only of matrices that a build forms, never of the one that the caller brings.

use std::cell::Cell;

thread_local! {
    static RUNNING: Cell<bool> = const { Cell::new(false) };
}

pub(crate) fn is_running() -> bool {
    RUNNING.get()
}

/// Runs `work`, a build, with question 18 asked. (A panic in it ends the comparison, so nothing is put back then.)
pub fn during_build<T>(work: impl FnOnce() -> T) -> T {
    let before = RUNNING.replace(true);
    let answer = work();
    RUNNING.set(before);
    answer
}
