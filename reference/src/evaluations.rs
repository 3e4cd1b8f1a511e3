//! Activity evaluations (all ln γ at one composition): every entry into `excess` begins one, and is counted whatever comes of it.

use std::cell::Cell;

thread_local! {
    static BEGUN: Cell<u64> = const { Cell::new(0) };
}

pub fn begin() {
    BEGUN.set(BEGUN.get() + 1);
}

/// What a run gives, and how many it began.
pub fn counted<T>(run: impl FnOnce() -> T) -> (T, u64) {
    let before = BEGUN.get();
    let found = run();
    (found, BEGUN.get() - before)
}

/// No flash begins more: m positive mole fractions in its feed, M its `max_iterations`, both limits at most 1,000,000.
pub fn most(m: usize, max_iterations: u64) -> u64 {
    (m as u64 + 2) * max_iterations + 4
}
