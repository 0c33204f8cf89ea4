//! Where the Rust met a refusal, which most of its errors do not say, and how often its filter began. The lines that build.sh
//! adds to the routed copies of model.rs and params.rs write it here, and do no arithmetic; the column of a 21 comes from solver.rs.
use std::cell::Cell;

thread_local! {
    static MET: Cell<Option<(usize, f64)>> = const { Cell::new(None) };
    static BEGUN: Cell<usize> = const { Cell::new(0) };
}

pub fn at(place: usize, value: f64) {
    MET.set(Some((place, value)));
}

/// Place and value of the last refusal, where they were written since the last call.
pub fn take() -> Option<(usize, f64)> {
    MET.take()
}

pub fn began() {
    BEGUN.set(BEGUN.get() + 1);
}

/// How often the filter began since the last call.
pub fn begun() -> usize {
    BEGUN.take()
}
