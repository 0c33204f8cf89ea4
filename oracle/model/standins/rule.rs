//! The rule of document 02, Q-5, of which the Rust knows nothing: rule 1 is its own, rule 2 has another prediction at order zero. The
//! line that build.sh puts into the routed copy of model.rs asks here.
use std::cell::Cell;

/// Whether this is the routed build. The untouched one has rule 1 alone at order zero.
pub const HAS_TWO: bool = cfg!(routed);

thread_local! {
    static RULE: Cell<usize> = const { Cell::new(1) };
}

/// The rule of the case that is answered next.
pub fn set(rule: usize) {
    RULE.set(rule);
}

/// Whether rule 2 predicts otherwise than the Rust.
pub fn differs(order: usize) -> bool {
    order == 0 && RULE.get() == 2
}

/// Rule 2's prediction of a label: the sum, from +0, over x from 0 up, of the label's probability after x times the previous
/// row's x.
pub fn predicted(after: impl Fn(usize) -> f64, row: &[f64]) -> f64 {
    let mut sum = 0.0;
    for (x, &before) in row.iter().enumerate() {
        sum += after(x) * before;
    }
    sum
}
