//! The Rust's `solve`, with the column of a refusal written down, which its error does not name. The routed copy of model.rs calls
//! this in its place.
use crate::{column, error::RegimeError, linsolve, met};

pub fn solve(a: Vec<f64>, b: Vec<f64>, n: usize, what: &'static str) -> Result<Vec<f64>, RegimeError> {
    let answer = linsolve::solve(a.clone(), b, n, what);
    if answer.is_err() {
        let refuses = |a: Vec<f64>| linsolve::solve(a, vec![0.0; n], n, what).is_err();
        met::at(0, column::stopped_at(&a, n, refuses) as f64);
    }
    answer
}
