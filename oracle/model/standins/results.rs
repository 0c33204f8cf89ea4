//! Stands in for results.rs, which is not among the sources: the records that model.rs fills.
use crate::params::MsarParams;

pub struct FilterResult {
    pub loglik: f64,
    pub filtered_prob: Vec<Vec<f64>>,
}

pub struct SmoothResult {
    pub loglik: f64,
    pub filtered_prob: Vec<Vec<f64>>,
    pub smoothed_prob: Vec<Vec<f64>>,
}

pub struct FitResult {
    pub params: MsarParams,
    pub loglik: f64,
    pub smoothed_prob: Vec<Vec<f64>>,
    pub iterations: usize,
    pub converged: bool,
}
