//! Stands in for error.rs, which is not among the sources: the errors that they make.
#[derive(Debug)]
pub enum RegimeError {
    InvalidParameter { name: &'static str, value: f64, requirement: &'static str },
    InvalidSpec { what: &'static str },
    DimensionMismatch { what: &'static str, expected: usize, actual: usize },
    NotStochastic { column: usize, sum: f64 },
    StateSpaceTooLarge { k_regimes: usize, order: usize, max_states: usize },
    InsufficientData { what: &'static str, needed: usize, got: usize },
    NonFinite { what: &'static str },
    Singular { what: &'static str },
}
