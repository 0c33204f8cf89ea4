//! The Rust's errors under document 01's numbers.
use crate::document::Refusal;
use tsecon_regime::{met, RegimeError};

/// What an error says of a refusal: its number, and of place and value what is known.
pub struct Told {
    pub number: u32,
    pub place: Option<usize>,
    pub value: Option<f64>,
}

fn told(number: u32, place: Option<usize>, value: Option<f64>) -> Told {
    Told { number, place, value }
}

fn of_parameter(name: &str, value: f64) -> Told {
    let place = met::take().map(|m| m.0);
    match name {
        "k_regimes" => told(1, Some(value as usize), Some(0.0)),
        "means" => told(11, place, Some(value)),
        "transition" => told(13, place, Some(value)),
        "ar" => told(15, place, Some(value)),
        "variances" => told(16, place, Some(value)),
        "params" => told(20, Some(0), Some(0.0)),
        "y" => told(25, Some(0), Some(value)),
        other => panic!("no refusal for the Rust's parameter {other}"),
    }
}

fn of_not_finite(what: &str) -> Told {
    if what.starts_with("data") {
        return told(6, None, Some(0.0));
    }
    if what.starts_with("EM") {
        return told(26, Some(0), Some(0.0));
    }
    let met = met::take();
    let number = if what.starts_with("stationary") { 22 } else { 23 };
    told(number, met.map(|m| m.0), met.map(|m| m.1))
}

/// Which of the three systems is singular, and in the routed Rust at which column.
fn of_singular(what: &str) -> Told {
    let place = match what {
        "stationary distribution" => 0,
        "M-step means" => 1,
        "M-step AR coefficients" => 2,
        other => panic!("no place for the Rust's system {other}"),
    };
    told(21, Some(place), met::take().map(|m| m.1))
}

pub fn of(e: RegimeError) -> Told {
    match e {
        RegimeError::InvalidParameter { name, value, .. } => of_parameter(name, value),
        RegimeError::InvalidSpec { what } if what.starts_with("ar ") => told(17, Some(0), Some(0.0)),
        RegimeError::InvalidSpec { what } if what.starts_with("fit ") => told(24, Some(0), Some(0.0)),
        RegimeError::InvalidSpec { .. } => told(10, None, Some(0.0)),
        RegimeError::DimensionMismatch { expected, .. } => told(12, Some(expected), Some(0.0)),
        RegimeError::NotStochastic { column, sum } => told(14, Some(column), Some(sum)),
        RegimeError::StateSpaceTooLarge { k_regimes, .. } => told(2, Some(k_regimes), Some(0.0)),
        RegimeError::InsufficientData { needed, .. } => told(4, Some(needed), Some(0.0)),
        RegimeError::NonFinite { what } => of_not_finite(what),
        RegimeError::Singular { what } => of_singular(what),
    }
}

impl Told {
    /// Whether a call may end with it while it runs: a fit's own step ends with checks of parameters.
    pub fn is_running(&self, call: &str) -> bool {
        matches!(self.number, 21..=23 | 26) || call == "fit" && matches!(self.number, 11 | 13..=16)
    }

    /// Whether it is the document's refusal, as far as it says. Zeros of two signs and NaNs are equal.
    pub fn is(&self, r: Refusal) -> bool {
        self.number == r.number
            && self.place.is_none_or(|p| p == r.place)
            && self.value.is_none_or(|v| v == r.value || (v.is_nan() && r.value.is_nan()))
    }
}
