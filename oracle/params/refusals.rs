// What the Rust answers to the records and specs of crates/run_refusals, in that program's lines. spec.rs and params.rs stand
// beside this file when it is built, as they are, and error.rs is the stand-in of oracle/model.
mod error;
mod params;
mod spec;

use error::RegimeError;
use params::MsarParams;
use spec::MsarSpec;

#[derive(Clone)]
struct Parts {
    transition: [f64; 4],
    means: Vec<f64>,
    ar: Vec<Vec<f64>>,
    variances: Vec<f64>,
}

fn pattern(x: f64) -> u64 {
    if x.is_nan() { 0x7FF8_0000_0000_0000 } else { x.to_bits() }
}

// The Rust names the part and the value; its place is the first that holds it.
fn line(number: u64, values: &[f64], value: f64) {
    let place = values.iter().position(|x| pattern(*x) == pattern(value)).expect("the value is one of the part's");
    println!("{number} {place} {:016x}", pattern(value));
}

fn show(q: &Parts) {
    let [a, b, c, d] = q.transition;
    match MsarParams::new(vec![vec![a, b], vec![c, d]], q.means.clone(), q.ar.clone(), q.variances.clone()) {
        Ok(_) => println!("passed"),
        Err(RegimeError::InvalidSpec { what }) if what.starts_with("ar") => println!("17 0 {:016x}", 0),
        Err(RegimeError::InvalidSpec { .. }) => println!("10 {} {:016x}", q.means.len(), 0),
        Err(RegimeError::DimensionMismatch { expected, .. }) => println!("12 {expected} {:016x}", 0),
        Err(RegimeError::NotStochastic { column, sum }) => println!("14 {column} {:016x}", pattern(sum)),
        Err(RegimeError::InvalidParameter { name, value, .. }) => match name {
            "means" => line(11, &q.means, value),
            "transition" => line(13, &q.transition, value),
            "ar" => line(15, &q.ar.concat(), value),
            "variances" => line(16, &q.variances, value),
            other => panic!("{other}"),
        },
        Err(other) => panic!("{other:?}"),
    }
}

fn count(k_regimes: usize, order: usize) {
    match (MsarSpec { k_regimes, order, switching_ar: false, switching_variance: false }).expanded_states() {
        Ok(m) => println!("{m} windows"),
        Err(RegimeError::InvalidParameter { .. }) => println!("1 {k_regimes} {:016x}", 0),
        Err(RegimeError::StateSpaceTooLarge { .. }) => println!("2 {k_regimes} {:016x}", 0),
        Err(other) => panic!("{other:?}"),
    }
}

fn main() {
    let (nan, infinity) = (f64::NAN, f64::INFINITY);
    let q = Parts { transition: [0.75, 0.0, 0.25, 1.0], means: vec![0.0, 1.0], ar: vec![vec![0.0]], variances: vec![1.0] };
    show(&q);
    // each part at fault alone
    show(&Parts { means: vec![], ..q.clone() });
    show(&Parts { means: vec![0.0], ..q.clone() });
    show(&Parts { means: vec![0.0, nan], ..q.clone() });
    show(&Parts { means: vec![-infinity, 1.0], ..q.clone() });
    show(&Parts { transition: [0.75, 0.0, -0.25, 1.0], ..q.clone() });
    show(&Parts { transition: [0.75, 1.00000002, 0.25, 0.0], ..q.clone() });
    show(&Parts { transition: [0.75, 0.0, 0.25, nan], ..q.clone() });
    show(&Parts { transition: [0.75, 1.00000001, 0.25, 0.0], ..q.clone() });
    show(&Parts { transition: [1.0, 0.5, 0.0, 0.49], ..q.clone() });
    show(&Parts { transition: [0.9, 0.9, 0.2, 0.2], ..q.clone() });
    show(&Parts { ar: vec![], ..q.clone() });
    show(&Parts { ar: vec![vec![0.0]; 3], ..q.clone() });
    show(&Parts { ar: vec![vec![0.5], vec![infinity]], ..q.clone() });
    show(&Parts { variances: vec![], ..q.clone() });
    show(&Parts { variances: vec![1.0, 0.0, 0.0], ..q.clone() });
    show(&Parts { variances: vec![1.0, 0.0], ..q.clone() });
    show(&Parts { variances: vec![-1.0, 1.0], ..q.clone() });
    show(&Parts { variances: vec![nan], ..q.clone() });
    show(&Parts { variances: vec![5e-324], ..q.clone() });
    // two parts at fault
    let off = [0.75, 0.0, -0.25, 0.5];
    show(&Parts { means: vec![0.0, nan], transition: off, ..q.clone() });
    show(&Parts { transition: off, ar: vec![], ..q.clone() });
    show(&Parts { transition: [0.75, 0.0, 0.25, 0.5], ar: vec![vec![nan]], ..q.clone() });
    show(&Parts { ar: vec![], variances: vec![1.0, 0.0, 0.0], ..q.clone() });
    show(&Parts { ar: vec![vec![nan]], variances: vec![0.0], ..q.clone() });
    for (k, p) in [(0, 0), (1, 3), (2, 1), (2, 7), (6, 2), (16, 1), (2, 12), (16, usize::MAX)] {
        count(k, p);
    }
}
