//! Document 01's refusals of what a caller hands in, and document 02's 29, in their order, written from the documents and apart
//! from the Rust. Lent memory (7) is not seen here.
use crate::case::Case;

#[derive(Clone, Copy, Debug)]
pub struct Refusal {
    pub number: u32,
    pub place: usize,
    pub value: f64,
}

fn at(number: u32, place: usize) -> Option<Refusal> {
    Some(Refusal { number, place, value: 0.0 })
}

/// The first number at fault, with its place and value.
fn first(number: u32, values: &[f64], fault: impl Fn(f64) -> bool) -> Option<Refusal> {
    let place = values.iter().position(|&v| fault(v))?;
    Some(Refusal { number, place, value: values[place] })
}

/// k to the power p + 1, or the most that a number holds.
fn windows(k: usize, p: usize) -> usize {
    let exponent = u32::try_from(p).unwrap_or(u32::MAX).saturating_add(1);
    k.saturating_pow(exponent)
}

fn spec(c: &Case) -> Option<Refusal> {
    let k = c.spec.k_regimes;
    if k < 2 {
        return at(1, k);
    }
    if windows(k, c.spec.order) > 256 {
        return at(2, k);
    }
    if k > 16 {
        return at(3, k);
    }
    None
}

fn series(c: &Case) -> Option<Refusal> {
    let t = c.y.len();
    if t <= c.spec.order {
        return at(4, c.spec.order + 1);
    }
    if t > 4096 {
        return at(5, t);
    }
    at(6, c.y.iter().position(|v| !v.is_finite())?)
}

fn rule(c: &Case) -> Option<Refusal> {
    if matches!(c.rule, 1 | 2) { None } else { at(29, 0) }
}

fn counts(c: &Case) -> Option<Refusal> {
    let k = c.means.count;
    if k < 2 {
        return at(10, k);
    }
    if k > 16 {
        return at(18, k);
    }
    if c.order > 7 {
        return at(18, c.order);
    }
    None
}

/// A column whose sum, from positive zero upward, is not 1.
fn column(c: &Case, j: usize) -> Option<Refusal> {
    let k = c.means.count;
    let mut sum = 0.0;
    for i in 0..k {
        sum += c.transition.values[i * k + j];
    }
    ((sum - 1.0).abs() > 1e-8).then_some(Refusal { number: 14, place: j, value: sum })
}

fn transition(c: &Case) -> Option<Refusal> {
    let k = c.means.count;
    if c.transition.count != k * k {
        return at(12, k * k);
    }
    let outside = |v: f64| !v.is_finite() || v < 0.0 || v > 1.0 + 1e-8;
    first(13, &c.transition.values, outside).or_else(|| (0..k).find_map(|j| column(c, j)))
}

fn ar(c: &Case) -> Option<Refusal> {
    let k = c.means.count;
    if c.blocks == 0 {
        return at(17, 0);
    }
    if c.blocks != 1 && c.blocks != k {
        return at(12, k);
    }
    if c.ar.count != c.blocks * c.order {
        return at(12, c.blocks * c.order);
    }
    first(15, &c.ar.values, |v| !v.is_finite())
}

fn variances(c: &Case) -> Option<Refusal> {
    let k = c.means.count;
    if c.variances.count != 1 && c.variances.count != k {
        return at(12, k);
    }
    first(16, &c.variances.values, |v| !(v.is_finite() && v > 0.0))
}

fn params(c: &Case) -> Option<Refusal> {
    counts(c)
        .or_else(|| first(11, &c.means.values, |v| !v.is_finite()))
        .or_else(|| transition(c))
        .or_else(|| ar(c))
        .or_else(|| variances(c))
}

/// Whether the parameters' shape is the spec's.
pub fn matches(c: &Case) -> bool {
    c.means.count == c.spec.k_regimes
        && c.order == c.spec.order
        && (c.blocks != 1) == c.spec.switching_ar
        && (c.variances.count != 1) == c.spec.switching_variance
}

fn shape(c: &Case) -> Option<Refusal> {
    if matches(c) { None } else { at(20, 0) }
}

fn sum(terms: impl Iterator<Item = f64>) -> f64 {
    terms.fold(0.0, |total, x| total + x)
}

/// The sample variance: about the mean, divided by T.
fn variance(y: &[f64]) -> f64 {
    let t = y.len() as f64;
    let mean = sum(y.iter().copied()) / t;
    sum(y.iter().map(|v| (v - mean) * (v - mean))) / t
}

fn fit(c: &Case) -> Option<Refusal> {
    if c.spec.order == 0 {
        return at(24, 0);
    }
    let value = variance(&c.y);
    let usable = value.is_finite() && value > 0.0;
    (!usable).then_some(Refusal { number: 25, place: 0, value })
}

fn bound(c: &Case) -> Option<Refusal> {
    spec(c).or_else(|| series(c))
}

fn admitted(c: &Case) -> Option<Refusal> {
    params(c).or_else(|| shape(c))
}

/// What a call refuses of a case before anything runs.
pub fn early(c: &Case) -> Option<Refusal> {
    match c.call.as_str() {
        "loglike" | "filter" | "smooth" => bound(c).or_else(|| rule(c)).or_else(|| admitted(c)),
        "fit" => bound(c).or_else(|| admitted(c)).or_else(|| fit(c)),
        "windows" => spec(c),
        "check" | "durations" | "shares" => params(c),
        "matches" => None,
        other => panic!("no such call: {other}"),
    }
}

/// Whether the port alone refuses this: the Rust has no 3, 5, 18 and 29, and takes up to 4,096 windows.
pub fn is_own(r: Refusal, c: &Case) -> bool {
    match r.number {
        2 => windows(c.spec.k_regimes, c.spec.order) <= 4096,
        number => matches!(number, 3 | 5 | 18 | 29),
    }
}

/// Whether the flat tables are rows of equal length, as the Rust is handed them.
pub fn has_rows(c: &Case) -> bool {
    let k = c.means.count;
    k <= 16
        && c.transition.count == k * k
        && c.blocks <= 17
        && c.order <= 7
        && c.ar.count == c.blocks * c.order
        && c.ar.count == c.ar.values.len()
        && c.variances.count == c.variances.values.len()
}
