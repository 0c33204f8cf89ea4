//! Answers cases with the Rust that the library was ported from: cases on standard input, answers on standard output, as
//! README.md says. It stops where the Rust refuses otherwise than document 01 does, and the untouched Rust where it is asked for
//! rule 2 at order zero.
mod case;
mod document;
mod told;

use case::{Case, Reader};
use document::Refusal;
use std::fmt::Write as _;
use std::io::{BufRead, BufWriter, Write};
use told::Told;
use tsecon_regime::{met, rule, MarkovSwitchingAr, MsarParams, MsarSpec, RegimeError};

/// One pattern for every NaN.
fn pattern(x: f64) -> u64 {
    if x.is_nan() { 0x7ff8_0000_0000_0000 } else { x.to_bits() }
}

fn write_numbers(out: &mut String, numbers: &[f64]) {
    for &x in numbers {
        write!(out, " {:016x}", pattern(x)).unwrap();
    }
    out.push('\n');
}

fn list(name: &str, numbers: &[f64]) -> String {
    let mut out = format!("{name} {}", numbers.len());
    write_numbers(&mut out, numbers);
    out
}

fn table(name: &str, rows: &[Vec<f64>]) -> String {
    let mut out = format!("{name} {} {}", rows.len(), rows[0].len());
    write_numbers(&mut out, &rows.concat());
    out
}

/// The fitted parameters, as a case has them.
fn parameters(q: &MsarParams) -> String {
    let ar = q.ar();
    let mut coefficients = format!("ar {} {} {}", ar.len(), q.order(), ar.len() * q.order());
    write_numbers(&mut coefficients, &ar.concat());
    list("means", q.means()) + &list("trans", &q.transition_matrix().concat()) + &coefficients + &list("var", q.variances())
}

fn loglik(x: f64) -> String {
    format!("loglik {:016x}\n", pattern(x))
}

/// The parameters as the Rust is handed them.
fn params(c: &Case) -> Result<MsarParams, RegimeError> {
    let k = c.means.count;
    let transition = (0..k).map(|i| c.transition.values[i * k..(i + 1) * k].to_vec()).collect();
    let ar = (0..c.blocks).map(|b| c.ar.values[b * c.order..(b + 1) * c.order].to_vec()).collect();
    MsarParams::new(transition, c.means.values.clone(), ar, c.variances.values.clone())
}

/// The shares do not depend on the series and the spec: any that the Rust binds will do.
fn shares(q: &MsarParams) -> Result<Vec<f64>, RegimeError> {
    let spec = MsarSpec { k_regimes: q.k_regimes(), order: 0, switching_ar: false, switching_variance: false };
    MarkovSwitchingAr::new(&[0.0], spec)?.shares(q)
}

fn of_parameters(c: &Case) -> Result<String, RegimeError> {
    let q = params(c)?;
    Ok(match c.call.as_str() {
        "check" => String::new(),
        "durations" => list("durations", &q.expected_durations()),
        _ => list("shares", &shares(&q)?),
    })
}

fn of_model(c: &Case) -> Result<String, RegimeError> {
    let model = MarkovSwitchingAr::new(&c.y, c.spec)?;
    let q = params(c)?;
    match c.call.as_str() {
        "loglike" => Ok(loglik(model.loglike(&q)?)),
        "filter" => {
            let r = model.filter(&q)?;
            Ok(loglik(r.loglik) + &table("filtered", &r.filtered_prob))
        }
        "fit" => {
            let r = model.fit(&q, c.max_iter, c.tol)?;
            let passes = format!("iterations {}\nconverged {}\n", r.iterations, r.converged as u8);
            Ok(loglik(r.loglik) + &passes + &parameters(&r.params) + &table("smoothed", &r.smoothed_prob))
        }
        _ => {
            let r = model.smooth(&q)?;
            Ok(loglik(r.loglik) + &table("filtered", &r.filtered_prob) + &table("smoothed", &r.smoothed_prob))
        }
    }
}

/// The document says it of every shape; the Rust has to agree where it builds the parameters.
fn matches(c: &Case) -> String {
    let said = document::matches(c);
    if document::has_rows(c) {
        if let Ok(q) = params(c) {
            assert_eq!(q.matches_spec(&c.spec), said, "case {}: matches", c.id);
        }
    }
    format!("matches {}\n", said as u8)
}

fn by_the_rust(c: &Case) -> Result<String, RegimeError> {
    match c.call.as_str() {
        "windows" => Ok(format!("windows {}\n", c.spec.expanded_states()?)),
        "matches" => Ok(matches(c)),
        "check" | "durations" | "shares" => of_parameters(c),
        _ => of_model(c),
    }
}

fn refused(r: Refusal) -> String {
    format!("refusal {} {} {:016x}\n", r.number, r.place, pattern(r.value))
}

/// A refusal of the run. The untouched Rust does not say all of it. A zero is +0: the document's sums start there, and the
/// larger of its two zeros is that.
fn refused_running(c: &Case, t: Told) -> String {
    let place = t.place.map_or("-".to_string(), |p| p.to_string());
    let value = t.value.map_or("-".to_string(), |v| format!("{:016x}", pattern(v + 0.0)));
    let refusal = format!("refusal {} {place} {value}\n", t.number);
    if c.call == "shares" { refusal } else { refusal + &format!("running {}\n", met::begun()) }
}

fn answer(c: &Case) -> String {
    (met::take(), met::begun());
    rule::set(c.rule);
    assert!(rule::HAS_TWO || !rule::differs(c.spec.order), "case {}: rule 2 at order zero", c.id);
    let early = document::early(c);
    if let Some(r) = early {
        if document::is_own(r, c) || (c.call != "windows" && !document::has_rows(c)) {
            return refused(r);
        }
    }
    match (early, by_the_rust(c).map_err(told::of)) {
        (None, Ok(lines)) => lines,
        (None, Err(t)) if t.is_running(&c.call) => refused_running(c, t),
        (Some(r), Err(t)) if t.is(r) => refused(r),
        (r, Ok(_)) => panic!("case {}: the document refuses, {r:?}, and the Rust answers", c.id),
        (r, Err(t)) => panic!("case {}: the Rust refuses with {}, the document says {r:?}", c.id, t.number),
    }
}

fn main() -> std::io::Result<()> {
    let mut out = BufWriter::new(std::io::stdout().lock());
    let mut reader = Reader::default();
    for line in std::io::stdin().lock().lines() {
        if let Some(c) = reader.line(&line?) {
            write!(out, "answer {}\n{}end\n", c.id, answer(&c))?;
        }
    }
    out.flush()
}
