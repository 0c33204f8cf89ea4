//! Times filter, smooth and fit of the archive beside the Rust's own, on the same series and parameters, turn by turn.
//! Prints the median of many turns for each, in processor time of the thread, so that other work on the machine counts little;
//! and stops where the two disagree by more than their elementary functions. At order 0 it times rule 2 too, which the Rust has
//! not, beside the Rust's own.
use tsecon_regime::{FitResult, MarkovSwitchingAr, MsarParams, MsarSpec};

#[rustfmt::skip]
extern "C" {
    fn msar_filter(k: usize, order: usize, ar: bool, variance: bool, series: *const f64, readings: usize, counts: *const usize,
        numbers: *const f64, work: *mut f64, work_len: usize, filtered: *mut f64, filtered_len: usize, rule: usize,
        whole: *mut usize, real: *mut f64);
    fn msar_smooth(k: usize, order: usize, ar: bool, variance: bool, series: *const f64, readings: usize, counts: *const usize,
        numbers: *const f64, work: *mut f64, work_len: usize, filtered: *mut f64, filtered_len: usize, smoothed: *mut f64,
        smoothed_len: usize, rule: usize, whole: *mut usize, real: *mut f64);
    fn msar_fit(k: usize, order: usize, ar: bool, variance: bool, series: *const f64, readings: usize, counts: *const usize,
        numbers: *const f64, work: *mut f64, work_len: usize, smoothed: *mut f64, smoothed_len: usize, max_iter: usize, tol: f64,
        fitted: *mut f64, whole: *mut usize, real: *mut f64);
}

/// Passes of a fit. With a NaN tolerance it makes all of them.
const PASSES: usize = 20;

#[repr(C)]
struct Clock {
    seconds: i64,
    nanoseconds: i64,
}

extern "C" {
    fn clock_gettime(id: i32, clock: *mut Clock) -> i32;
}

/// Milliseconds of processor time that this thread has used (Linux: clock 3).
fn used() -> f64 {
    let mut c = Clock { seconds: 0, nanoseconds: 0 };
    assert_eq!(unsafe { clock_gettime(3, &mut c) }, 0, "no clock");
    c.seconds as f64 * 1e3 + c.nanoseconds as f64 / 1e6
}

/// Numbers in [0, 1), the same each run.
struct Dice(u64);

impl Dice {
    fn next(&mut self) -> f64 {
        self.0 = self.0.wrapping_add(0x9E37_79B9_7F4A_7C15);
        let mut z = self.0;
        z = (z ^ (z >> 30)).wrapping_mul(0xBF58_476D_1CE4_E5B9);
        z = (z ^ (z >> 27)).wrapping_mul(0x94D0_49BB_1331_11EB);
        ((z ^ (z >> 31)) >> 11) as f64 / (1u64 << 53) as f64
    }

    fn normal(&mut self) -> f64 {
        (0..12).map(|_| self.next()).sum::<f64>() - 6.0
    }
}

/// A model with one set of coefficients and a variance for each label, and a series drawn from it.
struct Drawn {
    spec: MsarSpec,
    params: MsarParams,
    counts: [usize; 6],
    numbers: [f64; 400],
    series: Vec<f64>,
}

fn draw(k: usize, p: usize, readings: usize) -> Drawn {
    let stay = 0.9;
    let leave = (1.0 - stay) / (k as f64 - 1.0);
    let transition: Vec<Vec<f64>> =
        (0..k).map(|i| (0..k).map(|j| if i == j { stay } else { leave }).collect()).collect();
    let means: Vec<f64> = (0..k).map(|i| i as f64 - (k as f64 - 1.0) / 2.0).collect();
    let ar: Vec<f64> = (0..p).map(|l| 0.3 / (l as f64 + 1.0)).collect();
    let variances: Vec<f64> = (0..k).map(|i| 0.5 + 0.1 * i as f64).collect();

    let mut dice = Dice(42 + (100 * k + p) as u64);
    let mut label = 0;
    let mut past = vec![0.0; p];
    let mut series = Vec::new();
    for _ in 0..readings {
        if dice.next() > stay {
            label = (dice.next() * k as f64) as usize % k;
        }
        let lags: f64 = ar.iter().zip(&past).map(|(phi, d)| phi * d).sum();
        let d = dice.normal() * variances[label].sqrt() + lags;
        past.insert(0, d);
        past.truncate(p);
        series.push(means[label] + d);
    }

    let mut numbers = [0.0; 400];
    for (i, row) in transition.iter().enumerate() {
        numbers[i * k..(i + 1) * k].copy_from_slice(row);
    }
    numbers[256..256 + k].copy_from_slice(&means);
    numbers[272..272 + p].copy_from_slice(&ar);
    numbers[384..384 + k].copy_from_slice(&variances);
    Drawn {
        spec: MsarSpec { k_regimes: k, order: p, switching_ar: false, switching_variance: true },
        params: MsarParams::new(transition, means, vec![ar], variances).expect("these parameters pass"),
        counts: [k, k * k, 1, p, p, k],
        numbers,
        series,
    }
}

/// The memory that our calls are lent. Work memory is one for all of them, and as much as any version of the library has asked
/// for, so that two versions can be timed. Nothing is cleared between calls: each call clears what it needs of it.
struct Lent {
    work: Vec<f64>,
    filtered: Vec<f64>,
    smoothed: Vec<f64>,
    fitted: [f64; 400],
    whole: [usize; 4],
    real: [f64; 2],
}

impl Lent {
    fn new(d: &Drawn) -> Lent {
        let (k, p) = (d.spec.k_regimes, d.spec.order);
        let rows = d.series.len() - p;
        let cells = rows * k.pow(p as u32 + 1);
        let table = vec![1.0; rows * k];
        Lent {
            work: vec![1.0; 3 * cells + 256],
            filtered: table.clone(),
            smoothed: table,
            fitted: [1.0; 400],
            whole: [9; 4],
            real: [9.0; 2],
        }
    }

    fn filter(&mut self, d: &Drawn, rule: usize) -> f64 {
        unsafe {
            msar_filter(
                d.spec.k_regimes, d.spec.order, false, true, d.series.as_ptr(), d.series.len(), d.counts.as_ptr(),
                d.numbers.as_ptr(), self.work.as_mut_ptr(), self.work.len(), self.filtered.as_mut_ptr(),
                self.filtered.len(), rule, self.whole.as_mut_ptr(), self.real.as_mut_ptr(),
            )
        }
        self.real[1]
    }

    fn smooth(&mut self, d: &Drawn, rule: usize) -> f64 {
        unsafe {
            msar_smooth(
                d.spec.k_regimes, d.spec.order, false, true, d.series.as_ptr(), d.series.len(), d.counts.as_ptr(),
                d.numbers.as_ptr(), self.work.as_mut_ptr(), self.work.len(), self.filtered.as_mut_ptr(),
                self.filtered.len(), self.smoothed.as_mut_ptr(), self.smoothed.len(), rule, self.whole.as_mut_ptr(),
                self.real.as_mut_ptr(),
            )
        }
        self.real[1]
    }

    fn fit(&mut self, d: &Drawn) -> f64 {
        unsafe {
            msar_fit(
                d.spec.k_regimes, d.spec.order, false, true, d.series.as_ptr(), d.series.len(), d.counts.as_ptr(),
                d.numbers.as_ptr(), self.work.as_mut_ptr(), self.work.len(), self.smoothed.as_mut_ptr(),
                self.smoothed.len(), PASSES, f64::NAN, self.fitted.as_mut_ptr(), self.whole.as_mut_ptr(),
                self.real.as_mut_ptr(),
            )
        }
        self.real[1]
    }
}

/// Median milliseconds of each, turn by turn, over about two seconds and no fewer turns than said.
fn medians(least: usize, mut ours: impl FnMut() -> f64, mut theirs: impl FnMut() -> f64) -> (f64, f64) {
    fn one(call: &mut impl FnMut() -> f64) -> f64 {
        let begin = used();
        std::hint::black_box(call());
        used() - begin
    }
    let (mut a, mut b) = (Vec::new(), Vec::new());
    let begin = used();
    while a.len() < least || used() - begin < 2e3 {
        a.push(one(&mut ours));
        b.push(one(&mut theirs));
    }
    a.sort_by(f64::total_cmp);
    b.sort_by(f64::total_cmp);
    (a[a.len() / 2], b[b.len() / 2])
}

/// The tables agree but for the last digits of the platform's functions. At order 0 by rule 1 smoothed numbers grow without
/// bound, in both alike, so a gap counts over the number's size.
fn agree(ours: &[f64], theirs: &[Vec<f64>]) {
    for (a, b) in ours.iter().zip(theirs.iter().flatten()) {
        let same = a == b || a.is_nan() && b.is_nan() || (a - b).abs() <= 1e-9 * a.abs().max(1.0);
        assert!(same, "the tables differ: {a} and {b}");
    }
}

/// Ours answer, and by rule 1 as the Rust does.
fn check(d: &Drawn, lent: &mut Lent, rule: usize) {
    let model = MarkovSwitchingAr::new(&d.series, d.spec).expect("this series binds");
    lent.filter(d, rule);
    assert_eq!(lent.whole[0], 0, "our filter refused");
    if rule == 1 {
        agree(&lent.filtered, &model.filter(&d.params).expect("the Rust filters").filtered_prob);
    }
    lent.smooth(d, rule);
    assert_eq!(lent.whole[0], 0, "our smoother refused");
    if rule == 1 {
        agree(&lent.smoothed, &model.smooth(&d.params).expect("the Rust smooths").smoothed_prob);
    }
}

fn filter_and_smoother(d: &Drawn, rule: usize) {
    let (k, p, readings) = (d.spec.k_regimes, d.spec.order, d.series.len());
    let mut lent = Lent::new(d);
    let bind = || MarkovSwitchingAr::new(&d.series, d.spec).expect("this series binds");
    let said = if rule == 1 { "" } else { "  ours by rule 2" };
    check(d, &mut lent, rule);
    let (ours, theirs) = medians(15, || lent.filter(d, rule), || bind().filter(&d.params).map_or(0.0, |r| r.loglik));
    println!("filter {k:2} {p} {readings:5} {ours:11.4} {theirs:11.4} {:11.2}{said}", theirs / ours);
    let (ours, theirs) = medians(15, || lent.smooth(d, rule), || bind().smooth(&d.params).map_or(0.0, |r| r.loglik));
    println!("smooth {k:2} {p} {readings:5} {ours:11.4} {theirs:11.4} {:11.2}{said}", theirs / ours);
}

fn filters_and_smoothers() {
    for (k, p) in [(2, 0), (16, 0), (2, 1), (2, 4), (2, 7), (4, 3), (16, 1)] {
        for readings in [256, 4096] {
            let d = draw(k, p, readings);
            for rule in 1..=if p == 0 { 2 } else { 1 } {
                filter_and_smoother(&d, rule);
            }
        }
    }
}

/// The two fits made the same passes and came to the same: the gaps of the platform's functions grow with each pass.
fn agree_fits(lent: &Lent, k: usize, theirs: &FitResult) {
    assert_eq!(lent.whole, [0, 0, PASSES, 0], "our fit refused, or made other passes");
    assert_eq!((theirs.iterations, theirs.converged), (PASSES, false), "the Rust made other passes");
    let near = |a: f64, b: f64| (a - b).abs() <= 1e-6 * b.abs().max(1.0);
    assert!(near(lent.real[1], theirs.loglik), "log-likelihoods {} and {}", lent.real[1], theirs.loglik);
    for (a, &b) in lent.fitted[256..256 + k].iter().zip(theirs.params.means()) {
        assert!(near(*a, b), "the means differ: {a} and {b}");
    }
}

fn fits() {
    for (k, p) in [(2, 1), (2, 4), (3, 2), (16, 1)] {
        for readings in [1000, 4096] {
            let d = draw(k, p, readings);
            let mut lent = Lent::new(&d);
            let fit = || MarkovSwitchingAr::new(&d.series, d.spec).and_then(|m| m.fit(&d.params, PASSES, f64::NAN));
            lent.fit(&d);
            agree_fits(&lent, k, &fit().expect("the Rust fits"));
            let (ours, theirs) = medians(5, || lent.fit(&d), || fit().map_or(0.0, |r| r.loglik));
            println!("fit    {k:2} {p} {readings:5} {ours:11.4} {theirs:11.4} {:11.2}", theirs / ours);
        }
    }
}

/// With the word `fits` only these.
fn main() {
    println!("                     ours ms     Rust ms   Rust/ours");
    if std::env::args().nth(1).as_deref() != Some("fits") {
        filters_and_smoothers();
    }
    fits();
}
