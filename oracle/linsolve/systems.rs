//! Makes linear systems and has the Rust's `solve` answer them: systems FOLDER SEED ROUNDS writes FOLDER/stdin and
//! FOLDER/stdout. systems.sh builds it beside the untouched linsolve.rs. README.md says what the systems are for.
//! Nothing here makes a NaN by arithmetic or calls the platform's mathematics, so every machine writes the same bytes.

use std::fs::File;
use std::io::{BufWriter, Write};

mod column;
mod linsolve;

/// Stands in for the file error.rs, which is not among the sources. linsolve.rs makes this variant and no other.
mod error {
    pub enum RegimeError {
        Singular { what: &'static str },
    }
}

/// The tag that `solve` is given, and has to hand back.
const TAG: &str = "systems";

/// The most equations that the library takes.
const MOST: usize = 16;

/// Sizes that the library answers by itself: the Rust takes any.
const TOO_LARGE: [u64; 3] = [MOST as u64 + 1, 1 << 8, u64::MAX];

/// 1e-300, below which a pivot's magnitude stops the Rust.
const EDGE: u64 = 0x01a5_6e1f_c2f8_f359;

const NAN: [u64; 4] = [0x7ff8_0000_0000_0000, 0xfff8_0000_0000_0000, 0x7ff0_0000_0000_0001, 0xffff_dead_beef_0123];

const SPECIAL: [u64; 20] = [
    0x0000_0000_0000_0000,
    0x8000_0000_0000_0000,
    0x0000_0000_0000_0001,
    0x8000_0000_0000_0001,
    0x000f_ffff_ffff_ffff,
    0x0010_0000_0000_0000,
    EDGE - 1,
    EDGE,
    EDGE + 1,
    EDGE | 1 << 63,
    0x3ff0_0000_0000_0000,
    0xbff0_0000_0000_0000,
    0x3ff0_0000_0000_0001,
    0x4000_0000_0000_0000,
    0xc008_0000_0000_0000,
    0x7fef_ffff_ffff_ffff,
    0xffef_ffff_ffff_ffff,
    0x7ff0_0000_0000_0000,
    0xfff0_0000_0000_0000,
    0x7ff8_0000_0000_0000,
];

/// SplitMix64.
struct Draw(u64);

impl Draw {
    fn bits(&mut self) -> u64 {
        self.0 = self.0.wrapping_add(0x9e37_79b9_7f4a_7c15);
        let z = (self.0 ^ self.0 >> 30).wrapping_mul(0xbf58_476d_1ce4_e5b9);
        let z = (z ^ z >> 27).wrapping_mul(0x94d0_49bb_1331_11eb);
        z ^ z >> 31
    }

    fn below(&mut self, n: usize) -> usize {
        (self.bits() >> 11) as usize % n
    }

    fn one_in(&mut self, n: usize) -> bool {
        self.below(n) == 0
    }

    /// From 0 up to 1.
    fn unit(&mut self) -> f64 {
        (self.bits() >> 11) as f64 / 9_007_199_254_740_992.0
    }

    /// From -1 up to 1.
    fn within(&mut self) -> f64 {
        2.0 * self.unit() - 1.0
    }

    fn sign(&mut self) -> f64 {
        if self.one_in(2) {
            1.0
        } else {
            -1.0
        }
    }

    /// 1 to n, of either sign.
    fn whole(&mut self, n: usize) -> f64 {
        self.sign() * (1 + self.below(n)) as f64
    }

    fn zero(&mut self) -> f64 {
        self.sign() * 0.0
    }

    fn infinity(&mut self) -> f64 {
        self.sign() * f64::INFINITY
    }

    fn nan(&mut self) -> f64 {
        f64::from_bits(NAN[self.below(NAN.len())])
    }

    fn special(&mut self) -> f64 {
        f64::from_bits(SPECIAL[self.below(SPECIAL.len())])
    }

    /// A number whose exponent field is from `low` to `high`, of either sign.
    fn exponent(&mut self, low: u64, high: u64) -> f64 {
        let field = low + self.below((high - low + 1) as usize) as u64;
        f64::from_bits(self.bits() & 0x800f_ffff_ffff_ffff | field << 52)
    }

    /// A power of two from 2^-size to 2^size.
    fn scale(&mut self, size: usize) -> f64 {
        f64::from_bits(((1023 - size + self.below(2 * size + 1)) as u64) << 52)
    }
}

/// n equations; the table row by row.
struct System {
    n: usize,
    a: Vec<f64>,
    b: Vec<f64>,
}

impl System {
    fn of(n: usize, mut a: impl FnMut(usize, usize) -> f64, mut b: impl FnMut(usize) -> f64) -> System {
        let table = (0..n * n).map(|at| a(at / n, at % n)).collect();
        System { n, a: table, b: (0..n).map(|i| b(i)).collect() }
    }

    fn at(&mut self, i: usize, j: usize) -> &mut f64 {
        &mut self.a[i * self.n + j]
    }

    /// Equation i of the new system is equation order[i] of the old one.
    fn in_order(self, order: &[usize]) -> System {
        let n = self.n;
        System::of(n, |i, j| self.a[order[i] * n + j], |i| self.b[order[i]])
    }
}

/// Its equations in another order, by a random permutation.
fn shuffled(mut s: System, draw: &mut Draw) -> System {
    for i in (1..s.n).rev() {
        let k = draw.below(i + 1);
        for j in 0..s.n {
            s.a.swap(i * s.n + j, k * s.n + j);
        }
        s.b.swap(i, k);
    }
    s
}

// ---- plain systems

fn dense(draw: &mut Draw, n: usize) -> System {
    let a: Vec<f64> = (0..n * n).map(|_| draw.within()).collect();
    System::of(n, |i, j| a[i * n + j], |_| draw.within())
}

/// The diagonal outweighs its row and its column, so nothing is exchanged.
fn dominant(draw: &mut Draw, n: usize) -> System {
    let mut s = dense(draw, n);
    for i in 0..n {
        *s.at(i, i) += draw.sign() * n as f64;
    }
    s
}

/// The first row of a dominant system last: every column but the last finds its pivot in the last row.
fn exchanged(draw: &mut Draw, n: usize) -> System {
    let order: Vec<usize> = (0..n).map(|i| (i + 1) % n).collect();
    dominant(draw, n).in_order(&order)
}

fn exchanged_at_random(draw: &mut Draw, n: usize) -> System {
    let s = dominant(draw, n);
    shuffled(s, draw)
}

/// 1 / (i + j + 1): pivots that fall fast.
fn hilbert(draw: &mut Draw, n: usize) -> System {
    System::of(n, |i, j| 1.0 / (i + j + 1) as f64, |_| draw.within())
}

/// Weighted sums of products, as the fit's steps make them, with their ridge.
fn normal_equations(draw: &mut Draw, n: usize) -> System {
    let mut s = System::of(n, |_, _| 0.0, |_| 0.0);
    let size = draw.scale(20);
    for _ in 0..n + draw.below(2 * n) {
        let (weight, y) = (draw.unit() / size, draw.within() * size);
        let x: Vec<f64> = (0..n).map(|_| if draw.one_in(4) { 0.0 } else { draw.within() * size }).collect();
        for i in 0..n {
            s.b[i] += weight * x[i] * y;
            for j in 0..n {
                *s.at(i, j) += weight * x[i] * x[j];
            }
        }
    }
    let largest = (0..n).fold(0.0, |m: f64, i| m.max(s.a[i * n + i]));
    for i in 0..n {
        *s.at(i, i) += 1e-12 * largest;
    }
    s
}

/// Rows and columns times powers of two.
fn scaled(draw: &mut Draw, n: usize) -> System {
    let mut s = dense(draw, n);
    for i in 0..n {
        let (row, column) = (draw.scale(200), draw.scale(200));
        s.b[i] *= row;
        for j in 0..n {
            *s.at(i, j) *= row;
            *s.at(j, i) *= column;
        }
    }
    s
}

// ---- equal magnitudes

/// The product of a lower table of ones of either sign and an upper one of whole numbers. It is exact, and so is the
/// elimination: in every column all rows from the diagonal down have the same magnitude.
fn tied(draw: &mut Draw, n: usize) -> System {
    let lower: Vec<f64> = (0..n * n).map(|at| if at % n > at / n { 0.0 } else { draw.sign() }).collect();
    let upper: Vec<f64> = (0..n * n).map(|at| if at / n > at % n { 0.0 } else { draw.whole(3) }).collect();
    let entry = |i: usize, j: usize| (0..n).fold(0.0, |sum, m| sum + lower[i * n + m] * upper[m * n + j]);
    System::of(n, entry, |_| draw.within())
}

/// The same with the last row halved and put first: in every column the diagonal has half the magnitude of the rows below,
/// which are equal, and the first of those is exchanged with it.
fn tied_below(draw: &mut Draw, n: usize) -> System {
    let mut s = tied(draw, n);
    for j in 0..n {
        *s.at(n - 1, j) *= 0.5;
    }
    let order: Vec<usize> = (0..n).map(|i| (i + n - 1) % n).collect();
    s.in_order(&order)
}

/// Ones of either sign, and the same with zeros among them: ties, zero factors and singular tables by turns.
fn signs(draw: &mut Draw, n: usize) -> System {
    let zeros = draw.one_in(2);
    let a: Vec<f64> = (0..n * n).map(|_| if zeros && draw.one_in(3) { draw.zero() } else { draw.sign() }).collect();
    System::of(n, |i, j| a[i * n + j], |_| draw.whole(9) / 7.0)
}

/// Wilkinson's table: the last column doubles at every step, and every column is tied.
fn doubling(draw: &mut Draw, n: usize) -> System {
    let entry = |i: usize, j: usize| {
        if i == j || j + 1 == n {
            1.0
        } else if i > j {
            -1.0
        } else {
            0.0
        }
    };
    System::of(n, entry, |_| draw.within())
}

// ---- zero factors

fn sparse(draw: &mut Draw, n: usize) -> System {
    let mut s = dense(draw, n);
    for at in 0..n * n {
        if draw.below(3) > 0 && (at / n != at % n || draw.one_in(4)) {
            s.a[at] = draw.zero();
        }
    }
    s
}

/// Zeros of either sign below the diagonal of one column, and in its row an infinity or a NaN: the rows below keep their
/// numbers only where zero factors are skipped.
fn skipped(draw: &mut Draw, n: usize) -> System {
    let mut s = dominant(draw, n);
    let c = draw.below(n);
    for i in c + 1..n {
        for j in 0..c + 1 {
            *s.at(i, j) = draw.zero();
        }
    }
    let worst = if draw.one_in(3) { draw.nan() } else { draw.infinity() };
    if c + 1 == n || draw.one_in(3) {
        s.b[c] = worst;
    } else {
        *s.at(c, c + 1 + draw.below(n - c - 1)) = worst;
    }
    s
}

/// Infinite pivots: finite numbers divided by them give factors of zero.
fn infinite_pivots(draw: &mut Draw, n: usize) -> System {
    let mut s = dominant(draw, n);
    for i in 0..n {
        if draw.one_in(2) {
            *s.at(i, i) = draw.infinity();
        }
    }
    s
}

/// Factors that are too small for a number, and so zero, beside an infinity in the pivot's row.
fn vanishing(draw: &mut Draw, n: usize) -> System {
    let mut s = System::of(n, |i, j| if i == j { 1e300 } else { 1e-300 }, |i| i as f64 + 1.0);
    for i in 0..n {
        for j in 0..n {
            *s.at(i, j) *= draw.within();
        }
        if i + 1 < n && draw.one_in(3) {
            *s.at(i, n - 1) = draw.infinity();
        }
    }
    s
}

// ---- NaN and infinity

/// Small whole numbers and zeros, so that a column can still run out of pivots beside the NaN.
fn small(draw: &mut Draw, n: usize) -> System {
    let a: Vec<f64> = (0..n * n).map(|_| if draw.one_in(3) { draw.zero() } else { draw.whole(3) }).collect();
    System::of(n, |i, j| a[i * n + j], |_| draw.whole(9))
}

fn small_or_dominant(draw: &mut Draw, n: usize) -> System {
    if draw.one_in(2) {
        small(draw, n)
    } else {
        dominant(draw, n)
    }
}

fn nan_on_diagonal(draw: &mut Draw, n: usize) -> System {
    let mut s = small_or_dominant(draw, n);
    let i = draw.below(n);
    *s.at(i, i) = draw.nan();
    s
}

fn nan_below_diagonal(draw: &mut Draw, n: usize) -> System {
    let mut s = small_or_dominant(draw, n);
    let i = 1 + draw.below(n - 1);
    *s.at(i, draw.below(i)) = draw.nan();
    s
}

fn nan_above_diagonal(draw: &mut Draw, n: usize) -> System {
    let mut s = small_or_dominant(draw, n);
    let i = draw.below(n - 1);
    *s.at(i, i + 1 + draw.below(n - 1 - i)) = draw.nan();
    s
}

fn nan_on_side(draw: &mut Draw, n: usize) -> System {
    let mut s = small_or_dominant(draw, n);
    s.b[draw.below(n)] = draw.nan();
    s
}

fn infinities(draw: &mut Draw, n: usize) -> System {
    let mut s = small_or_dominant(draw, n);
    for _ in 0..1 + draw.below(n) {
        match draw.below(n * n + n) {
            at if at < n * n => s.a[at] = draw.infinity(),
            at => s.b[at - n * n] = draw.infinity(),
        }
    }
    s
}

// ---- the ends of the range

/// Subnormal numbers and such around 1e-300, with larger ones on the diagonal.
fn tiny(draw: &mut Draw, n: usize) -> System {
    let mut s = System::of(n, |_, _| 0.0, |_| 0.0);
    for i in 0..n {
        for j in 0..n {
            *s.at(i, j) = if i == j { draw.exponent(26, 80) } else { draw.exponent(0, 60) };
        }
        s.b[i] = draw.exponent(0, 60);
    }
    s
}

/// A right-hand side so small that the unknowns are subnormal.
fn faint(draw: &mut Draw, n: usize) -> System {
    let mut s = dominant(draw, n);
    for b in s.b.iter_mut() {
        *b = draw.exponent(0, 4);
    }
    s
}

/// Sums and products that leave the range, which ends in infinities and NaN.
fn huge(draw: &mut Draw, n: usize) -> System {
    let a: Vec<f64> = (0..n * n).map(|_| draw.exponent(1990, 2046)).collect();
    System::of(n, |i, j| a[i * n + j], |_| draw.exponent(1000, 2046))
}

fn any_size(draw: &mut Draw, n: usize) -> System {
    let a: Vec<f64> = (0..n * n).map(|_| draw.exponent(0, 2046)).collect();
    System::of(n, |i, j| a[i * n + j], |_| draw.exponent(0, 2046))
}

/// A dominant system whose column c holds these patterns from the diagonal down, and zeros after them. The columns before it
/// are zero below the diagonal, so that they leave it as it is.
fn with_pivots(draw: &mut Draw, n: usize, c: usize, pivots: &[u64]) -> System {
    let mut s = dominant(draw, n);
    for i in 0..n {
        for j in 0..n {
            if j == c && i > c || i > j && j < c {
                *s.at(i, j) = 0.0;
            }
        }
    }
    for (d, &bits) in pivots.iter().enumerate() {
        *s.at(c + d, c) = f64::from_bits(bits);
    }
    s
}

/// Pivots at 1e-300 and beside it, alone and as the larger of two, in the first, a middle and the last column.
fn at_the_edge(draw: &mut Draw) -> Vec<System> {
    let mut all = Vec::new();
    let minus = 1 << 63;
    for step in [EDGE - 2, EDGE - 1, EDGE, EDGE + 1] {
        for (n, c) in [(1, 0), (2, 0), (2, 1), (5, 2), (16, 15)] {
            all.push(with_pivots(draw, n, c, &[step]));
            all.push(with_pivots(draw, n, c, &[step | minus]));
        }
        for (n, c) in [(2, 0), (3, 1), (4, 2)] {
            all.push(with_pivots(draw, n, c, &[EDGE - 3, step | minus]));
            all.push(with_pivots(draw, n, c, &[step, step | minus]));
        }
    }
    all
}

// ---- singular systems

fn zero_column(draw: &mut Draw, n: usize) -> System {
    let mut s = dense(draw, n);
    let j = draw.below(n);
    for i in 0..n {
        *s.at(i, j) = draw.zero();
    }
    s
}

/// Two rows equal, or one twice the other and of the other sign.
fn equal_rows(draw: &mut Draw, n: usize) -> System {
    let mut s = dense(draw, n);
    let times = if draw.one_in(2) { 1.0 } else { -2.0 };
    for j in 0..n {
        *s.at(n - 1, j) = times * s.a[j];
    }
    shuffled(s, draw)
}

/// Nothing is left of the first column; all zeros are positive.
fn identity_less_identity(draw: &mut Draw, n: usize) -> System {
    let one = |i: usize, j: usize| if i == j { 1.0 } else { 0.0 };
    System::of(n, |i, j| one(i, j) - one(i, j), |_| draw.within())
}

/// Every row a multiple of one row, by a whole number: the second column runs out of pivots, exactly or by rounding nearly.
fn one_row(draw: &mut Draw, n: usize) -> System {
    let row: Vec<f64> = (0..n).map(|_| draw.within()).collect();
    let times: Vec<f64> = (0..n).map(|_| draw.whole(9)).collect();
    System::of(n, |i, j| times[i] * row[j], |_| draw.within())
}

/// Whole numbers with a row that is the sum of the others.
fn dependent(draw: &mut Draw, n: usize) -> System {
    let mut s = small(draw, n);
    for j in 0..n {
        *s.at(n - 1, j) = (0..n - 1).fold(0.0, |sum, i| sum + s.a[i * n + j]);
    }
    shuffled(s, draw)
}

// ---- zeros

/// Zeros of either sign and ones, and zeros of either sign on the right.
fn zeros(draw: &mut Draw, n: usize) -> System {
    let mut s = System::of(n, |i, j| if i == j { 1.0 } else { 0.0 }, |_| 0.0);
    for i in 0..n {
        for j in 0..n {
            let sign = draw.sign();
            *s.at(i, j) = if i != j && draw.one_in(5) { sign } else { s.a[i * n + j] * sign };
        }
        s.b[i] = draw.zero();
    }
    shuffled(s, draw)
}

// ---- the stationary shares

/// (I - P) shares = 0 with the last equation replaced by the sum, as the Rust's model makes it.
fn shares_of(k: usize, p: &[f64]) -> System {
    let entry = |i: usize, j: usize| if i + 1 == k { 1.0 } else { (if i == j { 1.0 } else { 0.0 }) - p[i * k + j] };
    System::of(k, entry, |i| if i + 1 == k { 1.0 } else { 0.0 })
}

/// P with columns of sum one.
fn stochastic(k: usize, mut weight: impl FnMut(usize, usize) -> f64) -> Vec<f64> {
    let w: Vec<f64> = (0..k * k).map(|at| weight(at / k, at % k)).collect();
    let sum = |j: usize| (0..k).fold(0.0, |sum, i| sum + w[i * k + j]);
    (0..k * k).map(|at| w[at] / sum(at % k)).collect()
}

fn shares(draw: &mut Draw, k: usize) -> System {
    shares_of(k, &stochastic(k, |_, _| draw.unit()))
}

/// Each state mostly stays.
fn shares_staying(draw: &mut Draw, k: usize) -> System {
    let most = 10.0 * draw.scale(40);
    shares_of(k, &stochastic(k, |i, j| if i == j { most } else { draw.unit() }))
}

/// Few ways lead from a state to others; some states are closed, and some never reached.
fn shares_sparse(draw: &mut Draw, k: usize) -> System {
    shares_of(k, &stochastic(k, |i, j| if i == j || draw.one_in(3) { draw.unit() } else { 0.0 }))
}

/// P the identity, a cycle, two groups with no way between them, and states that nearly never leave.
fn shares_closed(draw: &mut Draw, k: usize) -> Vec<System> {
    let same = |i: usize, j: usize| if i == j { 1.0 } else { 0.0 };
    vec![
        shares_of(k, &stochastic(k, same)),
        shares_of(k, &stochastic(k, |i, j| same(i, (j + 1) % k))),
        shares_of(k, &stochastic(k, |i, j| if (i < k / 2) == (j < k / 2) { draw.unit() } else { 0.0 })),
        shares_of(k, &stochastic(k, |i, j| if i == j { 1.0 } else { draw.unit() * 1e-17 })),
    ]
}

// ---- anything

fn specials(draw: &mut Draw, n: usize) -> System {
    let a: Vec<f64> = (0..n * n).map(|_| draw.special()).collect();
    System::of(n, |i, j| a[i * n + j], |_| draw.special())
}

fn some_specials(draw: &mut Draw, n: usize) -> System {
    let mut s = dominant(draw, n);
    for _ in 0..1 + draw.below(n) {
        s.a[draw.below(n * n)] = draw.special();
        s.b[draw.below(n)] = draw.special();
    }
    s
}

fn patterns(draw: &mut Draw, n: usize) -> System {
    let a: Vec<f64> = (0..n * n).map(|_| f64::from_bits(draw.bits())).collect();
    System::of(n, |i, j| a[i * n + j], |_| f64::from_bits(draw.bits()))
}

// ---- the set

type Family = fn(&mut Draw, usize) -> System;

/// Taken at every size from their least one on.
const EVERY: [(Family, usize); 15] = [
    (dense, 0),
    (dominant, 0),
    (exchanged, 1),
    (exchanged_at_random, 1),
    (normal_equations, 1),
    (tied, 1),
    (tied_below, 2),
    (sparse, 1),
    (skipped, 1),
    (shares, 2),
    (shares_staying, 2),
    (shares_sparse, 2),
    (zeros, 1),
    (specials, 1),
    (patterns, 0),
];

/// Taken at the sizes below, from their least one on.
const SOME: [(Family, usize); 21] = [
    (hilbert, 1),
    (scaled, 1),
    (signs, 1),
    (doubling, 2),
    (infinite_pivots, 1),
    (vanishing, 1),
    (nan_on_diagonal, 1),
    (nan_below_diagonal, 2),
    (nan_above_diagonal, 2),
    (nan_on_side, 1),
    (infinities, 1),
    (tiny, 1),
    (faint, 1),
    (huge, 1),
    (any_size, 1),
    (zero_column, 1),
    (equal_rows, 2),
    (identity_less_identity, 1),
    (one_row, 2),
    (dependent, 2),
    (some_specials, 1),
];

/// The small ones twice: chance has most to decide there.
const SIZES: [usize; 9] = [1, 2, 2, 3, 3, 4, 5, 7, 16];

fn round(draw: &mut Draw) -> Vec<System> {
    let mut all = Vec::new();
    for (family, least) in EVERY {
        all.extend((least..=MOST).map(|n| family(draw, n)));
    }
    for (family, least) in SOME {
        all.extend(SIZES.iter().filter(|&&n| n >= least).map(|&n| family(draw, n)));
    }
    all.extend(at_the_edge(draw));
    for k in [2, 3, 5, 16] {
        all.extend(shares_closed(draw, k));
    }
    all
}

/// The pattern that is written: one for every NaN.
fn word(x: f64) -> u64 {
    if x.is_nan() {
        NAN[0]
    } else {
        x.to_bits()
    }
}

/// Writes a system and the Rust's answer, and says whether it was solved.
fn record(s: System, given: &mut impl Write, answered: &mut impl Write) -> std::io::Result<bool> {
    writeln!(given, "{:016x}", s.n)?;
    for x in s.a.iter().chain(&s.b) {
        writeln!(given, "{:016x}", x.to_bits())?;
    }
    match linsolve::solve(s.a.clone(), s.b, s.n, TAG) {
        Ok(x) => {
            writeln!(answered, "solved")?;
            for v in x {
                writeln!(answered, "{:016x}", word(v))?;
            }
            Ok(true)
        }
        Err(error::RegimeError::Singular { what }) => {
            assert_eq!(what, TAG);
            let refuses = |a: Vec<f64>| linsolve::solve(a, vec![0.0; s.n], s.n, TAG).is_err();
            writeln!(answered, "singular {}", column::stopped_at(&s.a, s.n, refuses))?;
            Ok(false)
        }
    }
}

fn main() -> std::io::Result<()> {
    let args: Vec<String> = std::env::args().collect();
    let number = |at: usize| args[at].parse::<u64>().expect("a whole number");
    let mut given = BufWriter::new(File::create(format!("{}/stdin", args[1]))?);
    let mut answered = BufWriter::new(File::create(format!("{}/stdout", args[1]))?);
    let mut draw = Draw(number(2));
    let (mut all, mut solved) = (0, 0);
    for _ in 0..number(3) {
        for s in round(&mut draw) {
            all += 1;
            solved += record(s, &mut given, &mut answered)? as u64;
        }
    }
    for n in TOO_LARGE {
        writeln!(given, "{n:016x}")?;
        writeln!(answered, "too large")?;
    }
    println!("{all} systems: {solved} solved, {} singular; and {} too large", all - solved, TOO_LARGE.len());
    given.flush()?;
    answered.flush()
}
