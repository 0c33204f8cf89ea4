//! The column at which the Rust's solver stops, which its error does not name. It is worked out in two ways that have to agree: by
//! an elimination written here from document 01's words, beside the Rust's, and by asking the Rust's own `solve`.

/// 1e-300, below which a pivot's magnitude stops the solver.
const LEAST: f64 = 1e-300;

/// The first row in which the column has its largest magnitude, of the rows that have no pivot yet; a NaN in the first of them
/// stays, any other is passed over. `rows` has the rows in the order in which they stand by now: none is moved.
fn pivot(a: &[f64], n: usize, rows: &[usize], c: usize) -> usize {
    let size = |i: usize| a[rows[i] * n + c].abs();
    (c + 1..n).fold(c, |best, i| if size(i) > size(best) { i } else { best })
}

/// By elimination: the first column whose pivot is too small.
fn by_elimination(a: &[f64], n: usize) -> Option<usize> {
    let (mut a, mut rows) = (a.to_vec(), (0..n).collect::<Vec<_>>());
    for c in 0..n {
        let found = pivot(&a, n, &rows, c);
        rows.swap(c, found);
        let top = rows[c] * n;
        if a[top + c].abs() < LEAST {
            return Some(c);
        }
        for &row in &rows[c + 1..] {
            let factor = a[row * n + c] / a[top + c];
            if factor != 0.0 {
                (c..n).for_each(|j| a[row * n + j] -= factor * a[top + j]);
            }
        }
    }
    None
}

/// By asking: a column of NaNs is never refused and stays one, so with NaNs in all columns behind c the solver refuses exactly
/// where it stops at c or before.
fn by_asking(a: &[f64], n: usize, refuses: impl Fn(Vec<f64>) -> bool) -> Option<usize> {
    let hidden_behind = |c: usize| a.iter().enumerate().map(|(e, &x)| if e % n > c { f64::NAN } else { x }).collect();
    (0..n).find(|&c| refuses(hidden_behind(c)))
}

/// The column at which a table of n rows stops the solver; `refuses` has the Rust's `solve` say whether it refuses a table.
pub fn stopped_at(a: &[f64], n: usize, refuses: impl Fn(Vec<f64>) -> bool) -> usize {
    let column = by_elimination(a, n);
    assert_eq!(column, by_asking(a, n, refuses), "the column by elimination, and by asking");
    column.expect("a pivot that is too small")
}
