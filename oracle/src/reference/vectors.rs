//! Sums from place 0, one rounding for each operation.

/// The sum of the squares.
pub fn squares(a: &[f64]) -> f64 {
    let mut sum = 0.0;
    for &x in a {
        sum += x * x;
    }
    sum
}

/// The sum of the squares of the differences.
pub fn squares_between(a: &[f64], b: &[f64]) -> f64 {
    let mut sum = 0.0;
    for i in 0..a.len() {
        sum += (a[i] - b[i]) * (a[i] - b[i]);
    }
    sum
}

/// The root of the sum of the squares.
pub fn norm(a: &[f64]) -> f64 {
    squares(a).sqrt()
}

/// The sum of the products.
pub fn dot(a: &[f64], b: &[f64]) -> f64 {
    let mut sum = 0.0;
    for i in 0..a.len() {
        sum += a[i] * b[i];
    }
    sum
}

/// True where the number minus itself equals 0.
#[allow(clippy::eq_op)]
pub fn is_finite(x: f64) -> bool {
    x - x == 0.0
}

/// True where every place is finite.
pub fn all_finite(a: &[f64]) -> bool {
    a.iter().all(|&x| is_finite(x))
}
