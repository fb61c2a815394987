//! Numbers for answers and starts.

use crate::floats;
use crate::random::Random;
use std::sync::OnceLock;

/// The two neighbours between which the shift changes its rule.
pub fn shift_edge() -> (f64, f64) {
    static EDGE: OnceLock<(f64, f64)> = OnceLock::new();
    *EDGE.get_or_init(|| floats::edge(1e-7, 1e-5, |s| 1e-6 * s > 1e-12).expect("an edge"))
}

/// A small number, often one whose sums and products are exact.
pub fn plain(random: &mut Random) -> f64 {
    match random.below(8) {
        0 => 0.0,
        1 => random.pick(&[1.0, -1.0]),
        2 => random.pick(&[0.5, -0.5, 2.0, -2.0, 0.25, 3.0, -3.0, 4.0, -0.0]),
        3 => (random.below(33) as f64 - 16.0) / 8.0,
        4 | 5 => random.signed(),
        6 => 10.0 * random.signed(),
        _ => random.signed() * random.pick(&[1e-3, 1e-6, 1e-9, 1e3, 1e-12]),
    }
}

/// A finite number of any size.
pub fn finite(random: &mut Random) -> f64 {
    loop {
        let x = f64::from_bits(random.next());
        if x.is_finite() {
            return x;
        }
    }
}

/// A large number, whose square may pass the largest.
pub fn huge(random: &mut Random) -> f64 {
    let x = random.pick(&[1e9, 1e100, 1e150, 1.3e154, 1e200, 1e300, f64::MAX]);
    x * random.pick(&[1.0, -1.0]) * (0.5 + 0.5 * random.unit())
}

/// A small number, whose square may vanish.
pub fn tiny(random: &mut Random) -> f64 {
    let x = random.pick(&[1e-9, 1e-100, 1e-160, 1e-162, 1e-300, 5e-324, 2.2e-308]);
    x * random.pick(&[1.0, -1.0])
}

/// Not a number, in several patterns, or an infinity.
pub fn not_finite(random: &mut Random) -> f64 {
    match random.below(5) {
        0 => f64::INFINITY,
        1 => f64::NEG_INFINITY,
        2 => f64::from_bits(0xfff8_0000_0000_0000),
        3 => f64::from_bits(0x7ff0_0000_0000_0001 | random.next() >> 13),
        _ => f64::NAN,
    }
}

/// A number out of the ordinary, most often a finite one.
pub fn odd(random: &mut Random) -> f64 {
    match random.below(12) {
        0 => not_finite(random),
        1 => 0.0,
        2 => -0.0,
        3 | 4 => huge(random),
        5 | 6 => tiny(random),
        7 => finite(random),
        8 => floats::step(shift_edge().0, random.below(4) as i64 - 1),
        9 => floats::step(1.0, random.below(3) as i64 - 1),
        _ => 100.0 * random.signed(),
    }
}
