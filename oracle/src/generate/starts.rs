//! Starts: accepted ones within the domain, and refused ones.

use super::values;
use crate::floats;
use crate::random::Random;
use crate::start::{Call, Start};
use crate::table;

/// How long a run may become.
#[derive(Debug, Clone, Copy, PartialEq, Eq)]
pub enum Length {
    Short,
    Long,
}

/// An accepted start that the Rust's builders take.
pub fn accepted(random: &mut Random, call: Call, length: Length) -> Start {
    loop {
        let start = any(random, call, length);
        if table::start(&start).is_none() && table::in_domain(&start) {
            return start;
        }
    }
}

/// A start that the table refuses: an accepted one with a thing wrong, and at times another that is tested later.
pub fn refused(random: &mut Random, call: Call) -> Start {
    let numbers: &[u8] = match call {
        Call::Inner => &[1, 19, 3, 4],
        Call::Loop => &[1, 19, 2, 3, 4, 5],
        Call::Psi | Call::DPsi => &[1, 2],
    };
    let place = random.below(numbers.len());
    let number = numbers[place];
    loop {
        let mut start = accepted(random, call, Length::Short);
        if random.chance(300) {
            let later = random.pick(&numbers[place..]);
            spoil(random, &mut start, later);
        }
        spoil(random, &mut start, number);
        if table::start(&start) == Some(number) {
            return start;
        }
    }
}

/// An accepted start that the Rust's builders refuse.
pub fn outside(random: &mut Random) -> Start {
    let spacing = f64::EPSILON;
    let mut start = accepted(random, Call::Loop, Length::Short);
    let fractions = [spacing, 5e-324, 1.0 - spacing, 1.0 - spacing / 2.0];
    match random.below(5) {
        0 => start.penalty_factor = random.pick(&[1.0, 1.0 + spacing]),
        1 => start.epsilon_factor = random.pick(&fractions),
        2 => start.coefficient = random.pick(&fractions),
        3 => start.akkt = Some(random.pick(&[5e-324, floats::step(start.epsilon, -1)])),
        _ => {
            if let Some(c) = start.xi.first_mut() {
                *c = random.pick(&[spacing, 1e-300, 5e-324]);
            }
        }
    }
    start
}

/// A start whose run goes on for long: all iterations of an inner solve, or of the loop.
pub fn marathon(random: &mut Random) -> Start {
    let mut start = accepted(random, Call::Loop, Length::Short);
    start.n1 = start.n1.min(3);
    start.n2 = start.n2.min(3);
    let places = if start.n1 + start.n2 > 0 {
        start.n1 + 1
    } else {
        0
    };
    start.xi = vec![1.0; places as usize];
    start.set_y = false;
    start.u.truncate(2);
    start.n = start.u.len() as u64;
    start.tolerance = 1e-300;
    if random.chance(500) {
        start.call = Call::Inner;
        start.xi.clear();
        start.m = 10_000;
        start.akkt = None;
    } else {
        start.k = 1_000;
        start.m = 1;
        start.epsilon = 1e-300;
        start.akkt = Some(1e300);
        start.epsilon_factor = 0.999;
        start.penalty_factor = 1.0 + 4.0 * f64::EPSILON;
    }
    start
}

fn any(random: &mut Random, call: Call, length: Length) -> Start {
    let n = size(random, &[1, 1, 1, 2, 2, 2, 3, 3, 4, 5, 6], &[63, 64]);
    let u = point(random, n);
    let mut start = Start::new(call, &u);
    if call != Call::Inner {
        start.n1 = size(random, &[0, 0, 1, 1, 1, 2, 2, 3], &[31, 32]) as u64;
        start.n2 = size(random, &[0, 0, 1, 1, 1, 2, 2, 3], &[31, 32]) as u64;
        start.xi = xi(random, call, start.n1 as usize, start.n2 as usize);
    }
    if call == Call::Loop {
        start.set_y = start.n1 > 0 && random.chance(500);
    }
    start.m = match length {
        Length::Short => random.pick(&[1, 1, 1, 1, 2, 2, 3, 4]),
        Length::Long => random.pick(&[10, 20, 60, 150, 9_999, 10_000]),
    };
    start.k = match length {
        Length::Short => random.pick(&[1, 1, 2, 2, 2, 3, 3, 4]),
        Length::Long => random.pick(&[6, 12, 30, 1_000]),
    };
    if call == Call::Loop && length == Length::Long && random.chance(500) {
        start.m = random.pick(&[1, 2]);
    }
    start.limited = random.chance(400);
    start.tolerance = tolerance(random);
    if call == Call::Inner {
        start.akkt = random.chance(600).then(|| akkt(random, start.tolerance));
    } else {
        loop_settings(random, &mut start);
    }
    start
}

/// One of the usual sizes, seldom one at the limit.
fn size(random: &mut Random, usual: &[usize], limits: &[usize]) -> usize {
    if random.chance(8) {
        random.pick(limits)
    } else {
        random.pick(usual)
    }
}

fn point(random: &mut Random, n: usize) -> Vec<f64> {
    let (low, high) = values::shift_edge();
    let style = random.below(10);
    let mut u: Vec<f64> = (0..n)
        .map(|_| match style {
            0 => floats::step(random.pick(&[low, high]), random.below(3) as i64 - 1),
            1 => 0.0,
            2 => random.signed() * 2e-6,
            _ => values::plain(random),
        })
        .collect();
    if random.chance(60) {
        let i = random.below(n);
        u[i] = values::odd(random);
    }
    u
}

fn xi(random: &mut Random, call: Call, n1: usize, n2: usize) -> Vec<f64> {
    if n1 + n2 == 0 {
        return Vec::new();
    }
    let free = call != Call::Loop;
    let c = match random.below(10) {
        0 => 1.0,
        1 => floats::step(1.0, random.below(5) as i64 - 2),
        2 => 10.0,
        3 => 0.5,
        4 if free => random.pick(&[0.0, -0.0, -1.0, -3.0]),
        5 if free => values::odd(random),
        6 => values::huge(random).abs(),
        7 => 1e-3 * random.unit(),
        _ => 4.0 * random.unit(),
    };
    let mut xi = vec![c];
    for _ in 0..n1 {
        let y = if random.chance(40) {
            values::odd(random)
        } else {
            values::plain(random)
        };
        xi.push(y);
    }
    xi
}

/// A tolerance above 0.
fn tolerance(random: &mut Random) -> f64 {
    match random.below(12) {
        0..=3 => random.pick(&[0.5, 1.0, 0.25, 0.125, 2.0]),
        4 | 5 => random.unit(),
        6 => 1e-3,
        7 => 1e-6 * random.unit(),
        8 => 100.0 * random.unit(),
        9 => random.pick(&[1e10, 1e300, f64::MAX]),
        10 => random.pick(&[1e-15, 1e-100, 1e-160, 5e-324]),
        _ => 2f64.powi(random.below(60) as i32 - 40),
    }
}

/// An AKKT tolerance beside a tolerance of the norm.
fn akkt(random: &mut Random, tolerance: f64) -> f64 {
    match random.below(6) {
        0 => tolerance,
        1 => tolerance * 0.5,
        2 => floats::step(tolerance, random.below(5) as i64 - 2),
        3 => 1e10,
        4 => tolerance * 2.0,
        _ => self::tolerance(random),
    }
}

fn loop_settings(random: &mut Random, start: &mut Start) {
    let spacing = f64::EPSILON;
    start.epsilon = tolerance(random);
    start.delta = tolerance(random);
    start.penalty_factor = match random.below(6) {
        0 => 1.0 + 2.0 * spacing,
        1 => 5.0,
        2 => 1.5,
        3 => values::huge(random).abs(),
        _ => 1.0 + 9.0 * random.unit(),
    };
    start.epsilon_factor = fraction(random);
    start.coefficient = fraction(random);
    // the first AKKT tolerance: equal to ε, at the edge of the exit test, or so that ε stands at the edge of the next
    let epsilon = start.epsilon;
    let k = random.below(5) as i64 - 2;
    let akkt = match random.below(8) {
        0..=2 => epsilon,
        3 => floats::step(epsilon + spacing, k),
        4 => floats::step(epsilon / start.epsilon_factor, k),
        5 => floats::step((epsilon + spacing) / start.epsilon_factor, k),
        6 => epsilon * 4.0,
        _ => epsilon + tolerance(random),
    };
    start.akkt = Some(akkt);
}

/// Strictly between 0 and 1, within the Rust's limits.
fn fraction(random: &mut Random) -> f64 {
    let spacing = f64::EPSILON;
    match random.below(8) {
        0 => 0.5,
        1 => 0.1,
        2 => 0.9,
        3 => floats::step(spacing, 1),
        4 => floats::step(1.0 - spacing, -1),
        _ => random.unit(),
    }
}

/// Makes one thing of a start wrong that a number of the table is about.
fn spoil(random: &mut Random, start: &mut Start, number: u8) {
    let above_all = random.pick(&[u64::MAX, 1 << 32, 10_001, 66]);
    let not_above_0 = random.pick(&[
        0.0,
        -0.0,
        -1.0,
        -5e-324,
        f64::NAN,
        f64::INFINITY,
        f64::NEG_INFINITY,
    ]);
    let not_between = random.pick(&[0.0, -0.0, 1.0, 1.5, -0.5, f64::NAN, f64::INFINITY]);
    match number {
        1 => match random.below(5) {
            0 => start.n = random.pick(&[0, 65, above_all]),
            1 => start.n = start.n.wrapping_add(random.pick(&[1, u64::MAX])),
            2 => start.u.push(0.0),
            3 => {
                start.u.pop();
            }
            _ => {
                start.n = random.pick(&[0, 65]);
                start.u = vec![0.5; start.n as usize];
            }
        },
        2 => match random.below(6) {
            0 => start.n1 = random.pick(&[33, above_all]),
            1 => start.n2 = random.pick(&[33, above_all]),
            2 => start.xi.push(1.0),
            3 => {
                start.xi.pop();
            }
            4 => {
                start.n1 = 33;
                start.xi = vec![1.0; 34];
            }
            _ => {
                start.set_y = start.call == Call::Loop;
                start.n1 = 0;
                start.xi.truncate(start.n2.min(1) as usize);
            }
        },
        3 => match random.below(2) {
            0 => start.m = random.pick(&[0, 10_001, above_all.max(10_001)]),
            _ => start.k = random.pick(&[0, 1_001, above_all.max(1_001)]),
        },
        4 => match random.below(7) {
            0 => start.tolerance = not_above_0,
            1 => start.akkt = Some(not_above_0),
            2 => start.epsilon = not_above_0,
            3 => start.delta = not_above_0,
            4 => start.epsilon_factor = not_between,
            5 => start.coefficient = not_between,
            _ => {
                let below_1 = floats::step(1.0, -1);
                start.penalty_factor = random.pick(&[below_1, 0.0, -2.0, f64::NAN, f64::INFINITY]);
            }
        },
        19 => {
            if !start.u.is_empty() {
                let i = random.below(start.u.len());
                start.u[i] = values::not_finite(random);
            }
        }
        _ => {
            if !start.xi.is_empty() {
                let i = random.below(start.xi.len());
                start.xi[i] = if i == 0 {
                    not_above_0
                } else {
                    values::not_finite(random)
                };
            }
        }
    }
}
