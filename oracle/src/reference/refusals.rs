//! The rows 1 to 5 and 19 of document 01's table.

use super::vectors::is_finite;
use super::{Call, Start};

/// The number by which a start is refused.
pub fn of_start(set: &Start) -> Option<u8> {
    let alone = set.call == Call::Inner;
    let looped = set.call == Call::Loop;
    if !(1..=64).contains(&set.n) || set.u.len() as u64 != set.n {
        return Some(1);
    }
    if (alone || looped) && !set.u.iter().all(|&x| is_finite(x)) {
        return Some(19);
    }
    if !alone {
        let places = if set.n1 == 0 && set.n2 == 0 {
            0
        } else {
            1u64.saturating_add(set.n1)
        };
        let too_many = set.n1 > 32 || set.n2 > 32;
        let lone_y = looped && set.set_y && set.n1 == 0;
        if too_many || set.xi.len() as u64 != places || lone_y {
            return Some(2);
        }
    }
    if (alone || looped) && !(1..=10_000).contains(&set.m) {
        return Some(3);
    }
    if looped && !(1..=1_000).contains(&set.k) {
        return Some(3);
    }
    let positive = |x: f64| is_finite(x) && x > 0.0;
    let within = |x: f64| x > 0.0 && x < 1.0;
    if alone && !(positive(set.tolerance) && set.akkt.is_none_or(positive)) {
        return Some(4);
    }
    if looped {
        let tolerances = [set.tolerance, set.epsilon, set.delta];
        let tolerances_fit = tolerances.into_iter().all(positive);
        let akkt_fits = set.akkt.is_some_and(positive);
        let factor_fits = is_finite(set.penalty_factor) && set.penalty_factor >= 1.0;
        let fractions_fit = within(set.epsilon_factor) && within(set.coefficient);
        if !(tolerances_fit && akkt_fits && factor_fits && fractions_fit) {
            return Some(4);
        }
        if let Some((&c, y)) = set.xi.split_first() {
            if !positive(c) || !y.iter().all(|&y| is_finite(y)) {
                return Some(5);
            }
        }
    }
    None
}
