//! Document 01's table, rows 1 to 9 and 19, and the domain of the comparison.

use crate::reference::words::Line;
use crate::reference::Wants;
use crate::start::{Call, Start};

/// The number by which a start is refused; the lower comes first, but 19 after 1 and before 2.
pub fn start(s: &Start) -> Option<u8> {
    let has_mappings = s.call != Call::Inner;
    let has_limits = matches!(s.call, Call::Inner | Call::Loop);
    let has_loop = s.call == Call::Loop;

    let n_wrong = s.n < 1 || s.n > 64 || s.u.len() as u64 != s.n;
    let takes_any_u = matches!(s.call, Call::Psi | Call::DPsi);
    let u_wrong = !takes_any_u && s.u.iter().any(|x| !x.is_finite());
    let xi_places = if s.n1 == 0 && s.n2 == 0 {
        0
    } else {
        s.n1 as u128 + 1
    };
    let xi_wrong = s.xi.len() as u128 != xi_places;
    let mappings_wrong = s.n1 > 32 || s.n2 > 32 || xi_wrong || (s.set_y && s.n1 == 0);
    let m_wrong = s.m < 1 || s.m > 10_000;
    let k_wrong = s.k < 1 || s.k > 1_000;

    let not_above_0 = |x: f64| !(x.is_finite() && x > 0.0);
    let not_between = |x: f64| !(x > 0.0 && x < 1.0);
    let tolerance_wrong = not_above_0(s.tolerance) || s.akkt.is_some_and(not_above_0);
    let factor_wrong = !(s.penalty_factor.is_finite() && s.penalty_factor >= 1.0);
    let loop_settings_wrong = not_above_0(s.epsilon)
        || not_above_0(s.delta)
        || s.akkt.is_none()
        || factor_wrong
        || not_between(s.epsilon_factor)
        || not_between(s.coefficient);
    let xi_values_wrong =
        s.xi.first().is_some_and(|&c| not_above_0(c)) || s.xi.iter().any(|x| !x.is_finite());

    if n_wrong {
        Some(1)
    } else if u_wrong {
        Some(19)
    } else if has_mappings && mappings_wrong {
        Some(2)
    } else if (has_limits && m_wrong) || (has_loop && k_wrong) {
        Some(3)
    } else if (has_limits && tolerance_wrong) || (has_loop && loop_settings_wrong) {
        Some(4)
    } else if has_loop && xi_values_wrong {
        Some(5)
    } else {
        None
    }
}

/// True where the Rust's builders take an accepted start.
pub fn in_domain(s: &Start) -> bool {
    let spacing = f64::EPSILON;
    let inside = |x: f64| x > spacing && x < 1.0 - spacing;
    s.call != Call::Loop
        || (s.penalty_factor > 1.0 + spacing
            && inside(s.epsilon_factor)
            && inside(s.coefficient)
            && s.akkt >= Some(s.epsilon)
            && s.xi.first().is_none_or(|&c| c > spacing))
}

/// The number by which an answer to an open run is refused and the run left as it is.
pub fn answer(wants: Wants, never_fails: bool, line: &Line, lent_fits: bool) -> Option<u8> {
    let kind_fits = match line {
        Line::Number(_) => wants == Wants::Number,
        Line::Vector(_) => matches!(wants, Wants::Vector(_)),
        Line::Yes | Line::No => wants == Wants::YesNo,
        Line::Failure(_) => !never_fails,
        _ => false,
    };
    let length_fits = match (line, wants) {
        (Line::Vector(v), Wants::Vector(n)) => v.len() == n,
        _ => true,
    };
    if !kind_fits {
        Some(7)
    } else if !length_fits || !lent_fits {
        Some(8)
    } else {
        None
    }
}
