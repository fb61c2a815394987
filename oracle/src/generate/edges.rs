//! Answers on the edge of a comparison, worked out from the numbers of the moment.

use crate::floats;
use crate::random::Random;
use crate::reference::inner::{Inner, Place};
use crate::reference::outer::{self, Outer};
use crate::reference::vectors::{norm, squares_between};
use crate::reference::words::Line;
use crate::reference::Run;

/// What the next answers of a candidate are to be, so that its test lands where it was placed.
#[derive(Debug, Clone, Copy, PartialEq, Eq)]
pub enum Hold {
    Nothing,
    /// A gradient of zeros, and then the projection at the point itself.
    FlatThenStay,
    /// The projection at the point itself.
    Stay,
}

/// An answer on an edge, with the name of the edge.
pub type Placed = Option<(Line, &'static str)>;

/// Places the answer to the question that stands, where an edge can be found.
pub fn place(random: &mut Random, run: &Run, hold: &mut Hold) -> Placed {
    match run {
        Run::Inner(inner) => of_inner(random, inner, hold),
        Run::Loop(run) if run.place == outer::Place::Inner => of_inner(random, &run.inner, hold),
        Run::Loop(run) => of_loop(random, run),
        Run::Penalty(_) => None,
    }
}

fn of_inner(random: &mut Random, inner: &Inner, hold: &mut Hold) -> Placed {
    match inner.place {
        Place::ShiftedGradient => shifted_gradient(random, inner),
        Place::Project | Place::FirstProject => half_step(random, inner, &inner.u),
        Place::HalfCost => {
            let rhs = inner.doubling_rhs(&inner.residual, inner.norm);
            near(random, rhs, "edge doubling")
        }
        Place::DoublingCost => {
            let residual = minus(&inner.u, &inner.half);
            let rhs = inner.doubling_rhs(&residual, norm(&residual));
            near(random, rhs, "edge doubling again")
        }
        Place::CandidateCost => {
            if random.chance(600) {
                *hold = Hold::FlatThenStay;
                return near(random, inner.rhs, "edge line search by cost");
            }
            // a cost above or below, so that the gradient or the projection can decide
            let away = inner.rhs.abs().max(1e-3) * random.signed();
            let cost = inner.rhs + away;
            cost.is_finite()
                .then_some((Line::Number(cost), "cost for a later edge"))
        }
        Place::CandidateGradient => candidate_gradient(random, inner, hold),
        Place::CandidateProject => {
            let name = "edge line search by projection";
            let placed = if random.chance(600) {
                at_envelope(random, inner, inner.rhs, name)
            } else {
                None
            };
            placed.or_else(|| half_step(random, inner, &inner.candidate))
        }
        _ => None,
    }
}

/// A number within two floats of a limit.
fn near(random: &mut Random, limit: f64, name: &'static str) -> Placed {
    let k = random.pick(&[-2, -1, 0, 0, 1, 1, 2]);
    let x = floats::step(limit, k);
    x.is_finite().then_some((Line::Number(x), name))
}

/// One of two neighbours, seldom a float further.
fn one_of(random: &mut Random, (near, far): (f64, f64)) -> f64 {
    let further = if far > near { 1 } else { -1 };
    match random.below(8) {
        0 => floats::step(near, -further),
        1 => floats::step(far, further),
        2..=4 => near,
        _ => far,
    }
}

/// Changes place `i` of `v` to where the test changes, on the way from its value to a distance of `reach`.
fn tune(
    random: &mut Random,
    mut v: Vec<f64>,
    reach: f64,
    name: &'static str,
    test: impl Fn(&[f64]) -> bool,
) -> Placed {
    let i = random.below(v.len());
    let from = v[i];
    let to = from + reach * random.pick(&[1.0, -1.0]);
    if !from.is_finite() || !to.is_finite() {
        return None;
    }
    let trial = std::cell::RefCell::new(v.clone());
    let found = floats::edge(from, to, |x| {
        let mut trial = trial.borrow_mut();
        trial[i] = x;
        test(&trial)
    })?;
    v[i] = one_of(random, found);
    Some((Line::Vector(v), name))
}

/// `v` with its places moved by less than `reach`, or left.
fn loosened(random: &mut Random, v: &[f64], reach: f64) -> Vec<f64> {
    if random.chance(500) {
        return v.to_vec();
    }
    let share = 0.9 * reach / (v.len() as f64).sqrt();
    v.iter().map(|x| x + share * random.signed()).collect()
}

/// A shifted gradient for which L is at a limit: of the doubling, also after some rounds, or of γ.
fn shifted_gradient(random: &mut Random, inner: &Inner) -> Placed {
    let (limit, name) = match random.below(3) {
        0 => (1e9, "edge L at 1e9"),
        1 => {
            let rounds = 1 + random.below(12) as i32;
            (1e9 / 2f64.powi(rounds), "edge L at 1e9 after doubling")
        }
        _ => (1e-10, "edge L at 1e-10"),
    };
    let reach = 4.0 * limit * norm(&inner.shift);
    let from = inner.gradient.clone();
    tune(random, from, reach, name, |g| inner.estimate(g) < limit)
}

/// A half step whose norm is at the tolerance, at the AKKT tolerance, or at the best so far.
fn half_step(random: &mut Random, inner: &Inner, point: &[f64]) -> Placed {
    let first = inner.place == Place::Project;
    match random.below(5) {
        0 => at_norm(random, point, inner.tolerance, "edge tolerance"),
        1 => {
            let akkt = inner.akkt?;
            if !first {
                return at_norm(random, point, akkt, "edge AKKT, later step");
            }
            // the residual plus γ × gradient is to have the norm wanted
            let centre: Vec<f64> = (0..inner.n)
                .map(|i| point[i] + inner.gamma * inner.gradient[i])
                .collect();
            let from = loosened(random, &centre, akkt);
            tune(random, from, 3.0 * akkt, "edge AKKT, first step", |half| {
                inner.akkt_residual(&minus(point, half)) < akkt
            })
        }
        2 => at_norm(random, point, inner.best_norm, "edge score"),
        3 => at_envelope(random, inner, 0.0, "envelope near 0"),
        _ => {
            // a residual of the same norm as the last, by signs and order
            let mut residual = inner.residual.clone();
            let turn = random.below(residual.len());
            residual.rotate_left(turn);
            let half: Vec<f64> = point
                .iter()
                .zip(&residual)
                .map(|(p, r)| p - r * random.pick(&[1.0, -1.0]))
                .collect();
            (!first).then_some((Line::Vector(half), "edge score, equal norm"))
        }
    }
}

/// A half step at a distance from the point.
fn at_norm(random: &mut Random, point: &[f64], limit: f64, name: &'static str) -> Placed {
    let from = loosened(random, point, limit);
    tune(random, from, 3.0 * limit, name, |half| {
        norm(&minus(point, half)) < limit
    })
}

/// A gradient for which the candidate's test is at its limit, with the projection at the point.
fn candidate_gradient(random: &mut Random, inner: &Inner, hold: &mut Hold) -> Placed {
    let spare = inner.cost - inner.rhs;
    let reach = 2.0 * (2.0 * spare.abs() / inner.gamma).sqrt();
    let zeros = vec![0.0; inner.n];
    let from = loosened(random, &zeros, 0.5 * reach);
    let placed = tune(
        random,
        from,
        2.0 * reach,
        "edge line search by gradient",
        |g| inner.envelope(inner.cost, g, 0.0) > inner.rhs,
    );
    if placed.is_some() {
        *hold = Hold::Stay;
    }
    placed
}

/// A half step for which the cost, the gradient and d² together are at a limit: that of the candidate's test, or 0, so that
/// σ × norm × norm is all that is left of the next limit.
fn at_envelope(random: &mut Random, inner: &Inner, limit: f64, name: &'static str) -> Placed {
    let spare = limit - inner.envelope(inner.cost, &inner.gradient, 0.0);
    let reach = 2.0 * (2.0 * spare.abs() * inner.gamma).sqrt();
    let from = loosened(random, &inner.gradient_step, 0.5 * reach);
    tune(random, from, 2.0 * reach, name, |half| {
        let distance = squares_between(&inner.gradient_step, half);
        inner.envelope(inner.cost, &inner.gradient, distance) > limit
    })
}

/// F2 or a projection on C for which an exit test, or the test that keeps c, is at its limit.
fn of_loop(random: &mut Random, run: &Outer) -> Placed {
    let exits = random.chance(500);
    match run.place {
        outer::Place::F2 => {
            let (limit, name) = if exits {
                (run.exit_f2(), "edge exit by F2")
            } else {
                (run.stall_f2(), "edge penalty by F2")
            };
            let zeros = vec![0.0; run.set.n2 as usize];
            let from = loosened(random, &zeros, limit);
            tune(random, from, 3.0 * limit, name, |f2| norm(f2) <= limit)
        }
        outer::Place::ProjectC => {
            let (limit, name) = if exits {
                (run.exit_delta_y(), "edge exit by y")
            } else {
                (run.stall_delta_y(), "edge penalty by y")
            };
            let reach = limit / run.c;
            let from = loosened(random, &run.f1, reach);
            tune(random, from, 3.0 * reach, name, |projection| {
                let y_plus = run.multipliers(projection);
                squares_between(&y_plus, &run.y).sqrt() <= limit
            })
        }
        _ => None,
    }
}

/// a - b by places.
pub fn minus(a: &[f64], b: &[f64]) -> Vec<f64> {
    a.iter().zip(b).map(|(x, y)| x - y).collect()
}
