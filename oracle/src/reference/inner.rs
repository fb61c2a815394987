//! One inner solve, question by question, as document 01 words it.

use super::vectors::{all_finite, dot, is_finite, norm, squares, squares_between};
use super::{End, Given, Wants};

/// What the solve has asked.
#[derive(Debug, Clone, Copy, PartialEq, Eq)]
pub enum Place {
    Cost,
    Gradient,
    ShiftedGradient,
    Project,
    HalfCost,
    DoublingProject,
    DoublingCost,
    Direction,
    FirstCost,
    FirstGradient,
    FirstProject,
    CandidateCost,
    CandidateGradient,
    CandidateProject,
    Time,
    BestCost,
}

/// What an accepted answer leads to.
#[derive(Debug, Clone, Copy, PartialEq, Eq)]
pub enum Then {
    Asks,
    Ends,
    Refuses(u8),
}

#[derive(Debug, Clone)]
pub struct Inner {
    pub place: Place,
    pub n: usize,
    pub m: u64,
    pub limited: bool,
    pub tolerance: f64,
    pub akkt: Option<f64>,
    pub u: Vec<f64>,
    pub gradient: Vec<f64>,
    pub previous: Vec<f64>,
    pub shift: Vec<f64>,
    pub gradient_step: Vec<f64>,
    pub half: Vec<f64>,
    pub residual: Vec<f64>,
    pub direction: Vec<f64>,
    pub candidate: Vec<f64>,
    pub best: Vec<f64>,
    pub best_norm: f64,
    pub norm: f64,
    pub cost: f64,
    pub half_cost: f64,
    pub lipschitz: f64,
    pub gamma: f64,
    pub sigma: f64,
    pub distance: f64,
    pub tau: f64,
    pub rhs: f64,
    pub forget: bool,
    pub rounds: u32,
    pub halvings: u32,
    pub steps: u64,
    pub iterations: u64,
    pub more_iterations: bool,
    pub more_time: bool,
    pub end: End,
    pub last_cost: f64,
}

impl Inner {
    /// A solve that has asked its first COST.
    pub fn new(u: &[f64], m: u64, limited: bool, tolerance: f64, akkt: Option<f64>) -> Inner {
        let n = u.len();
        let zeros = vec![0.0; n];
        Inner {
            place: Place::Cost,
            n,
            m,
            limited,
            tolerance,
            akkt,
            u: u.to_vec(),
            gradient: zeros.clone(),
            previous: zeros.clone(),
            shift: zeros.clone(),
            gradient_step: zeros.clone(),
            half: zeros.clone(),
            residual: zeros.clone(),
            direction: zeros.clone(),
            candidate: zeros.clone(),
            best: zeros,
            best_norm: f64::INFINITY,
            norm: f64::INFINITY,
            cost: 0.0,
            half_cost: 0.0,
            lipschitz: 0.0,
            gamma: 0.0,
            sigma: 0.0,
            distance: 0.0,
            tau: 1.0,
            rhs: 0.0,
            forget: true,
            rounds: 0,
            halvings: 0,
            steps: 0,
            iterations: 0,
            more_iterations: true,
            more_time: true,
            end: End::Converged,
            last_cost: 0.0,
        }
    }

    pub fn wants(&self) -> Wants {
        match self.place {
            Place::Cost
            | Place::HalfCost
            | Place::DoublingCost
            | Place::FirstCost
            | Place::CandidateCost
            | Place::BestCost => Wants::Number,
            Place::Time => Wants::YesNo,
            _ => Wants::Vector(self.n),
        }
    }

    /// An answer of the kind and length asked.
    pub fn answer(&mut self, given: Given) -> Then {
        match self.place {
            Place::Cost => {
                self.cost = given.number();
                self.ask(Place::Gradient)
            }
            Place::Gradient => {
                self.gradient.copy_from_slice(given.vector());
                for i in 0..self.n {
                    self.shift[i] = shift(self.u[i]);
                    self.u[i] += self.shift[i];
                }
                self.ask(Place::ShiftedGradient)
            }
            Place::ShiftedGradient => {
                self.lipschitz = self.estimate(given.vector());
                if !is_finite(self.cost) || !all_finite(&self.gradient) {
                    return Then::Refuses(10);
                }
                self.gamma = 0.95 / larger(self.lipschitz, 1e-10);
                self.sigma = sigma(self.gamma);
                self.take_gradient_step();
                self.ask(Place::Project)
            }
            Place::Project => {
                self.take_half_step(given.vector());
                self.step()
            }
            Place::HalfCost => {
                self.half_cost = given.number();
                if !is_finite(self.half_cost) {
                    return Then::Refuses(11);
                }
                self.rounds = 0;
                self.double_or_go_on()
            }
            Place::DoublingProject => {
                self.take_half_step(given.vector());
                self.ask(Place::DoublingCost)
            }
            Place::DoublingCost => {
                self.half_cost = given.number();
                if !is_finite(self.half_cost) {
                    return Then::Refuses(12);
                }
                self.take_residual();
                self.rounds += 1;
                self.double_or_go_on()
            }
            Place::Direction => {
                self.forget = false;
                if self.steps == 0 {
                    self.u.copy_from_slice(&self.half);
                    return self.ask(Place::FirstCost);
                }
                self.direction.copy_from_slice(given.vector());
                let fbe = self.envelope(self.cost, &self.gradient, self.distance);
                self.rhs = fbe - self.sigma * self.norm * self.norm;
                self.tau = 1.0;
                self.halvings = 0;
                self.take_candidate();
                self.ask(Place::CandidateCost)
            }
            Place::FirstCost => {
                self.cost = given.number();
                self.ask(Place::FirstGradient)
            }
            Place::FirstGradient => {
                self.gradient.copy_from_slice(given.vector());
                if !is_finite(self.cost) || !all_finite(&self.gradient) {
                    return Then::Refuses(13);
                }
                self.take_gradient_step();
                self.ask(Place::FirstProject)
            }
            Place::FirstProject => {
                self.take_half_step(given.vector());
                self.next_step()
            }
            Place::CandidateCost => {
                self.cost = given.number();
                self.ask(Place::CandidateGradient)
            }
            Place::CandidateGradient => {
                self.gradient.copy_from_slice(given.vector());
                if !is_finite(self.cost) || !all_finite(&self.gradient) {
                    return Then::Refuses(14);
                }
                for i in 0..self.n {
                    self.gradient_step[i] = self.candidate[i] - self.gamma * self.gradient[i];
                }
                self.ask(Place::CandidateProject)
            }
            Place::CandidateProject => {
                self.take_half_step(given.vector());
                let lhs = self.envelope(self.cost, &self.gradient, self.distance);
                if lhs > self.rhs && self.halvings < 10 {
                    self.tau /= 2.0;
                    self.halvings += 1;
                    self.take_candidate();
                    return self.ask(Place::CandidateCost);
                }
                self.u.copy_from_slice(&self.candidate);
                self.next_step()
            }
            Place::Time => {
                self.more_time = given.yes();
                self.step()
            }
            Place::BestCost => {
                self.last_cost = given.number();
                if !is_finite(self.last_cost) {
                    return Then::Refuses(16);
                }
                Then::Ends
            }
        }
    }

    fn ask(&mut self, place: Place) -> Then {
        self.place = place;
        Then::Asks
    }

    /// The beginning of a step, up to its COST or the end of the steps.
    fn step(&mut self) -> Then {
        if self.steps >= 1 {
            self.previous.copy_from_slice(&self.gradient);
        }
        self.take_residual();
        self.score();
        let akkt_passes = match self.akkt {
            Some(akkt) => self.akkt_residual(&self.residual) < akkt,
            None => true,
        };
        if self.norm < self.tolerance && akkt_passes {
            return self.finish();
        }
        self.ask(Place::HalfCost)
    }

    /// A round of doubling, or DIRECTION.
    fn double_or_go_on(&mut self) -> Then {
        let exceeds = self.half_cost > self.doubling_rhs(&self.residual, self.norm);
        if exceeds && self.rounds < 10 && self.lipschitz < 1e9 {
            self.forget = true;
            self.lipschitz *= 2.0;
            self.gamma /= 2.0;
            self.take_gradient_step();
            return self.ask(Place::DoublingProject);
        }
        self.sigma = sigma(self.gamma);
        self.ask(Place::Direction)
    }

    /// Between steps.
    fn next_step(&mut self) -> Then {
        self.steps += 1;
        if !(self.more_iterations && self.more_time) {
            return self.finish();
        }
        self.iterations += 1;
        self.more_iterations = self.iterations < self.m;
        if self.limited {
            return self.ask(Place::Time);
        }
        self.step()
    }

    /// After the last step.
    fn finish(&mut self) -> Then {
        self.take_residual();
        self.score();
        if !all_finite(&self.u) {
            return Then::Refuses(15);
        }
        self.end = if !self.more_iterations {
            End::NotConvergedIterations
        } else if !self.more_time {
            End::NotConvergedOutOfTime
        } else {
            End::Converged
        };
        self.ask(Place::BestCost)
    }

    fn take_gradient_step(&mut self) {
        for i in 0..self.n {
            self.gradient_step[i] = self.u[i] - self.gamma * self.gradient[i];
        }
    }

    fn take_half_step(&mut self, half: &[f64]) {
        self.half.copy_from_slice(half);
        self.distance = squares_between(&self.gradient_step, &self.half);
    }

    fn take_residual(&mut self) {
        for i in 0..self.n {
            self.residual[i] = self.u[i] - self.half[i];
        }
        self.norm = norm(&self.residual);
    }

    fn take_candidate(&mut self) {
        let rest = 1.0 - self.tau;
        for i in 0..self.n {
            self.candidate[i] = self.u[i] - rest * self.residual[i] - self.tau * self.direction[i];
        }
    }

    fn score(&mut self) {
        if self.norm < self.best_norm {
            self.best_norm = self.norm;
            self.best.copy_from_slice(&self.half);
        }
    }

    /// L for a shifted gradient.
    pub fn estimate(&self, shifted: &[f64]) -> f64 {
        squares_between(shifted, &self.gradient).sqrt() / norm(&self.shift)
    }

    /// The AKKT residual for a residual, with the gradients at hand.
    pub fn akkt_residual(&self, residual: &[f64]) -> f64 {
        let mut sum = 0.0;
        for i in 0..self.n {
            let r = residual[i] + self.gamma * (self.gradient[i] - self.previous[i]);
            sum += r * r;
        }
        sum.sqrt()
    }

    /// What the cost at the half step is compared with.
    pub fn doubling_rhs(&self, residual: &[f64], norm: f64) -> f64 {
        self.cost + 1e-6 * self.cost.abs() - dot(&self.gradient, residual)
            + (0.95 / (2.0 * self.gamma)) * norm * norm
    }

    /// The side of the line-search test that a cost, a gradient and d² give.
    pub fn envelope(&self, cost: f64, gradient: &[f64], distance: f64) -> f64 {
        cost - 0.5 * self.gamma * squares(gradient) + 0.5 * distance / self.gamma
    }
}

/// The shift at a place.
pub fn shift(s: f64) -> f64 {
    if 1e-6 * s > 1e-12 {
        1e-6 * s
    } else {
        1e-12
    }
}

fn sigma(gamma: f64) -> f64 {
    (1.0 - 0.95) / (4.0 * gamma)
}

/// The larger of the two; NaN is dropped.
fn larger(a: f64, b: f64) -> f64 {
    if a > b {
        a
    } else {
        b
    }
}
