//! The multiplier loop, question by question, as document 01 words it.

use super::inner::{Inner, Then};
use super::vectors::{norm, squares_between};
use super::{End, Given, Start, Wants};

/// The spacing of floats at 1, which the exit tests add.
pub const SPACING: f64 = f64::EPSILON;

/// What the loop has asked.
#[derive(Debug, Clone, Copy, PartialEq, Eq)]
pub enum Place {
    Time,
    ProjectY,
    Inner,
    F1,
    ProjectC,
    F2,
    LastCost,
}

#[derive(Debug, Clone)]
pub struct Outer {
    pub place: Place,
    pub set: Start,
    pub inner: Inner,
    pub u: Vec<f64>,
    pub c: f64,
    pub y: Vec<f64>,
    pub y_plus: Vec<f64>,
    pub f1: Vec<f64>,
    pub delta_y: f64,
    pub former_delta_y: f64,
    pub f2: f64,
    pub former_f2: f64,
    pub akkt: f64,
    pub iteration: u64,
    pub outer_count: u64,
    pub inner_count: u64,
    pub norm: f64,
    pub end: End,
    pub inner_end: End,
    pub last_cost: f64,
}

impl Outer {
    /// A loop that has asked its first question.
    pub fn new(set: &Start) -> Outer {
        let inner = Inner::new(&set.u, set.m, set.limited, set.tolerance, set.akkt);
        let y = set.xi.get(1..).unwrap_or(&[]).to_vec();
        let mut run = Outer {
            place: Place::Time,
            inner,
            u: set.u.clone(),
            c: set.xi.first().copied().unwrap_or(0.0),
            y_plus: vec![0.0; y.len()],
            f1: vec![0.0; y.len()],
            y,
            delta_y: 0.0,
            former_delta_y: 0.0,
            f2: 0.0,
            former_f2: 0.0,
            akkt: set.akkt.unwrap_or(f64::NAN),
            iteration: 0,
            outer_count: 0,
            inner_count: 0,
            norm: 0.0,
            end: End::Converged,
            inner_end: End::Converged,
            last_cost: 0.0,
            set: set.clone(),
        };
        if !set.limited {
            run.begin();
        }
        run
    }

    /// The xi of a question at this moment.
    pub fn xi(&self) -> Vec<f64> {
        if self.set.xi.is_empty() {
            return Vec::new();
        }
        let mut xi = vec![if self.place == Place::LastCost {
            0.0
        } else {
            self.c
        }];
        xi.extend_from_slice(&self.y);
        xi
    }

    /// The point of PROJECT on C.
    pub fn c_point(&self) -> Vec<f64> {
        (0..self.y.len())
            .map(|i| self.f1[i] + self.y[i] / self.c)
            .collect()
    }

    pub fn wants(&self) -> Wants {
        match self.place {
            Place::Time => Wants::YesNo,
            Place::Inner => self.inner.wants(),
            Place::ProjectY | Place::F1 | Place::ProjectC => Wants::Vector(self.y.len()),
            Place::F2 => Wants::Vector(self.set.n2 as usize),
            Place::LastCost => Wants::Number,
        }
    }

    /// An answer of the kind and length asked.
    pub fn answer(&mut self, given: Given) -> Then {
        match self.place {
            Place::Time => {
                if given.yes() {
                    return self.begin();
                }
                if self.outer_count == 0 {
                    return Then::Refuses(17);
                }
                self.end = End::NotConvergedOutOfTime;
                self.ask(Place::LastCost)
            }
            Place::ProjectY => {
                self.y.copy_from_slice(given.vector());
                self.solve()
            }
            Place::Inner => match self.inner.answer(given) {
                Then::Ends => {
                    self.u.copy_from_slice(&self.inner.best);
                    self.norm = self.inner.best_norm;
                    self.inner_count += self.inner.iterations;
                    self.inner_end = self.inner.end;
                    if self.set.n1 > 0 {
                        return self.ask(Place::F1);
                    }
                    self.second_mapping()
                }
                other => other,
            },
            Place::F1 => {
                self.f1.copy_from_slice(given.vector());
                self.ask(Place::ProjectC)
            }
            Place::ProjectC => {
                self.y_plus = self.multipliers(given.vector());
                self.second_mapping()
            }
            Place::F2 => {
                self.f2 = norm(given.vector());
                self.tests()
            }
            Place::LastCost => {
                self.last_cost = given.number();
                if self.delta_y.is_nan() || self.f2.is_nan() {
                    return Then::Refuses(18);
                }
                Then::Ends
            }
        }
    }

    /// y_plus for a projection on C.
    pub fn multipliers(&self, projection: &[f64]) -> Vec<f64> {
        (0..self.y.len())
            .map(|i| self.y[i] + self.c * (self.f1[i] - projection[i]))
            .collect()
    }

    fn ask(&mut self, place: Place) -> Then {
        self.place = place;
        Then::Asks
    }

    /// An outer iteration, after its TIME.
    fn begin(&mut self) -> Then {
        self.outer_count += 1;
        if self.set.set_y {
            return self.ask(Place::ProjectY);
        }
        self.solve()
    }

    fn solve(&mut self) -> Then {
        let set = &self.set;
        self.inner = Inner::new(&self.u, set.m, set.limited, set.tolerance, Some(self.akkt));
        self.ask(Place::Inner)
    }

    fn second_mapping(&mut self) -> Then {
        if self.set.n2 > 0 {
            return self.ask(Place::F2);
        }
        self.tests()
    }

    /// The exit tests, and what follows them.
    fn tests(&mut self) -> Then {
        if self.set.n1 > 0 {
            self.delta_y = squares_between(&self.y_plus, &self.y).sqrt();
        }
        let passed = self.exits();
        if !passed {
            if !self.keeps_penalty() {
                self.c *= self.set.penalty_factor;
            }
            self.akkt = self.next_akkt();
            self.iteration += 1;
            self.former_delta_y = self.delta_y;
            self.former_f2 = self.f2;
            self.y.copy_from_slice(&self.y_plus);
        }
        self.end = self.inner_end;
        let out_of_time = self.inner_end == End::NotConvergedOutOfTime;
        let at_limit = self.outer_count == self.set.k;
        if at_limit && !passed {
            self.end = End::NotConvergedIterations;
        }
        if out_of_time || passed || at_limit {
            return self.ask(Place::LastCost);
        }
        if self.set.limited {
            return self.ask(Place::Time);
        }
        self.begin()
    }

    fn exits(&self) -> bool {
        let first = self.set.n1 == 0 || (self.iteration > 0 && self.delta_y <= self.exit_delta_y());
        let second = self.set.n2 == 0 || self.f2 <= self.exit_f2();
        first && second && self.akkt <= self.set.epsilon + SPACING
    }

    /// What |y_plus - y| must not exceed at the exit.
    pub fn exit_delta_y(&self) -> f64 {
        self.c * self.set.delta + SPACING
    }

    /// What |F2| must not exceed at the exit.
    pub fn exit_f2(&self) -> f64 {
        self.set.delta + SPACING
    }

    /// What |y_plus - y| must not exceed for the penalty to stay.
    pub fn stall_delta_y(&self) -> f64 {
        self.set.coefficient * self.former_delta_y + SPACING
    }

    /// What |F2| must not exceed for the penalty to stay.
    pub fn stall_f2(&self) -> f64 {
        self.set.coefficient * self.former_f2 + SPACING
    }

    fn keeps_penalty(&self) -> bool {
        if self.iteration == 0 {
            return true;
        }
        if self.set.n1 == 0 && self.set.n2 == 0 {
            return false;
        }
        let first = self.set.n1 == 0 || self.delta_y <= self.stall_delta_y();
        let second = self.set.n2 == 0 || self.f2 <= self.stall_f2();
        first && second
    }

    fn next_akkt(&self) -> f64 {
        let next = self.akkt * self.set.epsilon_factor;
        if next > self.set.epsilon {
            next
        } else {
            self.set.epsilon
        }
    }
}
