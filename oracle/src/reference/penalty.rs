//! psi and d_psi, question by question, as document 01 words them.

use super::inner::Then;
use super::vectors::{squares, squares_between};
use super::{Given, Start, Wants};

/// What psi or d_psi has asked.
#[derive(Debug, Clone, Copy, PartialEq, Eq)]
pub enum Place {
    Cost,
    Gradient,
    F1,
    ProjectC,
    Jf1t,
    F2,
    Jf2t,
}

#[derive(Debug, Clone)]
pub struct Penalty {
    pub place: Place,
    pub set: Start,
    /// psi is asked, not d_psi.
    pub value_wanted: bool,
    pub value: f64,
    pub result: Vec<f64>,
    pub t: Vec<f64>,
    pub f2: Vec<f64>,
}

impl Penalty {
    pub fn new(set: &Start, value_wanted: bool) -> Penalty {
        Penalty {
            place: if value_wanted {
                Place::Cost
            } else {
                Place::Gradient
            },
            set: set.clone(),
            value_wanted,
            value: 0.0,
            result: vec![0.0; set.u.len()],
            t: vec![0.0; set.n1 as usize],
            f2: vec![0.0; set.n2 as usize],
        }
    }

    pub fn wants(&self) -> Wants {
        match self.place {
            Place::Cost => Wants::Number,
            Place::Gradient | Place::Jf1t | Place::Jf2t => Wants::Vector(self.set.u.len()),
            Place::F1 | Place::ProjectC => Wants::Vector(self.t.len()),
            Place::F2 => Wants::Vector(self.f2.len()),
        }
    }

    /// An answer of the kind and length asked.
    pub fn answer(&mut self, given: Given) -> Then {
        let c = self.set.xi.first().copied().unwrap_or(0.0);
        match self.place {
            Place::Cost => {
                self.value = given.number();
                self.first_mapping()
            }
            Place::Gradient => {
                self.result.copy_from_slice(given.vector());
                self.first_mapping()
            }
            Place::F1 => {
                let divisor = if self.value_wanted && !(c > 1.0) {
                    1.0
                } else {
                    c
                };
                for (i, x) in given.vector().iter().enumerate() {
                    self.t[i] = x + self.set.xi[i + 1] / divisor;
                }
                self.ask(Place::ProjectC)
            }
            Place::ProjectC => {
                let projection = given.vector();
                if self.value_wanted {
                    self.value += 0.5 * c * squares_between(&self.t, projection);
                    return self.second_mapping();
                }
                for (t, p) in self.t.iter_mut().zip(projection) {
                    *t -= p;
                }
                self.ask(Place::Jf1t)
            }
            Place::Jf1t => {
                self.add(c, given.vector());
                self.second_mapping()
            }
            Place::F2 => {
                self.f2.copy_from_slice(given.vector());
                if self.value_wanted {
                    self.value += 0.5 * c * squares(&self.f2);
                    return Then::Ends;
                }
                self.ask(Place::Jf2t)
            }
            Place::Jf2t => {
                self.add(c, given.vector());
                Then::Ends
            }
        }
    }

    fn ask(&mut self, place: Place) -> Then {
        self.place = place;
        Then::Asks
    }

    fn first_mapping(&mut self) -> Then {
        if self.set.n1 > 0 {
            return self.ask(Place::F1);
        }
        self.second_mapping()
    }

    fn second_mapping(&mut self) -> Then {
        if self.set.n2 > 0 {
            return self.ask(Place::F2);
        }
        Then::Ends
    }

    fn add(&mut self, c: f64, product: &[f64]) {
        for (r, p) in self.result.iter_mut().zip(product) {
            *r += c * p;
        }
    }
}
