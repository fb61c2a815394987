//! Stands in for the `lbfgs` crate: the direction is asked of the host.
//!
//! The question is put where the buffer is updated, since the first step updates it and takes no direction.

use num::Float;

/// The number types that can carry the question.
pub trait LbfgsPrecision: Float {
    fn ask(forget: bool, residual: &[Self], u: &[Self], direction: &mut [Self]);
}

impl LbfgsPrecision for f64 {
    fn ask(forget: bool, residual: &[f64], u: &[f64], direction: &mut [f64]) {
        host::get().direction(forget, residual, u, direction);
    }
}

/// Holds the last direction answered, and whether to forget before the next.
#[derive(Debug)]
pub struct Lbfgs<T> {
    forget: bool,
    direction: Vec<T>,
}

impl<T: LbfgsPrecision> Lbfgs<T> {
    pub fn new(problem_size: usize, _memory: usize) -> Self {
        Lbfgs {
            forget: true,
            direction: vec![T::zero(); problem_size],
        }
    }

    pub fn with_cbfgs_alpha(self, _alpha: T) -> Self {
        self
    }

    pub fn with_cbfgs_epsilon(self, _epsilon: T) -> Self {
        self
    }

    pub fn with_sy_epsilon(self, _sy_epsilon: T) -> Self {
        self
    }

    /// The next question says that directions are forgotten.
    pub fn reset(&mut self) {
        self.forget = true;
    }

    /// Asks DIRECTION at the residual `g` and the point `state`.
    pub fn update_hessian(&mut self, g: &[T], state: &[T]) {
        T::ask(self.forget, g, state, &mut self.direction);
        self.forget = false;
    }

    /// Hands over the answer.
    pub fn apply_hessian(&mut self, g: &mut [T]) {
        g.copy_from_slice(&self.direction);
    }
}
