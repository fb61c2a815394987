//! Stands in for the `lbfgs` crate: the direction is that of the rule which the C side calls too.

use num::Float;
use std::sync::atomic::{AtomicPtr, Ordering};

/// The rule: whether to forget, the residual, u, the direction, n.
pub type Rule = extern "C" fn(i32, *const f64, *const f64, *mut f64, usize);

static RULE: AtomicPtr<()> = AtomicPtr::new(std::ptr::null_mut());

/// Sets the rule.
pub fn set(rule: Rule) {
    RULE.store(rule as *mut (), Ordering::Relaxed);
}

pub trait LbfgsPrecision: Float {
    fn ask(forget: bool, residual: &[Self], u: &[Self], direction: &mut [Self]);
}

impl LbfgsPrecision for f64 {
    fn ask(forget: bool, residual: &[f64], u: &[f64], direction: &mut [f64]) {
        let n = direction.len();
        assert!(residual.len() == n && u.len() == n);
        let rule = RULE.load(Ordering::Relaxed);
        assert!(!rule.is_null());
        // SAFETY: only `set` stores here, so it is a rule; the slices have n places.
        let rule: Rule = unsafe { std::mem::transmute(rule) };
        rule(
            forget.into(),
            residual.as_ptr(),
            u.as_ptr(),
            direction.as_mut_ptr(),
            n,
        );
    }
}

/// Holds the last direction, and whether to forget before the next.
#[derive(Debug)]
pub struct Lbfgs<T> {
    forget: bool,
    direction: Vec<T>,
}

impl<T: LbfgsPrecision> Lbfgs<T> {
    pub fn new(problem_size: usize, _memory: usize) -> Self {
        Lbfgs {
            forget: true,
            direction: vec![T::zero(); problem_size],
        }
    }

    pub fn with_cbfgs_alpha(self, _alpha: T) -> Self {
        self
    }

    pub fn with_cbfgs_epsilon(self, _epsilon: T) -> Self {
        self
    }

    pub fn with_sy_epsilon(self, _sy_epsilon: T) -> Self {
        self
    }

    pub fn reset(&mut self) {
        self.forget = true;
    }

    pub fn update_hessian(&mut self, g: &[T], state: &[T]) {
        T::ask(self.forget, g, state, &mut self.direction);
        self.forget = false;
    }

    pub fn apply_hessian(&mut self, g: &mut [T]) {
        g.copy_from_slice(&self.direction);
    }
}
