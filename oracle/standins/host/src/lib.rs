//! Hands the questions of the `lbfgs` and `web_time` stand-ins to whoever drives the engine.

use std::cell::RefCell;
use std::rc::Rc;
use std::time::Duration;

/// Answers what the engine does not ask by a callback.
pub trait Host {
    /// DIRECTION: the answer goes into `direction`.
    fn direction(&self, forget: bool, residual: &[f64], u: &[f64], direction: &mut [f64]);
    /// The time since a start: a TIME question, or only a duration to be reported.
    fn elapsed(&self) -> Duration;
}

thread_local! {
    static HOST: RefCell<Option<Rc<dyn Host>>> = const { RefCell::new(None) };
}

/// Sets who answers from here on, on this thread.
pub fn set(host: Rc<dyn Host>) {
    HOST.with(|h| *h.borrow_mut() = Some(host));
}

/// Who answers.
pub fn get() -> Rc<dyn Host> {
    HOST.with(|h| h.borrow().clone()).expect("no host is set")
}
