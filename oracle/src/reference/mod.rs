//! Document 01 as a plain machine: it stands in for the proved engine, and tells where an edge lies.

pub mod inner;
pub mod outer;
pub mod penalty;
pub mod program;
pub mod questions;
pub mod refusals;
pub mod vectors;
pub mod words;

pub use crate::start::{Call, Start};
pub use inner::{Inner, Then};
pub use outer::Outer;
pub use penalty::Penalty;

/// The three ends.
#[derive(Debug, Clone, Copy, PartialEq, Eq)]
pub enum End {
    Converged,
    NotConvergedIterations,
    NotConvergedOutOfTime,
}

/// What a question wants.
#[derive(Debug, Clone, Copy, PartialEq, Eq)]
pub enum Wants {
    Number,
    Vector(usize),
    YesNo,
}

/// An answer of the kind asked.
#[derive(Debug, Clone, Copy)]
pub enum Given<'a> {
    Number(f64),
    Vector(&'a [f64]),
    Yes,
    No,
}

impl<'a> Given<'a> {
    fn number(self) -> f64 {
        match self {
            Given::Number(x) => x,
            _ => unreachable!("a number was asked"),
        }
    }

    fn vector(self) -> &'a [f64] {
        match self {
            Given::Vector(v) => v,
            _ => unreachable!("a vector was asked"),
        }
    }

    fn yes(self) -> bool {
        matches!(self, Given::Yes)
    }
}

/// An open run.
#[derive(Debug, Clone)]
pub enum Run {
    Inner(Box<Inner>),
    Loop(Box<Outer>),
    Penalty(Box<Penalty>),
}

impl Run {
    /// The run of an accepted start.
    pub fn new(set: &Start) -> Run {
        match set.call {
            Call::Inner => {
                let inner = Inner::new(&set.u, set.m, set.limited, set.tolerance, set.akkt);
                Run::Inner(Box::new(inner))
            }
            Call::Loop => Run::Loop(Box::new(Outer::new(set))),
            Call::Psi => Run::Penalty(Box::new(Penalty::new(set, true))),
            Call::DPsi => Run::Penalty(Box::new(Penalty::new(set, false))),
        }
    }

    pub fn wants(&self) -> Wants {
        match self {
            Run::Inner(run) => run.wants(),
            Run::Loop(run) => run.wants(),
            Run::Penalty(run) => run.wants(),
        }
    }

    /// An answer of the kind and length asked.
    pub fn answer(&mut self, given: Given) -> Then {
        match self {
            Run::Inner(run) => run.answer(given),
            Run::Loop(run) => run.answer(given),
            Run::Penalty(run) => run.answer(given),
        }
    }

    /// The solve that is under way, if the question is one of its own.
    pub fn inner(&self) -> Option<&Inner> {
        match self {
            Run::Inner(run) => Some(run),
            Run::Loop(run) if run.place == outer::Place::Inner => Some(&run.inner),
            _ => None,
        }
    }
}
