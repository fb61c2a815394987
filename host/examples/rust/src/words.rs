//! Questions, answers, ends and refusals by name.

/// What a run asks.
#[derive(Debug, Clone, Copy, PartialEq, Eq)]
pub enum Question {
    /// A number, at a point.
    Cost,
    /// A vector, at a point.
    Gradient,
    /// A vector, for a point.
    Project,
    /// A vector, for the residual and u; with `forget`, all earlier pairs are forgotten first.
    Direction { forget: bool },
    /// Whether time is left.
    Time,
}

/// What is answered.
#[derive(Debug, Clone, Copy)]
pub enum Answer<'a> {
    Number(f64),
    Vector(&'a [f64]),
    Yes,
    No,
    /// The host fails, with a code of its own.
    Failure(u32),
}

/// How a solve ended.
#[derive(Debug, Clone, Copy, PartialEq, Eq)]
pub enum End {
    Converged,
    Iterations,
    OutOfTime,
}

/// What is handed back beside the plan.
#[derive(Debug, Clone, Copy, PartialEq)]
pub struct Status {
    pub end: End,
    /// Steps after the first.
    pub iterations: usize,
    pub norm: f64,
    pub cost: f64,
}

/// What an answer gives.
#[derive(Debug, Clone, Copy, PartialEq)]
pub enum Outcome {
    Asked(Question),
    Ended(Status),
    /// By 6 to 8 the run stays as it was, by 10 to 16 it is over.
    Refused(Refusal),
    /// The host's own code.
    Failed(u32),
}

/// A refusal by its number; `pozkerrin.h` has the list.
#[derive(Debug, Clone, Copy, PartialEq, Eq)]
pub struct Refusal(u32);

impl Refusal {
    pub fn from_number(number: u32) -> Refusal {
        Refusal(number)
    }

    pub fn number(self) -> u32 {
        self.0
    }
}
