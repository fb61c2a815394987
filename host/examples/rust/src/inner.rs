//! The inner solve. All `unsafe` code of the wrapper is here and in `sets.rs`.

use crate::ffi;
use crate::words::{Answer, End, Outcome, Question, Refusal, Status};

/// What a solve is started with.
#[derive(Debug, Clone, Copy)]
pub struct Settings {
    /// Places of u, 1 to 64.
    pub n: usize,
    /// 1 to 10,000.
    pub max_iter: usize,
    /// Whether TIME is asked.
    pub limited: bool,
    pub tolerance: f64,
    pub akkt_tolerance: Option<f64>,
}

impl Settings {
    /// No time limit and no AKKT tolerance.
    pub fn new(n: usize, max_iter: usize, tolerance: f64) -> Settings {
        Settings {
            n,
            max_iter,
            limited: false,
            tolerance,
            akkt_tolerance: None,
        }
    }
}

/// A run.
#[derive(Clone)]
pub struct Inner {
    raw: ffi::Inner,
}

/// The engine wants a pointer to one place also where there is none.
pub(crate) fn lent(v: &[f64]) -> (*const f64, usize) {
    static NONE: f64 = 0.0;
    if v.is_empty() {
        (&NONE, 0)
    } else {
        (v.as_ptr(), v.len())
    }
}

pub(crate) fn lent_mut<'a>(v: &'a mut [f64], none: &'a mut f64) -> (*mut f64, usize) {
    if v.is_empty() {
        (none, 0)
    } else {
        (v.as_mut_ptr(), v.len())
    }
}

impl Inner {
    /// Begins a solve at `u`: a run and its first question, or a refusal by 1, 19 (`u` is not finite), 3 or 4.
    pub fn start(settings: &Settings, u: &[f64]) -> Result<(Inner, Question), Refusal> {
        let mut raw = ffi::OVER;
        let (at, ats) = lent(u);
        // SAFETY: the run is a place of its own; `at` has `ats` places.
        let number = unsafe {
            ffi::pozkerrin_inner_start(
                &mut raw,
                settings.n,
                settings.max_iter,
                settings.limited.into(),
                settings.tolerance,
                settings.akkt_tolerance.is_some().into(),
                settings.akkt_tolerance.unwrap_or(0.0),
                at,
                ats,
            )
        };
        let run = Inner { raw };
        run.question()
            .map(|question| (run, question))
            .ok_or(Refusal::from_number(number))
    }

    /// Answers the question. The plan is written at an end alone.
    pub fn answer(&mut self, answer: Answer, plan: &mut [f64]) -> Outcome {
        let (kind, x, code, vector): (u32, f64, u32, &[f64]) = match answer {
            Answer::Number(x) => (0, x, 0, &[]),
            Answer::Vector(v) => (1, 0.0, 0, v),
            Answer::Yes => (2, 0.0, 0, &[]),
            Answer::No => (3, 0.0, 0, &[]),
            Answer::Failure(code) => (4, 0.0, code, &[]),
        };
        let mut none = 0.0;
        let (v, vs) = lent(vector);
        let (plan, plans) = lent_mut(plan, &mut none);
        // SAFETY: each pointer is to a place of its own, since the slices are borrowed beside `&mut self`; lengths are the slices' own.
        let number = unsafe {
            ffi::pozkerrin_inner_answer(&mut self.raw, kind, x, code, v, vs, plan, plans)
        };
        self.outcome(number)
    }

    /// The question that stands, at any time; none once the run has ended.
    pub fn question(&self) -> Option<Question> {
        // SAFETY: the run is read only.
        match unsafe { ffi::pozkerrin_inner_question(&self.raw) } {
            0 => Some(Question::Cost),
            1 => Some(Question::Gradient),
            2 => Some(Question::Project),
            3 => Some(Question::Direction { forget: false }),
            4 => Some(Question::Direction { forget: true }),
            5 => Some(Question::Time),
            _ => None,
        }
    }

    /// Copies the points of the question, or refuses by 6 or 8. DIRECTION alone has a second point, TIME has none.
    pub fn points(&self, first: &mut [f64], second: &mut [f64]) -> Result<(), Refusal> {
        let (mut none, mut other) = (0.0, 0.0);
        let (first, firsts) = lent_mut(first, &mut none);
        let (second, seconds) = lent_mut(second, &mut other);
        // SAFETY: as above; the run is read only.
        match unsafe { ffi::pozkerrin_inner_points(&self.raw, first, firsts, second, seconds) } {
            0 => Ok(()),
            number => Err(Refusal::from_number(number)),
        }
    }

    /// The first point of the question where it lies in the run; a call that changes the run must wait until the borrow ends. TIME and a run that
    /// has ended have none, and then it says nothing.
    pub fn point(&self) -> &[f64] {
        // SAFETY: the run is read only.
        let vector = unsafe { ffi::pozkerrin_inner_place(&self.raw) } as usize;
        &self.raw.board[64 * vector..][..self.raw.inner.n.min(64)]
    }

    /// What an answer that gave this number of the table has told.
    fn outcome(&self, number: u32) -> Outcome {
        let told = &self.raw.inner;
        match (number, self.question()) {
            (0, Some(question)) => Outcome::Asked(question),
            (0, None) => Outcome::Ended(Status {
                end: match told.told {
                    0 => End::Converged,
                    1 => End::Iterations,
                    _ => End::OutOfTime,
                },
                iterations: told.end.iterations,
                norm: told.end.norm_fpr,
                cost: told.end.cost_value,
            }),
            (9, _) => Outcome::Failed(told.told),
            _ => Outcome::Refused(Refusal::from_number(number)),
        }
    }
}
