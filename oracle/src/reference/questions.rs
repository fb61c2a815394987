//! Questions and ends as they are printed.

use super::{inner, outer, penalty, End, Run};
use crate::floats;

/// A line under way.
struct Line<'a>(&'a mut Vec<u8>);

impl Line<'_> {
    fn word(&mut self, word: &str) -> &mut Self {
        self.0.extend_from_slice(word.as_bytes());
        self
    }

    fn floats(&mut self, xs: &[f64]) -> &mut Self {
        floats::write_all(self.0, xs);
        self
    }
}

/// Appends the question that the run asks, without an end of line.
pub fn question(run: &Run, out: &mut Vec<u8>) {
    match run {
        Run::Inner(run) => inner_question(run, None, out),
        Run::Loop(run) => outer_question(run, out),
        Run::Penalty(run) => penalty_question(run, out),
    }
}

fn inner_question(run: &inner::Inner, xi: Option<&[f64]>, out: &mut Vec<u8>) {
    use inner::Place::*;
    let mut line = Line(out);
    match run.place {
        Cost | FirstCost => line.word("cost").floats(&run.u),
        HalfCost | DoublingCost => line.word("cost").floats(&run.half),
        CandidateCost => line.word("cost").floats(&run.candidate),
        BestCost => line.word("cost").floats(&run.best),
        Gradient | ShiftedGradient | FirstGradient => line.word("gradient").floats(&run.u),
        CandidateGradient => line.word("gradient").floats(&run.candidate),
        Project | DoublingProject | FirstProject | CandidateProject => {
            line.word("project").floats(&run.gradient_step)
        }
        Direction => line
            .word(if run.forget {
                "direction 1"
            } else {
                "direction 0"
            })
            .floats(&run.residual)
            .word(" u")
            .floats(&run.u),
        Time => line.word("time"),
    };
    let carries_xi = match run.place {
        Cost | FirstCost | HalfCost | DoublingCost | CandidateCost | BestCost => true,
        Gradient | ShiftedGradient | FirstGradient | CandidateGradient => true,
        _ => false,
    };
    if let (Some(xi), true) = (xi, carries_xi) {
        line.word(" xi").floats(xi);
    }
}

fn outer_question(run: &outer::Outer, out: &mut Vec<u8>) {
    use outer::Place::*;
    let xi = run.xi();
    if run.place == Inner {
        return inner_question(&run.inner, Some(&xi), out);
    }
    let mut line = Line(out);
    match run.place {
        Time => line.word("time"),
        ProjectY => line.word("project_y").floats(&run.y),
        F1 => line.word("f1").floats(&run.u),
        ProjectC => line.word("project_c").floats(&run.c_point()),
        F2 => line.word("f2").floats(&run.u),
        LastCost => line.word("cost").floats(&run.u).word(" xi").floats(&xi),
        Inner => unreachable!(),
    };
}

fn penalty_question(run: &penalty::Penalty, out: &mut Vec<u8>) {
    use penalty::Place::*;
    let mut line = Line(out);
    let u = &run.set.u;
    match run.place {
        Cost => line.word("cost").floats(u),
        Gradient => line.word("gradient").floats(u),
        F1 => line.word("f1").floats(u),
        ProjectC => line.word("project_c").floats(&run.t),
        Jf1t => line.word("jf1t").floats(u).word(" d").floats(&run.t),
        F2 => line.word("f2").floats(u),
        Jf2t => line.word("jf2t").floats(u).word(" d").floats(&run.f2),
    };
}

/// Appends the end of a run, without an end of line.
pub fn ended(run: &Run, out: &mut Vec<u8>) {
    let mut line = Line(out);
    line.word("ended");
    match run {
        Run::Inner(run) => {
            line.word(name(run.end)).word(" ");
            line.word(&run.iterations.to_string());
            line.floats(&[run.best_norm, run.last_cost]);
        }
        Run::Loop(run) => {
            line.word(name(run.end)).word(" ");
            line.word(&run.outer_count.to_string()).word(" ");
            line.word(&run.inner_count.to_string());
            line.floats(&[run.norm, run.last_cost, run.c, run.delta_y, run.f2]);
        }
        Run::Penalty(run) => {
            if run.value_wanted {
                line.floats(&[run.value]);
            }
        }
    }
}

fn name(end: End) -> &'static str {
    match end {
        End::Converged => " Converged",
        End::NotConvergedIterations => " NotConvergedIterations",
        End::NotConvergedOutOfTime => " NotConvergedOutOfTime",
    }
}
