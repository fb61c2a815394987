//! One run: what the Rust asks is printed, and what the source says is answered.

use crate::floats;
use crate::reference::words::Line;
use crate::reference::{Given, Run, Wants};
use crate::start::{Call, Start};
use crate::table;
use crate::tally::Tally;
use crate::tape::Tape;
use std::time::Duration;

/// The kinds of questions.
#[derive(Debug, Clone, Copy, PartialEq, Eq)]
pub enum Kind {
    Cost,
    Gradient,
    Project,
    Direction,
    Time,
    F1,
    F2,
    Jf1t,
    Jf2t,
    ProjectC,
    ProjectY,
}

/// A question with its points.
pub struct Asked<'a> {
    pub kind: Kind,
    pub wants: Wants,
    pub point: &'a [f64],
    /// xi of a cost or gradient, d of a product, u of a direction.
    pub other: Option<&'a [f64]>,
    pub forget: bool,
}

impl<'a> Asked<'a> {
    pub fn new(kind: Kind, wants: Wants, point: &'a [f64]) -> Self {
        Asked {
            kind,
            wants,
            point,
            other: None,
            forget: false,
        }
    }

    pub fn with(mut self, other: &'a [f64]) -> Self {
        self.other = Some(other);
        self
    }

    fn write(&self, out: &mut Vec<u8>) {
        let (name, other) = match self.kind {
            Kind::Cost => ("cost", " xi"),
            Kind::Gradient => ("gradient", " xi"),
            Kind::Project => ("project", ""),
            Kind::Direction if self.forget => ("direction 1", " u"),
            Kind::Direction => ("direction 0", " u"),
            Kind::Time => ("time", ""),
            Kind::F1 => ("f1", ""),
            Kind::F2 => ("f2", ""),
            Kind::Jf1t => ("jf1t", " d"),
            Kind::Jf2t => ("jf2t", " d"),
            Kind::ProjectC => ("project_c", ""),
            Kind::ProjectY => ("project_y", ""),
        };
        out.extend_from_slice(name.as_bytes());
        floats::write_all(out, self.point);
        if let Some(xs) = self.other {
            out.extend_from_slice(other.as_bytes());
            floats::write_all(out, xs);
        }
    }
}

/// What the source says next.
pub enum Said {
    Line(Line),
    /// A line of another form.
    Bad(Vec<u8>),
    /// Another start follows, or the script ends.
    Leave,
}

/// Says the lines of a script, one after another.
pub trait Source {
    /// While a question stands.
    fn asked(
        &mut self,
        asked: &Asked,
        shadow: Option<&Run>,
        tape: &Tape,
        tally: &mut Tally,
    ) -> Said;
    /// After the end, or with no run.
    fn ended(&mut self, tape: &Tape) -> Said;
}

/// What an accepted answer was.
pub enum Got {
    Number(f64),
    Vector(Vec<f64>),
    Yes,
    No,
    /// A failure, or the run is left: the Rust is to stop.
    Stop,
}

pub struct Session {
    pub tape: Tape,
    pub tally: Tally,
    pub source: Box<dyn Source>,
    pub limited: bool,
    pub call: Call,
    /// The code of a failure, which was the last answer.
    pub failed: Option<u32>,
    /// The run is left, or its end is printed already.
    pub over: bool,
    pub questions: u64,
    /// The machine of document 01 beside the Rust, to place answers with.
    shadow: Option<Run>,
    /// The last question was a COST, so that a time read now is only reported.
    after_cost: bool,
}

impl Session {
    pub fn new(tape: Tape, tally: Tally, source: Box<dyn Source>, start: &Start) -> Session {
        Session {
            tape,
            tally,
            source,
            limited: start.limited,
            call: start.call,
            failed: None,
            over: false,
            questions: 0,
            shadow: Some(Run::new(start)),
            after_cost: false,
        }
    }

    /// Prints a question, and says lines until an answer is accepted or the run is left.
    pub fn ask(&mut self, asked: Asked) -> Got {
        if self.over || self.failed.is_some() {
            return Got::Stop;
        }
        self.questions += 1;
        self.after_cost = asked.kind == Kind::Cost;
        asked.write(&mut self.tape.expected);
        self.tape.expected.push(b'\n');
        if self
            .shadow
            .as_ref()
            .is_some_and(|s| s.wants() != asked.wants)
        {
            self.shadow = None;
            self.tally.add("shadow lost");
        }
        loop {
            let said = self
                .source
                .asked(&asked, self.shadow.as_ref(), &self.tape, &mut self.tally);
            let line = match said {
                Said::Leave => {
                    self.over = true;
                    self.tally.add("left");
                    return Got::Stop;
                }
                Said::Bad(text) => {
                    self.tape.bad(&text);
                    self.tally.add("bad line");
                    continue;
                }
                Said::Line(line) => line,
            };
            self.tape.say(&line);
            match line {
                Line::Lend(u, xi) => {
                    self.tape.lend(u, xi);
                    continue;
                }
                Line::Show => {
                    self.tape.show();
                    continue;
                }
                _ => {}
            }
            let never_fails = matches!(asked.kind, Kind::Time | Kind::Direction);
            let lent_fits = self.tape.lent_fits();
            if let Some(number) = table::answer(asked.wants, never_fails, &line, lent_fits) {
                self.tape.print_refused(number);
                self.tally.refused(number);
                continue;
            }
            return self.accept(line);
        }
    }

    fn accept(&mut self, line: Line) -> Got {
        if let Some(shadow) = &mut self.shadow {
            match &line {
                Line::Number(x) => shadow.answer(Given::Number(*x)),
                Line::Vector(v) => shadow.answer(Given::Vector(v)),
                Line::Yes => shadow.answer(Given::Yes),
                _ if !matches!(line, Line::No) => crate::reference::Then::Ends,
                _ => shadow.answer(Given::No),
            };
        }
        match line {
            Line::Number(x) => Got::Number(x),
            Line::Vector(v) => Got::Vector(v),
            Line::Yes => Got::Yes,
            Line::No => Got::No,
            Line::Failure(code) => {
                self.failed = Some(code);
                Got::Stop
            }
            _ => unreachable!("not an answer"),
        }
    }

    /// A time read by the Rust: TIME, unless there is no limit or the time is only reported after a COST.
    pub fn elapsed(&mut self) -> Duration {
        let reported = !self.limited || self.after_cost;
        self.after_cost = false;
        if reported {
            return Duration::ZERO;
        }
        let first = self.questions == 0;
        match self.ask(Asked::new(Kind::Time, Wants::YesNo, &[])) {
            Got::No => {
                // The Rust would ask a COST and panic; document 01 refuses here.
                if self.call == Call::Loop && first {
                    self.tape.print_refused(17);
                    self.tally.refused(17);
                    self.over = true;
                }
                TOO_LONG
            }
            _ => Duration::ZERO,
        }
    }
}

/// The limit of a limited run, and a time beyond it.
pub const LIMIT: Duration = Duration::from_secs(1);
const TOO_LONG: Duration = Duration::from_secs(2);

/// Says the lines that follow an end, or a refused start.
pub fn say_after_end(tape: &mut Tape, tally: &mut Tally, source: &mut dyn Source) {
    loop {
        match source.ended(tape) {
            Said::Leave => return,
            Said::Bad(text) => tape.bad(&text),
            Said::Line(line) => {
                tape.say(&line);
                match line {
                    Line::Lend(u, xi) => tape.lend(u, xi),
                    Line::Show => tape.show(),
                    _ => {
                        tape.print_refused(6);
                        tally.refused(6);
                    }
                }
            }
        }
    }
}
