//! The transcript program, over the plain machine.

use super::words::{self, Line};
use super::{questions, refusals, Call, Given, Run, Then, Wants};
use crate::floats;
use crate::sets::Table;

/// What the program keeps between lines.
#[derive(Default)]
pub struct Program {
    run: Option<Run>,
    call: Option<Call>,
    /// The lengths that the open run expects.
    asked: (usize, usize),
    u: Vec<f64>,
    xi: Vec<f64>,
    table: Table,
}

impl Program {
    /// Does what a line says, and appends the line that it prints.
    pub fn line(&mut self, line: &[u8], out: &mut Vec<u8>) {
        match words::read(line) {
            None => {
                let printed = self.table.line(line);
                out.extend_from_slice(printed.as_deref().unwrap_or("bad").as_bytes());
            }
            Some(Line::Start(set)) => {
                self.u = set.u.clone();
                self.xi = set.xi.clone();
                self.call = Some(set.call);
                if set.call == Call::DPsi {
                    self.u = vec![0.0; set.n.min(128) as usize];
                }
                self.asked = (self.u.len(), self.xi.len());
                match refusals::of_start(&set) {
                    Some(number) => {
                        self.run = None;
                        refused(number, out);
                    }
                    None => {
                        let run = Run::new(&set);
                        questions::question(&run, out);
                        self.run = Some(run);
                    }
                }
            }
            Some(Line::Lend(u, xi)) => {
                if self.call != Some(Call::Psi) {
                    self.u.resize(u, 0.0);
                }
                if self.call != Some(Call::Psi) && self.call != Some(Call::DPsi) {
                    self.xi.resize(xi, 0.0);
                }
                out.extend_from_slice(format!("lent {u} {xi}").as_bytes());
            }
            Some(Line::Show) => {
                out.extend_from_slice(b"lent");
                floats::write_all(out, &self.u);
                out.extend_from_slice(b" xi");
                floats::write_all(out, &self.xi);
            }
            Some(answer) => self.answer(answer, out),
        }
        out.push(b'\n');
    }

    /// Whether the places that the open run lends have the lengths asked: an inner solve lends u alone, d_psi its result, psi nothing.
    fn lent_fits(&self) -> bool {
        let (u, xi) = self.asked;
        match self.call {
            Some(Call::Loop) => (u, xi) == (self.u.len(), self.xi.len()),
            Some(Call::Psi) => true,
            _ => u == self.u.len(),
        }
    }

    fn answer(&mut self, answer: Line, out: &mut Vec<u8>) {
        let length_fits = self.lent_fits();
        let Some(run) = &mut self.run else {
            return refused(6, out);
        };
        let wants = run.wants();
        let failure_taken = !(wants == Wants::YesNo || is_direction(run));
        let given = match (&answer, wants) {
            (Line::Number(x), Wants::Number) => Given::Number(*x),
            (Line::Vector(v), Wants::Vector(n)) => {
                if v.len() != n {
                    return refused(8, out);
                }
                Given::Vector(v)
            }
            (Line::Yes, Wants::YesNo) => Given::Yes,
            (Line::No, Wants::YesNo) => Given::No,
            (Line::Failure(code), _) if failure_taken => {
                if !length_fits {
                    return refused(8, out);
                }
                self.run = None;
                out.extend_from_slice(format!("refused 9 {code}").as_bytes());
                return;
            }
            _ => return refused(7, out),
        };
        if !length_fits {
            return refused(8, out);
        }
        match run.answer(given) {
            Then::Asks => questions::question(run, out),
            Then::Refuses(number) => {
                self.run = None;
                refused(number, out);
            }
            Then::Ends => {
                questions::ended(run, out);
                match run {
                    Run::Inner(run) => self.u.copy_from_slice(&run.best),
                    Run::Loop(run) => {
                        self.u.copy_from_slice(&run.u);
                        if let Some((c, y)) = self.xi.split_first_mut() {
                            *c = run.c;
                            y.copy_from_slice(&run.y_plus);
                        }
                    }
                    Run::Penalty(run) => {
                        if !run.value_wanted {
                            self.u.copy_from_slice(&run.result);
                        }
                    }
                }
                self.run = None;
            }
        }
    }
}

fn refused(number: u8, out: &mut Vec<u8>) {
    out.extend_from_slice(format!("refused {number}").as_bytes());
}

fn is_direction(run: &Run) -> bool {
    run.inner()
        .is_some_and(|inner| inner.place == super::inner::Place::Direction)
}
