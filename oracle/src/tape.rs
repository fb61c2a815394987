//! The script and the lines expected of it, and the lent places as the script goes.

use crate::floats;
use crate::reference::words::Line;
use crate::sets::Table;
use crate::start::{Call, Start};

#[derive(Default)]
pub struct Tape {
    pub script: Vec<u8>,
    pub expected: Vec<u8>,
    pub call: Option<Call>,
    pub u: Vec<f64>,
    pub xi: Vec<f64>,
    /// The lengths of u (for d_psi the result) and xi that the run was started with.
    lengths: (usize, usize),
    /// The ready-made sets, which no run touches.
    table: Table,
}

impl Tape {
    /// The line of a start, and the lent places after it.
    pub fn start(&mut self, start: &Start) {
        start.write(&mut self.script);
        self.script.push(b'\n');
        self.call = Some(start.call);
        self.u = start.u.clone();
        self.xi = start.xi.clone();
        if start.call == Call::DPsi {
            self.u = vec![0.0; start.n.min(128) as usize];
        }
        self.lengths = (self.u.len(), self.xi.len());
    }

    /// The lengths to lend so that no answer is refused for them.
    pub fn lengths(&self) -> (usize, usize) {
        self.lengths
    }

    /// Whether what the run lends has the lengths asked: an inner solve lends u alone, d_psi its result, psi nothing.
    pub fn lent_fits(&self) -> bool {
        match self.call {
            Some(Call::Loop) => (self.u.len(), self.xi.len()) == self.lengths,
            Some(Call::Psi) => true,
            _ => self.u.len() == self.lengths.0,
        }
    }

    /// Writes a line of the script; what it prints is not written here.
    pub fn say(&mut self, line: &Line) {
        let out = &mut self.script;
        match line {
            Line::Number(x) => {
                out.extend_from_slice(b"number ");
                floats::write_bits(out, x.to_bits());
            }
            Line::Vector(v) => {
                out.extend_from_slice(b"vector");
                for x in v {
                    out.push(b' ');
                    floats::write_bits(out, x.to_bits());
                }
            }
            Line::Yes => out.extend_from_slice(b"yes"),
            Line::No => out.extend_from_slice(b"no"),
            Line::Failure(code) => out.extend_from_slice(format!("failure {code}").as_bytes()),
            Line::Lend(u, xi) => out.extend_from_slice(format!("lend {u} {xi}").as_bytes()),
            Line::Show => out.extend_from_slice(b"show"),
            Line::Start(start) => start.write(out),
        }
        out.push(b'\n');
    }

    /// Writes an expected line.
    pub fn print(&mut self, line: &str) {
        self.expected.extend_from_slice(line.as_bytes());
        self.expected.push(b'\n');
    }

    pub fn print_refused(&mut self, number: u8) {
        self.print(&format!("refused {number}"));
    }

    /// A line that is none of a run: one of sets, or of another form.
    pub fn bad(&mut self, line: &[u8]) {
        self.script.extend_from_slice(line);
        self.script.push(b'\n');
        let printed = self.table.line(line);
        self.print(printed.as_deref().unwrap_or("bad"));
    }

    /// `lend`: places past the old end hold 0.
    pub fn lend(&mut self, u: usize, xi: usize) {
        match self.call {
            Some(Call::Psi) => {}
            Some(Call::DPsi) => self.u.resize(u, 0.0),
            _ => {
                self.u.resize(u, 0.0);
                self.xi.resize(xi, 0.0);
            }
        }
        self.print(&format!("lent {u} {xi}"));
    }

    /// `show`.
    pub fn show(&mut self) {
        self.expected.extend_from_slice(b"lent");
        floats::write_all(&mut self.expected, &self.u);
        self.expected.extend_from_slice(b" xi");
        floats::write_all(&mut self.expected, &self.xi);
        self.expected.push(b'\n');
    }
}
