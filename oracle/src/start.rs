//! What a start call is given, and its line in a script.

use crate::floats;

/// The four calls that start a run.
#[derive(Debug, Clone, Copy, PartialEq, Eq)]
pub enum Call {
    Inner,
    Loop,
    Psi,
    DPsi,
}

/// The numbers of a start; those that a call does not take are left as they are.
#[derive(Debug, Clone)]
pub struct Start {
    pub call: Call,
    pub n: u64,
    pub n1: u64,
    pub n2: u64,
    pub set_y: bool,
    pub m: u64,
    pub k: u64,
    pub limited: bool,
    pub tolerance: f64,
    pub epsilon: f64,
    pub delta: f64,
    pub akkt: Option<f64>,
    pub penalty_factor: f64,
    pub epsilon_factor: f64,
    pub coefficient: f64,
    pub u: Vec<f64>,
    pub xi: Vec<f64>,
}

impl Start {
    /// A start whose numbers are all accepted.
    pub fn new(call: Call, u: &[f64]) -> Start {
        Start {
            call,
            n: u.len() as u64,
            n1: 0,
            n2: 0,
            set_y: false,
            m: 1,
            k: 1,
            limited: false,
            tolerance: 1.0,
            epsilon: 1.0,
            delta: 1.0,
            akkt: None,
            penalty_factor: 2.0,
            epsilon_factor: 0.5,
            coefficient: 0.5,
            u: u.to_vec(),
            xi: Vec::new(),
        }
    }

    /// The line of the start, without its end of line.
    pub fn write(&self, out: &mut Vec<u8>) {
        let mut words = Words(out);
        match self.call {
            Call::Inner => {
                words.word("inner").whole(self.n).whole(self.m);
                words.flag(self.limited).float(self.tolerance);
                words.optional(self.akkt).floats(&self.u);
            }
            Call::Loop => {
                words.word("loop").whole(self.n);
                words.whole(self.n1).whole(self.n2).flag(self.set_y);
                words.whole(self.m).whole(self.k).flag(self.limited);
                words.float(self.tolerance).float(self.epsilon);
                words.float(self.delta).optional(self.akkt);
                words.float(self.penalty_factor).float(self.epsilon_factor);
                words.float(self.coefficient);
                words.whole(self.u.len() as u64);
                words.floats(&self.u).floats(&self.xi);
            }
            Call::Psi | Call::DPsi => {
                let name = if self.call == Call::Psi {
                    "psi"
                } else {
                    "d_psi"
                };
                words.word(name).whole(self.n);
                words.whole(self.n1).whole(self.n2);
                words.whole(self.u.len() as u64);
                words.floats(&self.u).floats(&self.xi);
            }
        }
    }
}

/// Words one space apart.
struct Words<'a>(&'a mut Vec<u8>);

impl Words<'_> {
    fn word(&mut self, word: &str) -> &mut Self {
        self.0.extend_from_slice(word.as_bytes());
        self
    }

    fn whole(&mut self, x: u64) -> &mut Self {
        self.0.push(b' ');
        self.word(&x.to_string())
    }

    fn flag(&mut self, x: bool) -> &mut Self {
        self.whole(x as u64)
    }

    fn float(&mut self, x: f64) -> &mut Self {
        self.floats(&[x])
    }

    fn optional(&mut self, x: Option<f64>) -> &mut Self {
        match x {
            Some(x) => self.float(x),
            None => self.word(" -"),
        }
    }

    fn floats(&mut self, xs: &[f64]) -> &mut Self {
        floats::write_all(self.0, xs);
        self
    }
}
