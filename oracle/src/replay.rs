//! Plays a script that is written down.

use crate::floats;
use crate::play;
use crate::reference::words::{self, Line};
use crate::reference::Run;
use crate::session::{say_after_end, Asked, Said, Source};
use crate::tally::Tally;
use crate::tape::Tape;
use std::cell::Cell;
use std::rc::Rc;

/// The lines of a script and how many are said.
#[derive(Clone)]
struct Replay {
    lines: Rc<Vec<Vec<u8>>>,
    said: Rc<Cell<usize>>,
}

impl Replay {
    /// The next line, unless it is a start.
    fn next(&self) -> Said {
        let Some(text) = self.lines.get(self.said.get()) else {
            return Said::Leave;
        };
        let said = match words::read(text) {
            None => Said::Bad(text.clone()),
            Some(Line::Start(_)) => return Said::Leave,
            Some(line) => Said::Line(line),
        };
        self.said.set(self.said.get() + 1);
        said
    }
}

impl Source for Replay {
    fn asked(&mut self, _: &Asked, _: Option<&Run>, _: &Tape, _: &mut Tally) -> Said {
        self.next()
    }

    fn ended(&mut self, _: &Tape) -> Said {
        self.next()
    }
}

/// Plays all lines after what the tape holds.
pub fn replay(lines: Vec<Vec<u8>>, mut tape: Tape, mut tally: Tally) -> (Tape, Tally) {
    let mut source = Replay {
        lines: Rc::new(lines),
        said: Rc::new(Cell::new(0)),
    };
    while let Some(text) = source.lines.clone().get(source.said.get()) {
        if let Some(Line::Start(start)) = words::read(text) {
            source.said.set(source.said.get() + 1);
            (tape, tally) = play::play(&start, Box::new(source.clone()), tape, tally);
        } else {
            say_after_end(&mut tape, &mut tally, &mut source);
        }
    }
    (tape, tally)
}

/// Reads a file of corners, which is a script in an easier hand: floats may be decimals with a point, `nan`, `inf`
/// or `-inf`; `X*N` stands for N times X; `#` begins a remark; after `! ` a line stands as it is.
pub fn corners(text: &str) -> Vec<Vec<u8>> {
    let mut lines = Vec::new();
    for line in text.lines() {
        if let Some(literal) = line.strip_prefix("! ") {
            lines.push(literal.as_bytes().to_vec());
            continue;
        }
        let line = line.split('#').next().unwrap_or("").trim_end();
        if line.is_empty() {
            continue;
        }
        let mut words = Vec::new();
        for word in line.split(' ') {
            let (word, times) = match word.split_once('*') {
                Some((word, times)) => (word, times.parse().expect("a number of times")),
                None => (word, 1),
            };
            for _ in 0..times {
                words.push(strict(word));
            }
        }
        lines.push(words.join(&b' '));
    }
    lines
}

/// A word as a script has it.
fn strict(word: &str) -> Vec<u8> {
    let decimal = word.contains('.') || ["nan", "inf", "-inf"].contains(&word);
    let mut out = Vec::new();
    match word.parse() {
        Ok(x) if decimal => floats::write(&mut out, x),
        _ => out.extend_from_slice(word.as_bytes()),
    }
    out
}
