//! Calls that are refused, and lines of another form.

use super::values;
use crate::random::Random;
use crate::reference::words::Line;
use crate::reference::Wants;
use crate::session::{Asked, Kind, Said};
use crate::start::Call;
use crate::tape::Tape;
use std::collections::VecDeque;

/// Puts some calls that a run refuses, or that change nothing, into the queue.
pub fn disturb(random: &mut Random, asked: &Asked, tape: &Tape, queue: &mut VecDeque<Said>) {
    let never_fails = matches!(asked.kind, Kind::Time | Kind::Direction);
    match (random.below(10), asked.wants) {
        (0..=2, wants) => queue.push_back(Said::Line(of_another_kind(random, wants))),
        (3 | 4, Wants::Vector(n)) => {
            let length = random.pick(&[n + 1, n + 2, n + 64, n - 1, 0]);
            queue.push_back(Said::Line(Line::Vector(vector(random, length))));
        }
        (5 | 6, wants) => lend_wrongly(random, wants, tape, queue),
        (7, _) if never_fails => {
            queue.push_back(Said::Line(Line::Failure(random.next() as u32)));
        }
        (8, _) => queue.push_back(Said::Bad(bad(random))),
        _ => queue.push_back(Said::Line(Line::Show)),
    }
}

/// Lends other lengths, answers, and lends the right ones again.
fn lend_wrongly(random: &mut Random, wants: Wants, tape: &Tape, queue: &mut VecDeque<Said>) {
    let (u, xi) = tape.lengths();
    let another = |random: &mut Random, length: usize| match random.below(4) {
        0 => length + 1,
        1 => length.saturating_sub(1),
        2 => random.pick(&[0, 1, 64, 128]),
        _ => length,
    };
    let lent = match tape.call {
        Some(Call::Inner) if random.chance(250) => {
            // an inner solve lends u alone, so nothing is refused
            queue.push_back(Said::Line(Line::Lend(u, xi + 1)));
            return;
        }
        Some(Call::Inner) | Some(Call::DPsi) => (another(random, u), xi),
        Some(Call::Loop) => (another(random, u), another(random, xi)),
        _ => {
            // psi lends nothing, so nothing is refused; the right lengths are lent after its end
            queue.push_back(Said::Line(Line::Lend(u + 1, xi + 1)));
            return;
        }
    };
    if lent == (u, xi) {
        return;
    }
    queue.push_back(Said::Line(Line::Lend(lent.0, lent.1)));
    for _ in 0..1 + random.below(2) {
        let line = match random.below(4) {
            0 => of_another_kind(random, wants),
            1 => Line::Failure(random.next() as u32),
            _ => match wants {
                Wants::Number => Line::Number(values::plain(random)),
                Wants::Vector(n) => Line::Vector(vector(random, n)),
                Wants::YesNo => Line::Yes,
            },
        };
        queue.push_back(Said::Line(line));
    }
    if random.chance(200) {
        queue.push_back(Said::Line(Line::Show));
    }
    queue.push_back(Said::Line(Line::Lend(u, xi)));
}

/// An answer that is not of the kind asked.
fn of_another_kind(random: &mut Random, wants: Wants) -> Line {
    loop {
        let line = answer(random);
        let fits = match line {
            Line::Number(_) => wants == Wants::Number,
            Line::Vector(_) => matches!(wants, Wants::Vector(_)),
            _ => wants == Wants::YesNo,
        };
        if !fits {
            return line;
        }
    }
}

/// Any answer but a failure.
fn answer(random: &mut Random) -> Line {
    match random.below(4) {
        0 => Line::Number(values::odd(random)),
        1 => {
            let n = random.below(5);
            Line::Vector(vector(random, n))
        }
        2 => Line::Yes,
        _ => Line::No,
    }
}

/// The calls after an end: the lent places, answers that come too late, the lent places again.
pub fn after_end(
    random: &mut Random,
    tape: &Tape,
    show: bool,
    disturbed: bool,
    queue: &mut VecDeque<Said>,
) {
    let (u, xi) = tape.lengths();
    if disturbed && tape.call == Some(Call::Psi) {
        queue.push_back(Said::Line(Line::Lend(u, xi)));
    }
    if show {
        queue.push_back(Said::Line(Line::Show));
    }
    if !disturbed {
        return;
    }
    // the end comes before the lengths
    let lends = show && random.chance(200) && tape.call != Some(Call::Psi);
    if lends {
        queue.push_back(Said::Line(Line::Lend(u + 1, xi)));
    }
    for _ in 0..1 + random.below(2) {
        let line = match random.below(5) {
            0 => Line::Failure(7),
            _ => answer(random),
        };
        queue.push_back(Said::Line(line));
    }
    if lends {
        queue.push_back(Said::Line(Line::Lend(u, xi)));
    }
    if show {
        queue.push_back(Said::Line(Line::Show));
    }
}

fn vector(random: &mut Random, n: usize) -> Vec<f64> {
    (0..n).map(|_| values::plain(random)).collect()
}

/// A line of another form.
fn bad(random: &mut Random) -> Vec<u8> {
    let lines: [&[u8]; 24] = [
        b"",
        b" ",
        b"number",
        b"number ",
        b"number 1.0",
        b"number 3FF0000000000000",
        b"number 3ff000000000000",
        b"number 03ff0000000000000",
        b"number 3ff0000000000000 3ff0000000000000",
        b"number  3ff0000000000000",
        b"number 3ff0000000000000 ",
        b"vector 3ff0000000000000  3ff0000000000000",
        b"vector x",
        b"Yes",
        b"yes ",
        b" no",
        b"failure",
        b"failure 4294967296",
        b"failure 01",
        b"failure -1",
        b"lend 1",
        b"lend 1 1 1",
        b"show 1",
        b"answer",
    ];
    random.pick(&lines).to_vec()
}
