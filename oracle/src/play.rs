//! A start and the lines that follow it, up to the next start.

use crate::drive;
use crate::reference::{questions, Run};
use crate::session::{say_after_end, Session, Source};
use crate::start::{Call, Start};
use crate::table;
use crate::tally::Tally;
use crate::tape::Tape;

/// Plays a start with a source of lines; the tape and the tally come back longer.
pub fn play(
    start: &Start,
    source: Box<dyn Source>,
    mut tape: Tape,
    mut tally: Tally,
) -> (Tape, Tally) {
    tape.start(start);
    tally.add(match start.call {
        Call::Inner => "run inner",
        Call::Loop => "run loop",
        Call::Psi => "run psi",
        Call::DPsi => "run d_psi",
    });
    if let Some(number) = table::start(start) {
        tape.print_refused(number);
        tally.refused(number);
        let mut source = source;
        say_after_end(&mut tape, &mut tally, source.as_mut());
        return (tape, tally);
    }
    if !table::in_domain(start) {
        // Document 01 decides the first question; the Rust has no run to compare with.
        questions::question(&Run::new(start), &mut tape.expected);
        tape.expected.push(b'\n');
        tally.add("start outside the domain");
        return (tape, tally);
    }
    let session = drive::run(Session::new(tape, tally, source, start), start);
    let Session {
        mut tape,
        mut tally,
        mut source,
        questions,
        ..
    } = session;
    tally.add_many("questions", questions);
    say_after_end(&mut tape, &mut tally, source.as_mut());
    (tape, tally)
}
