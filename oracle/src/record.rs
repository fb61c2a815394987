//! The recorded list: the corners, runs that spend every question, and a choice of generated runs.

use crate::generate::{self, Mix};
use crate::random::Random;
use crate::replay;
use crate::start::{Call, Start};
use crate::tally::Tally;
use crate::tape::Tape;
use std::collections::BTreeMap;

/// Where the generated runs of the list come from.
const SEED: u64 = 20_170;
const CANDIDATES: u64 = 60_000;
/// A generated run of the list is no larger, and each thing that can happen is shown this often.
const LARGEST: usize = 3_500;
const EXAMPLES: usize = 14;
/// So many tables of sets come behind the runs.
const TABLES: u64 = 100;

/// The whole list, from the text of the corners.
pub fn record(corners: &str) -> (Tape, Tally) {
    let lines = replay::corners(corners);
    let (tape, tally) = replay::replay(lines, Tape::default(), Tally::default());
    let (tape, tally) = spend_all(tape, tally);
    let (tape, tally) = choose(tape, tally);
    (0..TABLES).fold((tape, tally), |(tape, tally), index| {
        generate::sets::table(SEED, index, tape, tally)
    })
}

/// Runs whose every test fails: all questions of M = 1, of the loop with K = M = 1, and of K = M = 2.
fn spend_all(mut tape: Tape, mut tally: Tally) -> (Tape, Tally) {
    let mut alone = Start::new(Call::Inner, &[0.0]);
    alone.limited = true;
    let mut looped = Start::new(Call::Loop, &[0.0]);
    looped.limited = true;
    looped.akkt = Some(1.0);
    looped.n1 = 1;
    looped.n2 = 1;
    looped.set_y = true;
    looped.xi = vec![1.0, 0.5];
    let mut twice = looped.clone();
    twice.m = 2;
    twice.k = 2;
    let worst = |k: u64, m: u64| k * (35 + 56 * m) + 1;
    let runs = [(alone, 86), (looped, worst(1, 1)), (twice, worst(2, 2))];
    for (start, questions) in runs {
        let before = tally.get("questions");
        let random = Random::new(SEED, 0);
        (tape, tally) = generate::spend(random, &start, tape, tally);
        let asked = tally.get("questions") - before;
        assert!(asked == questions, "{asked} questions, not {questions}");
    }
    (tape, tally)
}

/// Generated runs, each for something that too few runs before it show.
fn choose(mut tape: Tape, mut tally: Tally) -> (Tape, Tally) {
    let mix = Mix {
        inner: 400,
        outer: 400,
        psi: 100,
    };
    let mut shown: BTreeMap<String, usize> = BTreeMap::new();
    for index in 0..CANDIDATES {
        let (one, events) = generate::run(SEED, index, &mix, Tape::default(), Tally::default());
        if one.script.len() + one.expected.len() > LARGEST {
            continue;
        }
        let names = events.names();
        if names.iter().all(|name| shown.get(name) >= Some(&EXAMPLES)) {
            continue;
        }
        for name in names {
            *shown.entry(name).or_insert(0) += 1;
        }
        tape.script.extend_from_slice(&one.script);
        tape.expected.extend_from_slice(&one.expected);
        tally.join(&events);
    }
    (tape, tally)
}
