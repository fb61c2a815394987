//! Tables of ready-made sets, right and wrong ones, and vectors that are projected on them.

use super::values;
use crate::floats;
use crate::random::Random;
use crate::tally::Tally;
use crate::tape::Tape;

/// A set as its line has it.
enum Set {
    Box(u64, Vec<f64>, Vec<f64>),
    Ball(u64, f64, Vec<f64>),
}

/// Appends a table and projections on it, number `index` of a seed.
pub fn table(seed: u64, index: u64, mut tape: Tape, mut tally: Tally) -> (Tape, Tally) {
    let mut random = Random::new(seed ^ 0x5e75, index);
    tally.add("tables of sets");
    tape.bad(b"sets");
    let mut sets = right(&mut random);
    let places = sets.iter().map(length).sum();
    if random.chance(400) {
        spoil(&mut random, &mut sets);
    }
    for set in &sets {
        say_set(set, &mut tape);
    }
    for _ in 0..1 + random.below(3) {
        let v = vector(&mut random, &sets, places);
        say_floats(b"onto", &v, &mut tape, &mut tally);
        if random.chance(300) {
            tape.bad(b"show_onto");
        }
    }
    if random.chance(100) {
        tape.bad(&bad(&mut random));
        tape.bad(b"show_onto");
    }
    (tape, tally)
}

/// A table that is not refused, of up to 64 places.
fn right(random: &mut Random) -> Vec<Set> {
    let count = random.pick(&[0, 1, 1, 1, 2, 2, 3, 4, 8]);
    let most = random.pick(&[1, 2, 3, 8]);
    (0..count)
        .map(|_| {
            let n = random.below(most + 1);
            if random.chance(600) {
                let pairs: Vec<(f64, f64)> = (0..n).map(|_| bounds(random)).collect();
                let lower = pairs.iter().map(|pair| pair.0).collect();
                let upper = pairs.iter().map(|pair| pair.1).collect();
                Set::Box(n as u64, lower, upper)
            } else {
                let plain = values::plain(random).abs();
                let radius = random.pick(&[0.0, -0.0, 1.0, 5.0, f64::MAX, plain]);
                Set::Ball(n as u64, radius, (0..n).map(|_| inner(random)).collect())
            }
        })
        .collect()
}

/// A finite number.
fn inner(random: &mut Random) -> f64 {
    match random.below(10) {
        0 => values::huge(random),
        1 => values::finite(random),
        2 => values::tiny(random),
        _ => values::plain(random),
    }
}

fn bounds(random: &mut Random) -> (f64, f64) {
    let (a, b) = (inner(random), inner(random));
    match random.below(6) {
        0 => (a, a),
        1 => (0.0, -0.0),
        2 => (-0.0, 0.0),
        _ if a > b => (b, a),
        _ => (a, b),
    }
}

fn length(set: &Set) -> usize {
    match set {
        Set::Box(_, lower, _) => lower.len(),
        Set::Ball(_, _, centre) => centre.len(),
    }
}

/// Makes a table wrong, most often in one thing, now and then in several.
fn spoil(random: &mut Random, sets: &mut Vec<Set>) {
    for _ in 0..random.pick(&[1, 1, 1, 2, 3]) {
        if sets.is_empty() || random.chance(100) {
            for _ in 0..random.pick(&[1, 9, 16, 17]) {
                sets.push(Set::Box(0, Vec::new(), Vec::new()));
            }
            continue;
        }
        let at = random.below(sets.len());
        let wrong = values::not_finite(random);
        let places = random.next();
        match (&mut sets[at], random.below(7)) {
            (Set::Box(stretch, ..), 0) | (Set::Ball(stretch, ..), 0) => {
                *stretch = random.pick(&[0, 1, 64, u64::MAX, 1 << 63, places]);
            }
            (Set::Box(_, lower, _), 1) => lower.push(0.0),
            (Set::Box(_, _, upper), 2) => {
                upper.pop();
            }
            (Set::Box(_, lower, upper), 3 | 4)
                if !lower.is_empty() && lower.len() == upper.len() =>
            {
                let i = random.below(lower.len());
                if random.chance(500) {
                    lower[i] = floats::step(upper[i], 1);
                } else {
                    (lower[i], upper[i]) = (1.0, -1.0);
                }
            }
            (Set::Box(_, lower, upper), _) => {
                let side = if random.chance(500) { lower } else { upper };
                if let Some(x) = side.last_mut() {
                    *x = wrong;
                }
            }
            (Set::Ball(_, radius, _), 1 | 2) => {
                *radius = random.pick(&[wrong, -1.0, -5e-324, f64::NAN])
            }
            (Set::Ball(_, _, centre), 3) => centre.push(0.0),
            (Set::Ball(_, _, centre), 4) => {
                centre.pop();
            }
            (Set::Ball(_, _, centre), _) => {
                if let Some(x) = centre.last_mut() {
                    *x = wrong;
                }
            }
        }
    }
}

/// A vector, often at the edges of the sets, now and then of another length.
fn vector(random: &mut Random, sets: &[Set], places: usize) -> Vec<f64> {
    let mut v = Vec::new();
    for set in sets {
        match set {
            Set::Box(_, lower, upper) => {
                for i in 0..lower.len() {
                    let edge = if random.chance(500) {
                        lower[i]
                    } else {
                        *upper.get(i).unwrap_or(&0.0)
                    };
                    v.push(entry(random, edge));
                }
            }
            Set::Ball(_, radius, centre) => {
                let scale = random.pick(&[0.0, 0.5, 1.0, 1.0, 2.0]);
                let away = random.below(centre.len().max(1));
                for (i, &c) in centre.iter().enumerate() {
                    let x = if i == away { c + scale * radius } else { c };
                    v.push(if random.chance(300) {
                        entry(random, x)
                    } else {
                        x
                    });
                }
            }
        }
    }
    let other = random.below(130);
    v.resize(
        match random.below(20) {
            0 => places + 1,
            1 => places.saturating_sub(1),
            2 => other,
            _ => places,
        },
        0.0,
    );
    v
}

fn entry(random: &mut Random, edge: f64) -> f64 {
    match random.below(10) {
        0 => f64::NAN,
        1 => f64::INFINITY,
        2 => f64::NEG_INFINITY,
        3 => -edge,
        4 | 5 => floats::step(edge, random.below(3) as i64 - 1),
        6 => values::odd(random),
        _ => 3.0 * values::plain(random),
    }
}

fn say_set(set: &Set, tape: &mut Tape) {
    let mut line = Vec::new();
    match set {
        Set::Box(stretch, lower, upper) => {
            let words = format!("box {stretch} {} {}", lower.len(), upper.len());
            line.extend_from_slice(words.as_bytes());
            write_all(&mut line, lower);
            write_all(&mut line, upper);
        }
        Set::Ball(stretch, radius, centre) => {
            line.extend_from_slice(format!("ball {stretch}").as_bytes());
            write_all(&mut line, &[*radius]);
            write_all(&mut line, centre);
        }
    }
    tape.bad(&line);
}

fn say_floats(word: &[u8], xs: &[f64], tape: &mut Tape, tally: &mut Tally) {
    let mut line = word.to_vec();
    write_all(&mut line, xs);
    let before = tape.expected.len();
    tape.bad(&line);
    match &tape.expected[before..] {
        b"refused 20\n" => tally.add("projections refused by 20"),
        b"refused 21\n" => tally.add("projections refused by 21"),
        b"bad\n" => tally.add("projections of another form"),
        _ => tally.add("projections"),
    }
}

/// Each float as its pattern stands, whatever pattern a NaN has.
fn write_all(out: &mut Vec<u8>, xs: &[f64]) {
    for x in xs {
        out.push(b' ');
        floats::write_bits(out, x.to_bits());
    }
}

/// A line of another form.
fn bad(random: &mut Random) -> Vec<u8> {
    let lines: [&[u8]; 16] = [
        b"sets 0",
        b"set",
        b"box",
        b"box 1",
        b"box 1 1 1 3ff0000000000000",
        b"box 1 0 0 3ff0000000000000",
        b"box 01 0 0",
        b"box 0 18446744073709551615 1",
        b"box 0 0 18446744073709551616",
        b"ball 0",
        b"ball 3ff0000000000000",
        b"ball -1 3ff0000000000000",
        b"onto 1.0",
        b"onto ",
        b"show_onto 1",
        b"Box 0 0 0",
    ];
    random.pick(&lines).to_vec()
}
