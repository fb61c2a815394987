//! Reads the lines of a script to the letter of TRANSCRIPT.md.

use super::{Call, Start};
use crate::floats;

/// A line that can be read.
#[derive(Debug, Clone)]
pub enum Line {
    Start(Box<Start>),
    Number(f64),
    Vector(Vec<f64>),
    Yes,
    No,
    Failure(u32),
    Lend(usize, usize),
    Show,
}

/// At most so many places are lent.
const PLACES: usize = 128;

/// Reads a line without its end; none where it has another form.
pub fn read(line: &[u8]) -> Option<Line> {
    if line.len() > 4096 {
        return None;
    }
    let text = std::str::from_utf8(line).ok()?;
    let words: Vec<&str> = text.split(' ').collect();
    let rest = &words[1..];
    match words[0] {
        "inner" => inner(rest),
        "loop" => outer(rest),
        "psi" => penalty(Call::Psi, rest),
        "d_psi" => penalty(Call::DPsi, rest),
        "number" => match rest {
            [x] => Some(Line::Number(floats::read(x)?)),
            _ => None,
        },
        "vector" => Some(Line::Vector(slice(rest)?)),
        "yes" if rest.is_empty() => Some(Line::Yes),
        "no" if rest.is_empty() => Some(Line::No),
        "failure" => match rest {
            [code] => Some(Line::Failure(u32::try_from(whole(code)?).ok()?)),
            _ => None,
        },
        "lend" => match rest {
            [u, xi] => Some(Line::Lend(length(u)?, length(xi)?)),
            _ => None,
        },
        "show" if rest.is_empty() => Some(Line::Show),
        _ => None,
    }
}

fn inner(words: &[&str]) -> Option<Line> {
    let [n, m, limited, tolerance, akkt, u @ ..] = words else {
        return None;
    };
    let mut set = Start::new(Call::Inner, &slice(u)?);
    set.n = whole(n)?;
    set.m = whole(m)?;
    set.limited = flag(limited)?;
    set.tolerance = floats::read(tolerance)?;
    set.akkt = optional(akkt)?;
    Some(Line::Start(Box::new(set)))
}

fn outer(words: &[&str]) -> Option<Line> {
    if words.len() < 15 {
        return None;
    }
    let (u, xi) = lent(words[14], &words[15..])?;
    let mut set = Start::new(Call::Loop, &u);
    set.xi = xi;
    set.n = whole(words[0])?;
    set.n1 = whole(words[1])?;
    set.n2 = whole(words[2])?;
    set.set_y = flag(words[3])?;
    set.m = whole(words[4])?;
    set.k = whole(words[5])?;
    set.limited = flag(words[6])?;
    set.tolerance = floats::read(words[7])?;
    set.epsilon = floats::read(words[8])?;
    set.delta = floats::read(words[9])?;
    set.akkt = Some(floats::read(words[10])?);
    set.penalty_factor = floats::read(words[11])?;
    set.epsilon_factor = floats::read(words[12])?;
    set.coefficient = floats::read(words[13])?;
    Some(Line::Start(Box::new(set)))
}

fn penalty(call: Call, words: &[&str]) -> Option<Line> {
    let [n, n1, n2, length_u, rest @ ..] = words else {
        return None;
    };
    let (u, xi) = lent(length_u, rest)?;
    let mut set = Start::new(call, &u);
    set.xi = xi;
    set.n = whole(n)?;
    set.n1 = whole(n1)?;
    set.n2 = whole(n2)?;
    Some(Line::Start(Box::new(set)))
}

/// Splits the floats into u and xi.
fn lent(length_u: &str, words: &[&str]) -> Option<(Vec<f64>, Vec<f64>)> {
    let length_u = length(length_u)?;
    if words.len() < length_u {
        return None;
    }
    let (u, xi) = words.split_at(length_u);
    Some((slice(u)?, slice(xi)?))
}

fn slice(words: &[&str]) -> Option<Vec<f64>> {
    if words.len() > PLACES {
        return None;
    }
    words.iter().map(|w| floats::read(w)).collect()
}

fn optional(word: &str) -> Option<Option<f64>> {
    match word {
        "-" => Some(None),
        _ => floats::read(word).map(Some),
    }
}

fn flag(word: &str) -> Option<bool> {
    match word {
        "0" => Some(false),
        "1" => Some(true),
        _ => None,
    }
}

fn length(word: &str) -> Option<usize> {
    let x = whole(word)?;
    (x <= PLACES as u64).then_some(x as usize)
}

/// A decimal without sign or leading zero, below 2^64.
fn whole(word: &str) -> Option<u64> {
    let plain = !word.is_empty() && word.bytes().all(|b| b.is_ascii_digit());
    let leading = word.len() > 1 && word.starts_with('0');
    if !plain || leading {
        return None;
    }
    word.parse().ok()
}
