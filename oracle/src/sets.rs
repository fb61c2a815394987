//! The ready-made sets, read from the request in plain words, and the lines of the transcript program that play them.

use crate::floats;

/// A set for the next stretch of a vector.
enum Set {
    Box { lower: Vec<f64>, upper: Vec<f64> },
    Ball { centre: Vec<f64>, radius: f64 },
}

/// The table that the program keeps, and the vector that was projected last.
#[derive(Default)]
pub struct Table {
    sets: Vec<(u64, Set)>,
    vector: Vec<f64>,
}

impl Table {
    /// What a line of sets prints; None for any other line, and for one of another form, which prints `bad`.
    pub fn line(&mut self, line: &[u8]) -> Option<String> {
        if line.len() > 4096 {
            return None;
        }
        let text = std::str::from_utf8(line).ok()?;
        let words: Vec<&str> = text.split(' ').collect();
        match words[..] {
            ["sets"] => {
                self.sets.clear();
                Some(self.count())
            }
            ["box", stretch, lower, upper, ref rest @ ..] => {
                let (lower, upper) = (whole(lower)?, whole(upper)?);
                let numbers = floats(rest)?;
                if u128::from(lower) + u128::from(upper) != numbers.len() as u128 {
                    return None;
                }
                let (lower, upper) = numbers.split_at(lower as usize);
                self.add(
                    whole(stretch)?,
                    Set::Box {
                        lower: lower.to_vec(),
                        upper: upper.to_vec(),
                    },
                )
            }
            ["ball", stretch, radius, ref rest @ ..] => {
                let set = Set::Ball {
                    centre: floats(rest)?,
                    radius: floats::read(radius)?,
                };
                self.add(whole(stretch)?, set)
            }
            ["onto", ref rest @ ..] => {
                let vector = floats(rest)?;
                if vector.len() > 128 {
                    return None;
                }
                self.vector = vector;
                Some(match self.refusal() {
                    Some(number) => format!("refused {number}"),
                    None => {
                        self.project();
                        self.shown()
                    }
                })
            }
            ["show_onto"] => Some(self.shown()),
            _ => None,
        }
    }

    fn add(&mut self, stretch: u64, set: Set) -> Option<String> {
        if self.sets.len() == 16 {
            return None;
        }
        self.sets.push((stretch, set));
        Some(self.count())
    }

    fn count(&self) -> String {
        format!("sets {}", self.sets.len())
    }

    fn shown(&self) -> String {
        let mut out = b"onto".to_vec();
        floats::write_all(&mut out, &self.vector);
        String::from_utf8(out).expect("digits")
    }

    /// "20, over 8 sets, or the stretches do not exactly fill the vector, or bounds or a centre their stretch; 21, a bound, centre or radius
    /// not finite, lower above upper, or radius below 0. 20 first"
    fn refusal(&self) -> Option<u8> {
        let filled: u128 = self
            .sets
            .iter()
            .map(|(stretch, _)| u128::from(*stretch))
            .sum();
        let fills = |stretch: &u64, set: &Set| match set {
            Set::Box { lower, upper } => {
                lower.len() as u64 == *stretch && upper.len() as u64 == *stretch
            }
            Set::Ball { centre, .. } => centre.len() as u64 == *stretch,
        };
        if self.sets.len() > 8
            || filled != self.vector.len() as u128
            || !self.sets.iter().all(|(stretch, set)| fills(stretch, set))
        {
            return Some(20);
        }
        let wrong = |set: &Set| match set {
            Set::Box { lower, upper } => lower
                .iter()
                .zip(upper)
                .any(|(l, u)| !l.is_finite() || !u.is_finite() || l > u),
            Set::Ball { centre, radius } => {
                centre.iter().any(|x| !x.is_finite()) || !radius.is_finite() || *radius < 0.0
            }
        };
        self.sets.iter().any(|(_, set)| wrong(set)).then_some(21)
    }

    /// "Each stretch gets what its set alone gives."
    fn project(&mut self) {
        let mut rest = &mut self.vector[..];
        for (stretch, set) in &self.sets {
            let (v, later) = rest.split_at_mut(*stretch as usize);
            match set {
                Set::Box { lower, upper } => clamp(lower, upper, v),
                Set::Ball { centre, radius } => pull(centre, *radius, v),
            }
            rest = later;
        }
    }
}

/// "The box puts its bound where an entry lies beyond it and keeps every other entry, NaN too."
fn clamp(lower: &[f64], upper: &[f64], v: &mut [f64]) {
    for i in 0..v.len() {
        if v[i] < lower[i] {
            v[i] = lower[i];
        } else if v[i] > upper[i] {
            v[i] = upper[i];
        }
    }
}

/// "The ball keeps a vector unless its distance from the centre exceeds the radius, and else gives centre + radius × (difference / distance)
/// at each place."
fn pull(centre: &[f64], radius: f64, v: &mut [f64]) {
    let mut squares = 0.0;
    for i in 0..v.len() {
        let difference = v[i] - centre[i];
        squares += difference * difference;
    }
    let distance: f64 = f64::sqrt(squares);
    if distance > radius {
        for i in 0..v.len() {
            let difference = v[i] - centre[i];
            v[i] = centre[i] + radius * (difference / distance);
        }
    }
}

fn floats(words: &[&str]) -> Option<Vec<f64>> {
    words.iter().map(|word| floats::read(word)).collect()
}

/// Decimal digits, with no sign and no leading zero, below 2^64.
fn whole(word: &str) -> Option<u64> {
    let digits = !word.is_empty() && word.bytes().all(|b| b.is_ascii_digit());
    let leading = word.len() > 1 && word.starts_with('0');
    if !digits || leading {
        return None;
    }
    word.parse().ok()
}
