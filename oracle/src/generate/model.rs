//! A smooth model: a convex quadratic over boxes, with linear mappings.

use super::values;
use crate::random::Random;
use crate::session::{Asked, Kind};

pub struct Model {
    curvature: Vec<f64>,
    centre: Vec<f64>,
    /// The half width of the box U, and of C and Y.
    width: f64,
    width_c: f64,
    width_y: f64,
    /// F1 and F2 by rows, with the constants last.
    rows1: Vec<Vec<f64>>,
    rows2: Vec<Vec<f64>>,
    /// How a direction is made of the residual.
    direction: usize,
    /// The gradient is wrong by this factor.
    slope: f64,
}

impl Model {
    pub fn new(random: &mut Random, n: usize, n1: usize, n2: usize) -> Model {
        let spread = random.pick(&[0.0, 0.5, 3.0, 50.0]);
        let row = |random: &mut Random| -> Vec<f64> {
            (0..=n).map(|_| values::plain(random) * 0.5).collect()
        };
        Model {
            curvature: (0..n).map(|_| 1.0 + spread * random.unit()).collect(),
            centre: (0..n).map(|_| values::plain(random)).collect(),
            width: random.pick(&[0.5, 1.0, 2.0, 1e6]),
            width_c: random.pick(&[0.0, 0.5, 2.0]),
            width_y: random.pick(&[0.5, 10.0, 1e6]),
            rows1: (0..n1).map(|_| row(random)).collect(),
            rows2: (0..n2).map(|_| row(random)).collect(),
            direction: random.below(8),
            slope: random.pick(&[1.0, 1.0, 1.0, 1.0, 0.5, -1.0]),
        }
    }

    /// The answer to a question that wants a number.
    pub fn number(&self, asked: &Asked) -> f64 {
        let u = asked.point;
        let mut sum = 0.0;
        for ((x, a), q) in u.iter().zip(&self.centre).zip(&self.curvature) {
            sum += 0.5 * q * (x - a) * (x - a);
        }
        if let Some((&c, y)) = asked.other.and_then(|xi| xi.split_first()) {
            for (row, yi) in self.rows1.iter().zip(y) {
                let t = value(row, u) + if c > 0.0 { yi / c } else { 0.0 };
                let d = t - t.clamp(-self.width_c, self.width_c);
                sum += 0.5 * c * d * d;
            }
            for row in &self.rows2 {
                sum += 0.5 * c * value(row, u) * value(row, u);
            }
        }
        sum
    }

    /// The answer to a question that wants a vector.
    pub fn vector(&self, random: &mut Random, asked: &Asked) -> Vec<f64> {
        let u = asked.point;
        let other = asked.other.unwrap_or(&[]);
        let clamped = |w: f64| -> Vec<f64> { u.iter().map(|x| x.max(-w).min(w)).collect() };
        match asked.kind {
            Kind::Gradient => self.gradient(u, other),
            Kind::Project => clamped(self.width),
            Kind::ProjectC => clamped(self.width_c),
            Kind::ProjectY => clamped(self.width_y),
            Kind::F1 => self.rows1.iter().map(|row| value(row, u)).collect(),
            Kind::F2 => self.rows2.iter().map(|row| value(row, u)).collect(),
            Kind::Jf1t => transposed(&self.rows1, other, u.len()),
            Kind::Jf2t => transposed(&self.rows2, other, u.len()),
            Kind::Direction => {
                let scaled = |s: f64| u.iter().map(|r| r * s).collect();
                match self.direction {
                    0 | 1 => scaled(1.0),
                    2 => scaled(0.5),
                    3 => scaled(3.0),
                    4 => scaled(-1.0),
                    5 => other.iter().zip(&self.centre).map(|(x, a)| x - a).collect(),
                    6 => u.iter().map(|r| r * (1.0 + random.signed())).collect(),
                    _ => u.iter().map(|_| values::plain(random)).collect(),
                }
            }
            Kind::Cost | Kind::Time => unreachable!("no vector is asked"),
        }
    }

    fn gradient(&self, u: &[f64], xi: &[f64]) -> Vec<f64> {
        let mut g: Vec<f64> = u
            .iter()
            .zip(&self.centre)
            .zip(&self.curvature)
            .map(|((x, a), q)| self.slope * q * (x - a))
            .collect();
        if let Some((&c, y)) = xi.split_first() {
            for (row, yi) in self.rows1.iter().zip(y) {
                let t = value(row, u) + if c > 0.0 { yi / c } else { 0.0 };
                let d = t - t.clamp(-self.width_c, self.width_c);
                add(&mut g, row, c * d);
            }
            for row in &self.rows2 {
                let f = value(row, u);
                add(&mut g, row, c * f);
            }
        }
        g
    }
}

fn value(row: &[f64], u: &[f64]) -> f64 {
    let products: f64 = row.iter().zip(u).map(|(a, x)| a * x).sum();
    products + row[u.len()]
}

fn add(g: &mut [f64], row: &[f64], factor: f64) {
    for (gi, a) in g.iter_mut().zip(row) {
        *gi += factor * a;
    }
}

fn transposed(rows: &[Vec<f64>], d: &[f64], n: usize) -> Vec<f64> {
    let mut product = vec![0.0; n];
    for (row, di) in rows.iter().zip(d) {
        add(&mut product, row, *di);
    }
    product
}
