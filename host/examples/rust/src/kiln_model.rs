//! The kiln of `kiln_model.h`, operation by operation.

pub const PERIODS: usize = 24;
const MEMORY: usize = 12;
const ROOM: f64 = 20.0;
const KEEP: f64 = 0.92;
const HEAT: f64 = 110.0;
const POWER: f64 = 0.01;

pub type Plan = [f64; PERIODS];

/// The firing curve: degrees at the end of each period.
#[rustfmt::skip]
pub const CURVE: Plan = [
    60.0, 120.0, 180.0, 240.0, 300.0, 360.0, 420.0, 480.0, 540.0, 600.0, 670.0, 740.0,
    810.0, 880.0, 930.0, 970.0, 1000.0, 1020.0, 1020.0, 1020.0, 1020.0, 940.0, 820.0, 700.0,
];

/// The temperature at the end of each period.
pub fn temperatures(u: &Plan) -> Plan {
    let mut now = ROOM;
    u.map(|u| {
        now = KEEP * now + ((1.0 - KEEP) * ROOM + HEAT * u);
        now
    })
}

pub fn cost(u: &Plan) -> f64 {
    let t = temperatures(u);
    (0..PERIODS).fold(0.0, |sum, i| {
        let off = (t[i] - CURVE[i]) / 100.0;
        sum + off * off + POWER * u[i] * u[i]
    })
}

/// The exact gradient, by a sweep forward and one back.
pub fn gradient(u: &Plan) -> Plan {
    let t = temperatures(u);
    let (mut g, mut degree) = ([0.0; PERIODS], 0.0);
    for i in (0..PERIODS).rev() {
        degree = KEEP * degree + 2.0 * (t[i] - CURVE[i]) / 10000.0;
        g[i] = HEAT * degree + 2.0 * POWER * u[i];
    }
    g
}

fn dot(a: &Plan, b: &Plan) -> f64 {
    let mut sum = [0.0; 4];
    for i in (0..PERIODS).step_by(4) {
        for j in 0..4 {
            sum[j] += a[i + j] * b[i + j];
        }
    }
    (sum[0] + sum[1]) + (sum[2] + sum[3])
}

/// A change of u (s) and of the residual (y), with 1 / (s · y).
struct Pair {
    s: Plan,
    y: Plan,
    rho: f64,
}

/// The L-BFGS rule: the latest pairs, the latest last.
pub struct Memory {
    last: Option<(Plan, Plan)>,
    pairs: Vec<Pair>,
    scale: f64,
}

impl Default for Memory {
    fn default() -> Memory {
        Memory {
            last: None,
            pairs: Vec::new(),
            scale: 1.0,
        }
    }
}

impl Memory {
    /// Keeps the change since the last residual at the periods that are free, where it shows a positive curvature.
    fn remember(&mut self, free: &Plan, r: &Plan, u: &Plan) {
        let Some((last_r, last_u)) = self.last.replace((*r, *u)) else {
            return;
        };
        let (mut s, mut y) = ([0.0; PERIODS], [0.0; PERIODS]);
        for i in 0..PERIODS {
            s[i] = free[i] * (u[i] - last_u[i]);
            y[i] = free[i] * (r[i] - last_r[i]);
        }
        let sy = dot(&s, &y);
        if sy > 1e-10 * dot(&s, &s) {
            self.scale = sy / dot(&y, &y);
            if self.pairs.len() == MEMORY {
                self.pairs.remove(0);
            }
            let rho = 1.0 / sy;
            self.pairs.push(Pair { s, y, rho });
        }
    }

    /// The residual itself where the half step lies at a bound, L-BFGS over the periods that are free.
    pub fn direction(&mut self, forget: bool, r: &Plan, u: &Plan) -> Plan {
        if forget {
            *self = Memory::default();
        }
        let (mut free, mut d) = ([0.0; PERIODS], [0.0; PERIODS]);
        for i in 0..PERIODS {
            let half = u[i] - r[i];
            free[i] = if half > 0.0 && half < 1.0 { 1.0 } else { 0.0 };
            d[i] = free[i] * r[i];
        }
        self.remember(&free, r, u);
        let mut a = Vec::new();
        for Pair { s, y, rho } in self.pairs.iter().rev() {
            let x = rho * dot(s, &d);
            for i in 0..PERIODS {
                d[i] -= x * y[i];
            }
            a.push(x);
        }
        d = d.map(|x| self.scale * x);
        for (Pair { s, y, rho }, a) in self.pairs.iter().zip(a.iter().rev()) {
            let b = a - rho * dot(y, &d);
            for i in 0..PERIODS {
                d[i] += b * s[i];
            }
        }
        for i in 0..PERIODS {
            d[i] = if free[i] > 0.0 { d[i] } else { r[i] };
        }
        d
    }
}
