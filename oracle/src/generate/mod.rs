//! Generated runs: a start, and a source that answers as the run's plan says.

pub mod edges;
pub mod model;
pub mod noise;
pub mod sets;
pub mod starts;
pub mod values;

use crate::play;
use crate::random::Random;
use crate::reference::inner::Place;
use crate::reference::vectors::norm;
use crate::reference::words::Line;
use crate::reference::{Run, Wants};
use crate::session::{Asked, Kind, Said, Source};
use crate::start::{Call, Start};
use crate::tally::Tally;
use crate::tape::Tape;
use edges::Hold;
use model::Model;
use std::collections::VecDeque;

/// How the answers of a run are made where nothing else is due.
#[derive(Debug, Clone, Copy, PartialEq)]
pub enum Base {
    Smooth,
    Plain,
    Constant(f64),
    Huge,
    Tiny,
    Finite,
    /// Every test fails, so that the run asks as much as it can.
    Spend,
}

/// What a run's answers are like; the numbers are chances in a thousand, for each answer.
#[derive(Debug, Clone, Copy)]
pub struct Plan {
    pub base: Base,
    pub edge: usize,
    pub odd: usize,
    /// The same for the mappings and sets of the loop.
    pub odd_mapping: usize,
    pub plain: usize,
    pub disturbed: usize,
    pub fails: usize,
    pub left: usize,
    pub no: usize,
    /// After so many answers the run is failed.
    pub longest: usize,
}

impl Plan {
    pub fn new(random: &mut Random) -> Plan {
        let base = match random.below(20) {
            0..=7 => Base::Smooth,
            8..=13 => Base::Plain,
            14 => Base::Constant(0.0),
            15 => Base::Constant(values::plain(random)),
            16 => Base::Huge,
            17 => Base::Tiny,
            18 => Base::Finite,
            _ => Base::Spend,
        };
        Plan {
            base,
            edge: random.pick(&[0, 0, 300, 600, 900]),
            odd: random.pick(&[0, 0, 0, 20, 100]),
            odd_mapping: random.pick(&[0, 0, 0, 0, 0, 200]),
            plain: random.pick(&[0, 100, 300]),
            disturbed: random.pick(&[0, 0, 0, 30, 200]),
            fails: random.pick(&[0, 0, 0, 0, 30]),
            left: random.pick(&[0, 0, 0, 0, 0, 0, 0, 30]),
            no: random.pick(&[0, 50, 300, 500]),
            longest: 20_000,
        }
    }
}

impl Plan {
    /// Answers by a base and nothing else.
    fn only(base: Base) -> Plan {
        Plan {
            base,
            edge: 0,
            odd: 0,
            odd_mapping: 0,
            plain: 0,
            disturbed: 0,
            fails: 0,
            left: 0,
            no: 0,
            longest: usize::MAX,
        }
    }
}

/// Answers as a plan says.
pub struct Generator {
    random: Random,
    plan: Plan,
    model: Model,
    hold: Hold,
    queue: VecDeque<Said>,
    /// What follows the end is put into the queue already.
    closed: bool,
    /// The lent places can be shown after the end.
    show: bool,
    on_edge: bool,
    answers: usize,
}

impl Generator {
    pub fn new(mut random: Random, plan: Plan, start: &Start) -> Generator {
        let sizes = (start.u.len(), start.n1.min(32), start.n2.min(32));
        let model = Model::new(&mut random, sizes.0, sizes.1 as usize, sizes.2 as usize);
        Generator {
            random,
            plan,
            model,
            hold: Hold::Nothing,
            queue: VecDeque::new(),
            closed: false,
            show: start.call != Call::DPsi || start.n <= 128,
            on_edge: false,
            answers: 0,
        }
    }

    /// The answer to the question that stands.
    fn answer(&mut self, asked: &Asked, shadow: Option<&Run>, tally: &mut Tally) -> Line {
        let random = &mut self.random;
        let plan = self.plan;
        if asked.kind == Kind::Time {
            return if random.chance(plan.no) && plan.base != Base::Spend {
                Line::No
            } else {
                Line::Yes
            };
        }
        self.answers += 1;
        let too_long = self.answers > plan.longest;
        if asked.kind != Kind::Direction && (too_long || random.chance(plan.fails)) {
            return Line::Failure(random.pick(&[0, 1, 7, u32::MAX, 1 << 31]));
        }
        match (self.hold, asked.kind) {
            (Hold::FlatThenStay, Kind::Gradient) => {
                self.hold = Hold::Stay;
                return Line::Vector(vec![0.0; asked.point.len()]);
            }
            (Hold::Stay, Kind::Project) => {
                self.hold = Hold::Nothing;
                return Line::Vector(asked.point.to_vec());
            }
            _ => self.hold = Hold::Nothing,
        }
        if let Some(run) = shadow {
            if random.chance(plan.edge) {
                if let Some((line, name)) = edges::place(random, run, &mut self.hold) {
                    tally.add(name);
                    if !self.on_edge {
                        self.on_edge = true;
                        tally.add("runs on an edge");
                    }
                    return line;
                }
            }
        }
        match asked.wants {
            Wants::Number => Line::Number(self.number(asked, shadow)),
            Wants::Vector(n) => {
                let mut v = self.vector(asked, shadow, n);
                let of_loop = matches!(
                    asked.kind,
                    Kind::F1 | Kind::F2 | Kind::ProjectC | Kind::ProjectY
                );
                let odd = if of_loop {
                    self.plan.odd.max(self.plan.odd_mapping)
                } else {
                    self.plan.odd
                };
                if self.random.chance(odd) {
                    let i = self.random.below(n);
                    v[i] = values::odd(&mut self.random);
                }
                Line::Vector(v)
            }
            Wants::YesNo => Line::Yes,
        }
    }

    fn number(&mut self, asked: &Asked, shadow: Option<&Run>) -> f64 {
        let random = &mut self.random;
        if random.chance(self.plan.odd) {
            return values::odd(random);
        }
        if self.plan.base != Base::Spend && random.chance(self.plan.plain) {
            return values::plain(random);
        }
        match self.plan.base {
            Base::Smooth => self.model.number(asked),
            Base::Spend => above(shadow),
            base => of_base(random, base),
        }
    }

    fn vector(&mut self, asked: &Asked, shadow: Option<&Run>, n: usize) -> Vec<f64> {
        let random = &mut self.random;
        if self.plan.base == Base::Spend {
            return spending(random, asked, shadow, n);
        }
        if random.chance(self.plan.plain) {
            return (0..n).map(|_| values::plain(random)).collect();
        }
        match self.plan.base {
            Base::Smooth => self.model.vector(random, asked),
            base => (0..n).map(|_| of_base(random, base)).collect(),
        }
    }
}

/// A number by a plan that has no model.
fn of_base(random: &mut Random, base: Base) -> f64 {
    match base {
        Base::Constant(x) => x,
        Base::Huge => values::huge(random),
        Base::Tiny => values::tiny(random),
        Base::Finite => values::finite(random),
        _ => values::plain(random),
    }
}

/// A cost that fails the doubling test or the line search, where one of them looks at it.
fn above(shadow: Option<&Run>) -> f64 {
    let Some(inner) = shadow.and_then(Run::inner) else {
        return 0.0;
    };
    let limit = match inner.place {
        Place::HalfCost => inner.doubling_rhs(&inner.residual, inner.norm),
        Place::DoublingCost => {
            let residual = edges::minus(&inner.u, &inner.half);
            inner.doubling_rhs(&residual, norm(&residual))
        }
        Place::CandidateCost => inner.rhs,
        _ => return 0.0,
    };
    limit.abs() * 2.0 + 1.0
}

/// A vector after which the tests fail: a small gradient of slope 1, and half steps away from the point.
fn spending(random: &mut Random, asked: &Asked, shadow: Option<&Run>, n: usize) -> Vec<f64> {
    let inner = shadow.and_then(Run::inner);
    match (asked.kind, inner) {
        (Kind::Gradient, _) => asked.point.iter().map(|x| 1e-3 * x).collect(),
        (Kind::Project, Some(inner)) => {
            let akkt = inner.akkt.unwrap_or(0.0);
            let away = 1.0 + 2.0 * inner.tolerance.min(1e6) + 2.0 * akkt.min(1e6);
            let point = match inner.place {
                Place::CandidateProject => &inner.candidate,
                _ => &inner.u,
            };
            point.iter().map(|x| x - away).collect()
        }
        _ => (0..n).map(|_| 1.0 + random.unit()).collect(),
    }
}

impl Source for Generator {
    fn asked(
        &mut self,
        asked: &Asked,
        shadow: Option<&Run>,
        tape: &Tape,
        tally: &mut Tally,
    ) -> Said {
        if let Some(said) = self.queue.pop_front() {
            return said;
        }
        if self.random.chance(self.plan.disturbed) {
            let random = &mut self.random;
            noise::disturb(random, asked, tape, &mut self.queue);
            if let Some(said) = self.queue.pop_front() {
                return said;
            }
        }
        if self.random.chance(self.plan.left) {
            self.closed = true;
            return Said::Leave;
        }
        Said::Line(self.answer(asked, shadow, tally))
    }

    fn ended(&mut self, tape: &Tape) -> Said {
        if !self.closed {
            self.closed = true;
            self.queue.clear();
            let disturbed = self.plan.disturbed > 0;
            noise::after_end(
                &mut self.random,
                tape,
                self.show,
                disturbed,
                &mut self.queue,
            );
        }
        self.queue.pop_front().unwrap_or(Said::Leave)
    }
}

/// How many of a thousand runs are of each kind.
#[derive(Debug, Clone, Copy)]
pub struct Mix {
    pub inner: usize,
    pub outer: usize,
    pub psi: usize,
}

impl Mix {
    fn pick(&self, random: &mut Random) -> Call {
        let x = random.below(1000);
        if x < self.inner {
            Call::Inner
        } else if x < self.inner + self.outer {
            Call::Loop
        } else if x < self.inner + self.outer + self.psi {
            Call::Psi
        } else {
            Call::DPsi
        }
    }
}

/// Appends run number `index` of a seed.
pub fn run(seed: u64, index: u64, mix: &Mix, tape: Tape, mut tally: Tally) -> (Tape, Tally) {
    let mut random = Random::new(seed, index);
    let call = mix.pick(&mut random);
    let mut plan = Plan::new(&mut random);
    let start = match random.below(1000) {
        0..=29 => {
            plan.disturbed = 1000;
            starts::refused(&mut random, call)
        }
        30 | 31 => {
            tally.add("runs that may be long");
            starts::accepted(&mut random, call, starts::Length::Long)
        }
        32..=35 if call == Call::Loop => starts::outside(&mut random),
        _ if index % 5_000 == 4_777 => {
            tally.add("runs of all iterations");
            plan = Plan::only(Base::Plain);
            starts::marathon(&mut random)
        }
        _ => starts::accepted(&mut random, call, starts::Length::Short),
    };
    let source = Generator::new(random, plan, &start);
    play::play(&start, Box::new(source), tape, tally)
}

/// Appends a run whose every test fails.
pub fn spend(random: Random, start: &Start, tape: Tape, tally: Tally) -> (Tape, Tally) {
    let source = Generator::new(random, Plan::only(Base::Spend), start);
    play::play(start, Box::new(source), tape, tally)
}
