//! Drives the Rust: the callbacks ask the session, and what comes back is printed.

use crate::floats;
use crate::reference::Wants;
use crate::session::{Asked, Got, Kind, Session, LIMIT};
use crate::start::{Call, Start};
use optimization_engine::alm::{self, AlmCache, AlmFactory, AlmOptimizer, AlmProblem};
use optimization_engine::constraints::Constraint;
use optimization_engine::core::ExitStatus;
use optimization_engine::panoc::{PANOCCache, PANOCOptimizer};
use optimization_engine::{FunctionCallResult, Problem, SolverError};
use std::cell::RefCell;
use std::panic::{catch_unwind, AssertUnwindSafe};
use std::rc::Rc;
use std::time::Duration;

type Shared = Rc<RefCell<Session>>;

/// What a callback returns where the host fails or the run is left.
const STOP: SolverError = SolverError::Cost("the host stops the run");

/// The lbfgs stand-in keeps one direction, so its memory is of no matter.
const MEMORY: usize = 1;

/// Answers for the stand-ins of `lbfgs` and `web_time`.
struct SessionHost(Shared);

impl host::Host for SessionHost {
    fn direction(&self, forget: bool, residual: &[f64], u: &[f64], direction: &mut [f64]) {
        let wants = Wants::Vector(residual.len());
        let mut asked = Asked::new(Kind::Direction, wants, residual).with(u);
        asked.forget = forget;
        if let Got::Vector(v) = self.0.borrow_mut().ask(asked) {
            direction.copy_from_slice(&v);
        }
    }

    fn elapsed(&self) -> Duration {
        self.0.borrow_mut().elapsed()
    }
}

/// Asks for a number.
fn number(session: &Shared, asked: Asked, answer: &mut f64) -> FunctionCallResult {
    match session.borrow_mut().ask(asked) {
        Got::Number(x) => *answer = x,
        _ => return Err(STOP),
    }
    Ok(())
}

/// Asks for a vector of the length of `answer`.
fn vector(
    session: &Shared,
    kind: Kind,
    point: &[f64],
    other: Option<&[f64]>,
    answer: &mut [f64],
) -> FunctionCallResult {
    let mut asked = Asked::new(kind, Wants::Vector(answer.len()), point);
    asked.other = other;
    match session.borrow_mut().ask(asked) {
        Got::Vector(v) => answer.copy_from_slice(&v),
        _ => return Err(STOP),
    }
    Ok(())
}

/// A set whose projections are asked.
struct AskedSet(Shared, Kind);

impl Constraint<f64> for AskedSet {
    fn project(&self, x: &mut [f64]) -> FunctionCallResult {
        let point = x.to_vec();
        vector(&self.0, self.1, &point, None, x)
    }

    fn is_convex(&self) -> bool {
        true
    }
}

/// Runs an accepted start to its end, refusal, or until it is left.
pub fn run(session: Session, start: &Start) -> Session {
    let shared: Shared = Rc::new(RefCell::new(session));
    host::set(Rc::new(SessionHost(shared.clone())));
    let outcome = catch_unwind(AssertUnwindSafe(|| match start.call {
        Call::Inner => inner(&shared, start),
        Call::Loop => outer(&shared, start),
        Call::Psi => psi(&shared, start),
        Call::DPsi => d_psi(&shared, start),
    }));
    host::set(Rc::new(NoHost));
    let mut session = Rc::into_inner(shared)
        .expect("the run is over")
        .into_inner();
    if session.over {
        return session;
    }
    match outcome {
        Ok(Ok(())) => {}
        Ok(Err(error)) => refused(&mut session, error),
        Err(panic) => {
            let text = panic_text(panic.as_ref());
            assert!(means_18(&text), "the Rust panics: {text}");
            session.tape.print_refused(18);
            session.tally.refused(18);
        }
    }
    session
}

/// Prints the refusal of an error.
fn refused(session: &mut Session, error: SolverError) {
    if let Some(code) = session.failed {
        assert!(error == STOP, "a failure became {error:?}");
        session.tape.print(&format!("refused 9 {code}"));
        session.tally.refused(9);
        return;
    }
    let number = match error {
        SolverError::NotFiniteComputation("initial PANOC cost or gradient is non-finite") => 10,
        SolverError::NotFiniteComputation(
            "cost evaluation returned a non-finite value during Lipschitz estimation",
        ) => 11,
        SolverError::NotFiniteComputation(
            "half-step cost became non-finite during Lipschitz backtracking",
        ) => 12,
        SolverError::NotFiniteComputation(
            "first PANOC iterate produced a non-finite cost or gradient",
        ) => 13,
        SolverError::NotFiniteComputation(
            "line-search candidate produced a non-finite cost or gradient",
        ) => 14,
        SolverError::NotFiniteComputation("final PANOC iterate contains a non-finite value") => 15,
        SolverError::NotFiniteComputation("best cached half-step cost is non-finite") => 16,
        other => panic!("no number for {other:?}"),
    };
    session.tape.print_refused(number);
    session.tally.refused(number);
}

fn inner(session: &Shared, start: &Start) -> FunctionCallResult {
    let cost =
        |u: &[f64], c: &mut f64| number(session, Asked::new(Kind::Cost, Wants::Number, u), c);
    let gradient = |u: &[f64], g: &mut [f64]| vector(session, Kind::Gradient, u, None, g);
    let set_u = AskedSet(session.clone(), Kind::Project);
    let mut cache = PANOCCache::new(start.u.len(), start.tolerance, MEMORY);
    let problem = Problem::new(&set_u, gradient, cost);
    let mut optimizer = PANOCOptimizer::new(problem, &mut cache).with_max_iter(start.m as usize);
    if let Some(akkt) = start.akkt {
        optimizer = optimizer.with_akkt_tolerance(akkt);
    }
    if start.limited {
        optimizer = optimizer.with_max_duration(LIMIT);
    }
    let mut u = start.u.clone();
    let status = optimizer.solve(&mut u)?;
    let mut session = session.borrow_mut();
    if session.over {
        return Ok(());
    }
    let end = end_name(&mut session, status.exit_status());
    let mut line = format!("ended {end} {}", status.iterations()).into_bytes();
    floats::write_all(&mut line, &[status.norm_fpr(), status.cost_value()]);
    print(&mut session, line);
    session.tape.u = u;
    Ok(())
}

fn outer(session: &Shared, start: &Start) -> FunctionCallResult {
    let (n1, n2) = (start.n1 as usize, start.n2 as usize);
    let cost = |u: &[f64], xi: &[f64], c: &mut f64| {
        number(
            session,
            Asked::new(Kind::Cost, Wants::Number, u).with(xi),
            c,
        )
    };
    let gradient =
        |u: &[f64], xi: &[f64], g: &mut [f64]| vector(session, Kind::Gradient, u, Some(xi), g);
    let f1 = |u: &[f64], f: &mut [f64]| vector(session, Kind::F1, u, None, f);
    let f2 = |u: &[f64], f: &mut [f64]| vector(session, Kind::F2, u, None, f);
    let problem = AlmProblem::new(
        AskedSet(session.clone(), Kind::Project),
        (n1 > 0).then(|| AskedSet(session.clone(), Kind::ProjectC)),
        start
            .set_y
            .then(|| AskedSet(session.clone(), Kind::ProjectY)),
        cost,
        gradient,
        (n1 > 0).then_some(f1),
        (n2 > 0).then_some(f2),
        n1,
        n2,
    );
    let panoc_cache = PANOCCache::new(start.u.len(), start.tolerance, MEMORY);
    let mut cache = AlmCache::new(panoc_cache, n1, n2);
    let mut optimizer = AlmOptimizer::new(&mut cache, problem)
        .with_max_inner_iterations(start.m as usize)
        .with_max_outer_iterations(start.k as usize)
        .with_epsilon_tolerance(start.epsilon)
        .with_delta_tolerance(start.delta)
        .with_initial_inner_tolerance(start.akkt.expect("the loop has an AKKT tolerance"))
        .with_penalty_update_factor(start.penalty_factor)
        .with_inner_tolerance_update_factor(start.epsilon_factor)
        .with_sufficient_decrease_coefficient(start.coefficient);
    if let Some((&c, y)) = start.xi.split_first() {
        optimizer = optimizer
            .with_initial_penalty(c)
            .with_initial_lagrange_multipliers(y);
    }
    if start.limited {
        optimizer = optimizer.with_max_duration(LIMIT);
    }
    let mut u = start.u.clone();
    let status = optimizer.solve(&mut u)?;
    let delta_y = alm::delta_y_norm(&cache);
    let mut session = session.borrow_mut();
    if session.over {
        return Ok(());
    }
    let end = end_name(&mut session, status.exit_status());
    let (outer, inner) = (status.num_outer_iterations(), status.num_inner_iterations());
    let mut line = format!("ended {end} {outer} {inner}").into_bytes();
    let norm = status.last_problem_norm_fpr();
    let numbers = [
        norm,
        status.cost(),
        status.penalty(),
        delta_y,
        status.f2_norm(),
    ];
    floats::write_all(&mut line, &numbers);
    print(&mut session, line);
    session.tape.u = u;
    if n1 + n2 > 0 {
        session.tape.xi[0] = status.penalty();
    }
    if let Some(y) = status.lagrange_multipliers() {
        session.tape.xi[1..].copy_from_slice(y);
    }
    Ok(())
}

/// psi and d_psi are made by the same factory, which wants a type for each of its parts.
macro_rules! factory {
    ($session:expr, $start:expr) => {{
        let session = $session;
        let (n1, n2) = ($start.n1 as usize, $start.n2 as usize);
        let cost =
            |u: &[f64], c: &mut f64| number(session, Asked::new(Kind::Cost, Wants::Number, u), c);
        let gradient = |u: &[f64], g: &mut [f64]| vector(session, Kind::Gradient, u, None, g);
        let f1 = |u: &[f64], f: &mut [f64]| vector(session, Kind::F1, u, None, f);
        let f2 = |u: &[f64], f: &mut [f64]| vector(session, Kind::F2, u, None, f);
        let jf1t = |u: &[f64], d: &[f64], j: &mut [f64]| vector(session, Kind::Jf1t, u, Some(d), j);
        let jf2t = |u: &[f64], d: &[f64], j: &mut [f64]| vector(session, Kind::Jf2t, u, Some(d), j);
        AlmFactory::new(
            cost,
            gradient,
            (n1 > 0).then_some(f1),
            (n1 > 0).then_some(jf1t),
            (n2 > 0).then_some(f2),
            (n2 > 0).then_some(jf2t),
            (n1 > 0).then(|| AskedSet(session.clone(), Kind::ProjectC)),
            n2,
        )
    }};
}

fn psi(session: &Shared, start: &Start) -> FunctionCallResult {
    let factory = factory!(session, start);
    let mut value = 0.0;
    factory.psi(&start.u, &start.xi, &mut value)?;
    let mut session = session.borrow_mut();
    let mut line = b"ended".to_vec();
    floats::write_all(&mut line, &[value]);
    print(&mut session, line);
    Ok(())
}

fn d_psi(session: &Shared, start: &Start) -> FunctionCallResult {
    let factory = factory!(session, start);
    let mut result = vec![0.0; start.u.len()];
    factory.d_psi(&start.u, &start.xi, &mut result)?;
    let mut session = session.borrow_mut();
    print(&mut session, b"ended".to_vec());
    session.tape.u = result;
    Ok(())
}

fn print(session: &mut Session, mut line: Vec<u8>) {
    line.push(b'\n');
    session.tape.expected.extend_from_slice(&line);
    session.tally.add("ended");
}

fn end_name(session: &mut Session, end: ExitStatus) -> &'static str {
    let name = match end {
        ExitStatus::Converged => "Converged",
        ExitStatus::NotConvergedIterations => "NotConvergedIterations",
        ExitStatus::NotConvergedOutOfTime => "NotConvergedOutOfTime",
    };
    session.tally.add(name);
    name
}

/// The Rust panics where document 01 refuses by 18.
fn means_18(panic: &str) -> bool {
    panic.contains("delta_y_norm must be nonnegative")
        || panic.contains("f2_norm must be nonnegative")
}

/// Keeps those panics from the terminal.
pub fn hush_expected_panics() {
    let usual = std::panic::take_hook();
    std::panic::set_hook(Box::new(move |info| {
        if !means_18(&panic_text(info.payload())) {
            usual(info);
        }
    }));
}

fn panic_text(panic: &(dyn std::any::Any + Send)) -> String {
    if let Some(text) = panic.downcast_ref::<&str>() {
        return text.to_string();
    }
    match panic.downcast_ref::<String>() {
        Some(text) => text.clone(),
        None => String::new(),
    }
}

/// Stands between runs.
struct NoHost;

impl host::Host for NoHost {
    fn direction(&self, _: bool, _: &[f64], _: &[f64], _: &mut [f64]) {
        panic!("no run asks");
    }

    fn elapsed(&self) -> Duration {
        panic!("no run asks");
    }
}
