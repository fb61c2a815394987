//! The original Rust engine behind the calls of `c/bench.h`.

use optimization_engine::alm::{self, AlmCache, AlmFactory, AlmOptimizer, AlmProblem};
use optimization_engine::constraints::Constraint;
use optimization_engine::core::ExitStatus;
use optimization_engine::panoc::{PANOCCache, PANOCOptimizer};
use optimization_engine::{FunctionCallResult, Problem};

type Projection = extern "C" fn(*const f64, *mut f64, usize);
type Mapping = extern "C" fn(*const f64, *mut f64, usize);
type Product = extern "C" fn(*const f64, *const f64, *mut f64, usize);

/// `callbacks` of bench.h.
#[repr(C)]
pub struct Callbacks {
    cost: extern "C" fn(*const f64, usize) -> f64,
    gradient: Mapping,
    project: Projection,
    direction: lbfgs::Rule,
    psi: extern "C" fn(*const f64, *const f64, usize) -> f64,
    d_psi: extern "C" fn(*const f64, *const f64, *mut f64, usize),
    f1: Mapping,
    f2: Mapping,
    project_c: Projection,
    jf1t: Product,
    jf2t: Product,
}

/// `task` of bench.h.
#[repr(C)]
pub struct Task {
    n: usize,
    n1: usize,
    n2: usize,
    max_inner: usize,
    max_outer: usize,
    tolerance: f64,
    epsilon: f64,
    delta: f64,
    initial: f64,
    penalty_factor: f64,
    epsilon_factor: f64,
    coefficient: f64,
    u: [f64; 64],
    xi: [f64; 33],
}

/// `result` of bench.h.
#[repr(C)]
pub struct Outcome {
    end: u64,
    inner: u64,
    outer: u64,
    norm: f64,
    cost: f64,
    penalty: f64,
    delta_y: f64,
    f2: f64,
    plan: [f64; 64],
    y: [f64; 32],
}

/// A set whose projection is a callback, called in place.
struct Set(Projection);

impl Constraint<f64> for Set {
    fn project(&self, x: &mut [f64]) -> FunctionCallResult {
        let place = x.as_mut_ptr();
        (self.0)(place, place, x.len());
        Ok(())
    }

    fn is_convex(&self) -> bool {
        true
    }
}

fn number(end: ExitStatus) -> u64 {
    match end {
        ExitStatus::Converged => 0,
        ExitStatus::NotConvergedIterations => 1,
        ExitStatus::NotConvergedOutOfTime => 2,
    }
}

/// A cache for inner solves.
#[no_mangle]
pub extern "C" fn rust_inner_new(t: &Task) -> Box<PANOCCache> {
    Box::new(PANOCCache::new(t.n, t.tolerance, 1))
}

/// One inner solve.
#[no_mangle]
pub extern "C" fn rust_inner(cache: &mut PANOCCache, c: &Callbacks, t: &Task, r: &mut Outcome) {
    lbfgs::set(c.direction);
    let cost = |u: &[f64], x: &mut f64| {
        *x = (c.cost)(u.as_ptr(), u.len());
        Ok(())
    };
    let gradient = |u: &[f64], g: &mut [f64]| {
        (c.gradient)(u.as_ptr(), g.as_mut_ptr(), u.len());
        Ok(())
    };
    let set = Set(c.project);
    let problem = Problem::new(&set, gradient, cost);
    let mut optimizer = PANOCOptimizer::new(problem, cache).with_max_iter(t.max_inner);
    let u = &mut r.plan[..t.n];
    u.copy_from_slice(&t.u[..t.n]);
    let status = optimizer.solve(u).expect("the solve ends");
    r.end = number(status.exit_status());
    r.inner = status.iterations() as u64;
    r.norm = status.norm_fpr();
    r.cost = status.cost_value();
}

/// A cache for loops.
#[no_mangle]
pub extern "C" fn rust_loop_new(t: &Task) -> Box<AlmCache> {
    let inner = PANOCCache::new(t.n, t.tolerance, 1);
    Box::new(AlmCache::new(inner, t.n1, t.n2))
}

/// One loop.
#[no_mangle]
pub extern "C" fn rust_loop(cache: &mut AlmCache, c: &Callbacks, t: &Task, r: &mut Outcome) {
    lbfgs::set(c.direction);
    let cost = |u: &[f64], xi: &[f64], x: &mut f64| {
        *x = (c.psi)(u.as_ptr(), xi.as_ptr(), u.len());
        Ok(())
    };
    let gradient = |u: &[f64], xi: &[f64], g: &mut [f64]| {
        (c.d_psi)(u.as_ptr(), xi.as_ptr(), g.as_mut_ptr(), u.len());
        Ok(())
    };
    let f1 = |u: &[f64], f: &mut [f64]| {
        (c.f1)(u.as_ptr(), f.as_mut_ptr(), u.len());
        Ok(())
    };
    let f2 = |u: &[f64], f: &mut [f64]| {
        (c.f2)(u.as_ptr(), f.as_mut_ptr(), u.len());
        Ok(())
    };
    let problem = AlmProblem::new(
        Set(c.project),
        Some(Set(c.project_c)),
        None::<Set>,
        cost,
        gradient,
        Some(f1),
        Some(f2),
        t.n1,
        t.n2,
    );
    let mut optimizer = AlmOptimizer::new(cache, problem)
        .with_max_inner_iterations(t.max_inner)
        .with_max_outer_iterations(t.max_outer)
        .with_epsilon_tolerance(t.epsilon)
        .with_delta_tolerance(t.delta)
        .with_initial_inner_tolerance(t.initial)
        .with_penalty_update_factor(t.penalty_factor)
        .with_inner_tolerance_update_factor(t.epsilon_factor)
        .with_sufficient_decrease_coefficient(t.coefficient)
        .with_initial_penalty(t.xi[0])
        .with_initial_lagrange_multipliers(&t.xi[1..1 + t.n1]);
    let u = &mut r.plan[..t.n];
    u.copy_from_slice(&t.u[..t.n]);
    let status = optimizer.solve(u).expect("the loop ends");
    r.end = number(status.exit_status());
    r.inner = status.num_inner_iterations() as u64;
    r.outer = status.num_outer_iterations() as u64;
    r.norm = status.last_problem_norm_fpr();
    r.cost = status.cost();
    r.penalty = status.penalty();
    r.f2 = status.f2_norm();
    let y = status.lagrange_multipliers().as_ref().expect("n1 > 0");
    r.y[..t.n1].copy_from_slice(y);
    r.delta_y = alm::delta_y_norm(cache);
}

/// psi or d_psi: what their factory is made of, and then one call.
macro_rules! factory {
    ($c:expr, $t:expr) => {{
        let c = $c;
        let cost = |u: &[f64], x: &mut f64| {
            *x = (c.cost)(u.as_ptr(), u.len());
            Ok(())
        };
        let mapping = |f: Mapping| {
            move |u: &[f64], x: &mut [f64]| {
                f(u.as_ptr(), x.as_mut_ptr(), u.len());
                Ok(())
            }
        };
        let product = |f: Product| {
            move |u: &[f64], d: &[f64], x: &mut [f64]| {
                f(u.as_ptr(), d.as_ptr(), x.as_mut_ptr(), u.len());
                Ok(())
            }
        };
        AlmFactory::new(
            cost,
            mapping(c.gradient),
            Some(mapping(c.f1)),
            Some(product(c.jf1t)),
            Some(mapping(c.f2)),
            Some(product(c.jf2t)),
            Some(Set(c.project_c)),
            $t.n2,
        )
    }};
}

/// One psi; it has no cache.
#[no_mangle]
pub extern "C" fn rust_psi(_: &mut PANOCCache, c: &Callbacks, t: &Task, r: &mut Outcome) {
    let factory = factory!(c, t);
    factory
        .psi(&t.u[..t.n], &t.xi[..1 + t.n1], &mut r.cost)
        .expect("psi ends");
}

/// One d_psi.
#[no_mangle]
pub extern "C" fn rust_d_psi(_: &mut PANOCCache, c: &Callbacks, t: &Task, r: &mut Outcome) {
    let factory = factory!(c, t);
    factory
        .d_psi(&t.u[..t.n], &t.xi[..1 + t.n1], &mut r.plan[..t.n])
        .expect("d_psi ends");
}
