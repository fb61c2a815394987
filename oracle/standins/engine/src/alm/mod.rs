//! Names the parts of the multiplier loop; stands in for a module that docs/src lacks.

mod alm_cache;
mod alm_factory;
mod alm_optimizer;
mod alm_optimizer_status;
mod alm_problem;

pub use alm_cache::AlmCache;
pub use alm_factory::AlmFactory;
pub use alm_optimizer::AlmOptimizer;
pub use alm_optimizer_status::AlmOptimizerStatus;
pub use alm_problem::AlmProblem;

/// The norm of y_plus - y as the loop left it; the status has it only divided.
pub fn delta_y_norm(cache: &AlmCache<f64>) -> f64 {
    cache.delta_y_norm_plus
}
