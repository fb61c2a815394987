//! Names the parts of the inner solve; stands in for a module that docs/src lacks.

mod panoc_cache;
mod panoc_engine;
mod panoc_optimizer;

pub use panoc_cache::PANOCCache;
pub use panoc_engine::PANOCEngine;
pub use panoc_optimizer::PANOCOptimizer;
