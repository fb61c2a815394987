//! Stands in for a module that no run here uses.

/// A fault of the factorization.
#[derive(Debug)]
pub struct CholeskyError;

/// A factorization.
#[derive(Debug)]
pub struct CholeskyFactorizer;
