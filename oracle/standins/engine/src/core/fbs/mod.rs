//! Stands in for another algorithm, which no run here uses.
