//! Stands in for the `web_time` crate: no time passes, so the clock costs the Rust nothing.

use std::time::Duration;

#[derive(Debug, Clone, Copy)]
pub struct Instant;

impl Instant {
    pub fn now() -> Instant {
        Instant
    }

    pub fn elapsed(&self) -> Duration {
        Duration::ZERO
    }
}
