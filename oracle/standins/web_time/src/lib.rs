//! Stands in for the `web_time` crate: the time passed is asked of the host.

use std::time::Duration;

/// A moment; all moments are alike.
#[derive(Debug, Clone, Copy)]
pub struct Instant;

impl Instant {
    pub fn now() -> Instant {
        Instant
    }

    pub fn elapsed(&self) -> Duration {
        host::get().elapsed()
    }
}
