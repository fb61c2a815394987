//! Ready-made sets, to project on.

use crate::ffi;
use crate::inner::{lent, lent_mut};
use crate::words::Refusal;

const BOX: u32 = 0;
const BALL: u32 = 1;

/// A table of boxes and balls, each for the next stretch of a vector: made once, and projected on in place as often as it is asked. A wrong
/// table can be made; each projection on it is refused.
#[derive(Debug, Clone, Default)]
pub struct Sets {
    sets: Vec<ffi::Set>,
    numbers: Vec<f64>,
}

impl Sets {
    /// No sets, which fill a vector of no places.
    pub fn new() -> Sets {
        Sets::default()
    }

    /// A box for the next `stretch` places.
    pub fn with_box(mut self, stretch: usize, lower: &[f64], upper: &[f64]) -> Sets {
        self.sets.push(ffi::Set {
            kind: BOX,
            stretch,
            first: lower.len(),
            second: upper.len(),
        });
        self.numbers.extend_from_slice(lower);
        self.numbers.extend_from_slice(upper);
        self
    }

    /// A ball for the next `stretch` places.
    pub fn with_ball(mut self, stretch: usize, centre: &[f64], radius: f64) -> Sets {
        self.sets.push(ffi::Set {
            kind: BALL,
            stretch,
            first: centre.len(),
            second: 0,
        });
        self.numbers.push(radius);
        self.numbers.extend_from_slice(centre);
        self
    }

    /// Projects `v`; a refusal by 20 or 21 leaves it as it was.
    pub fn project(&self, v: &mut [f64]) -> Result<(), Refusal> {
        static NONE: ffi::Set = ffi::Set {
            kind: BOX,
            stretch: 0,
            first: 0,
            second: 0,
        };
        let sets = if self.sets.is_empty() {
            &NONE
        } else {
            self.sets.as_ptr()
        };
        let (numbers, have) = lent(&self.numbers);
        let mut none = 0.0;
        let (v, vs) = lent_mut(v, &mut none);
        // SAFETY: each pointer is to as many places as are said, and to one at least; `v` is borrowed, and so overlaps none of the others.
        match unsafe { ffi::pozkerrin_project(sets, self.sets.len(), numbers, have, v, vs) } {
            0 => Ok(()),
            number => Err(Refusal::from_number(number)),
        }
    }
}
