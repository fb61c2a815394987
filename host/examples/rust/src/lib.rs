//! The inner solve of Pozkerrin for Rust, and its ready-made sets, with no `unsafe` left to the caller.
//!
//! What a C host could get wrong cannot be written here. A slice brings its own length, so no length is passed that is not there, and the
//! engine refuses one that is not asked for. Lent places cannot overlap each other or the run, since a borrow shuts that out:
//!
//! ```compile_fail,E0502
//! # use pozkerrin::{Answer, Inner, Settings};
//! # let (mut run, _) = Inner::start(&Settings::new(2, 10, 1e-6), &[0.0, 0.0]).unwrap();
//! let mut plan = [0.0; 2];
//! run.answer(Answer::Vector(&plan), &mut plan); // the answer would be overwritten while it is read
//! ```
//!
//! ```compile_fail,E0499
//! # use pozkerrin::{Inner, Settings};
//! # let (run, _) = Inner::start(&Settings::new(2, 10, 1e-6), &[0.0, 0.0]).unwrap();
//! let mut point = [0.0; 2];
//! run.points(&mut point, &mut point).unwrap(); // two points into one place
//! ```
//!
//! The numbers of a run are its own, so that nobody lends a part of it back to it:
//!
//! ```compile_fail,E0616
//! # use pozkerrin::{Answer, Inner, Settings};
//! # let (mut run, _) = Inner::start(&Settings::new(2, 10, 1e-6), &[0.0, 0.0]).unwrap();
//! run.raw.board[0] = 1.0;
//! ```
//!
//! The same lines with a place of its own for each are taken:
//!
//! ```
//! # use pozkerrin::{Answer, Inner, Outcome, Question, Refusal, Settings};
//! let (mut run, question) = Inner::start(&Settings::new(2, 10, 1e-6), &[0.0, 0.0]).unwrap();
//! assert_eq!(question, Question::Cost);
//! let (mut point, mut plan) = ([1.0; 2], [0.0; 2]);
//! run.points(&mut point, &mut []).unwrap();
//! assert_eq!(point, [0.0, 0.0]);
//! let kind = Refusal::from_number(7);
//! assert_eq!(run.answer(Answer::Vector(&point), &mut plan), Outcome::Refused(kind));
//! assert_eq!(run.question(), Some(Question::Cost));
//! assert_eq!(run.answer(Answer::Number(1.0), &mut plan), Outcome::Asked(Question::Gradient));
//! ```

#![deny(warnings)]

mod ffi;
mod inner;
mod sets;
mod words;

pub use inner::{Inner, Settings};
pub use sets::Sets;
pub use words::{Answer, End, Outcome, Question, Refusal, Status};
