//! The oracle: runs of the Rust engine written as scripts with the lines that must follow.

pub mod compare;
pub mod drive;
pub mod floats;
pub mod generate;
pub mod play;
pub mod random;
pub mod record;
pub mod reference;
pub mod replay;
pub mod session;
pub mod sets;
pub mod start;
pub mod table;
pub mod tally;
pub mod tape;
