//! Weightrose from the outside.
//!
//! - `weightrose`: the library's exported functions behind safe ones
//! - `second`: a second implementation of the documents, and its deliberately wrong variants
//! - `raw`: schedules, books, questions and movements by their fields, right or wrong, and their
//!   bytes
//! - `inputs`: what the two are compared on
//! - `compare`: one comparison, of the answer and of every byte lent
//! - `cases`: the library's reports by their fields, its bills by desk, its answers by question and
//!   its movements one by one, for the documents' own cases
//! - `yardstick`: another static library, where the build was given one

pub mod cases;
pub mod compare;
pub mod inputs;
pub mod random;
pub mod raw;
pub mod second;
pub mod weightrose;
#[cfg(yardstick)]
pub mod yardstick;
