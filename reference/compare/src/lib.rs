//! Compares the library of Gulphareti with its independent second
//! implementation: on many seeded words, tables and buffers both must return
//! the same number, place or length and leave the same bytes.

mod buffer;
mod check;
pub mod corpus;
mod counts;
mod difference;
mod generator;
pub mod image;
pub mod library;
mod options;
pub mod program;
mod question;
pub mod returned;
mod run;
mod signs;
pub mod stand_in;
mod tables;
mod words;

pub use counts::Counts;
pub use difference::Difference;
pub use run::{run, End, Plan, DEFAULT_SECONDS, DEFAULT_SEED};
