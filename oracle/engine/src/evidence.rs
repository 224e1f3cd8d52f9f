//! What the list does for its users, measured on the engine through its C boundary, and beside it
//! the filter as its papers have it, with random displacement.
//!
//! Everything but `speed` is counted and not timed: whoever measures again gets the same numbers,
//! and each row of the data is made by itself, so that a small run makes some rows of the large
//! one. `./evidence` at the top of the repository runs it, and `./benchmark` what is timed.

pub mod data;
pub mod measure;
pub mod plot;
pub mod plots;
pub mod speed;
pub mod tags;
pub mod text;
