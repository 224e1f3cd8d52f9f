//! The engine through its C boundary, held to the other implementation call by call.
//!
//! Every call is made on both sides, and after it are compared the answer, every cell, every output
//! byte and what stands around each buffer that was lent. Scratch is compared where a call is
//! refused before it may be used.
//!
//! The tests are generated from a seed, the commit's hash, which each prints with the number of its
//! calls: `SEED=..` runs them again. `HOLDLIST_LONG` makes the runs so many times as long.

pub mod boundary;
pub mod evidence;
pub mod make;
pub mod pages;
pub mod pair;
pub mod run;
pub mod seed;
