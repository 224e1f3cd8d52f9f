//! A second implementation of the filter, written from the rules alone, that the proved one is
//! compared with.

pub mod branch_free;
pub mod displacement;
#[cfg(target_arch = "x86_64")]
pub mod fast;
pub mod fnv_strings;
pub mod former;
pub mod holdfile;
pub mod index;
pub mod model;
pub mod packed;
pub mod requests;
pub mod table;
