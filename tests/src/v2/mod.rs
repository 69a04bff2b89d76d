//! Version 2 cartridges (document 02 §12): the same two implementations once
//! more, and what tries them.
//!
//! What the papers say once for both versions is used from there: names, paths
//! and dates, answers and refusals, the tree and the calls on it
//! ([`crate::plain::tree`]), the generator of calls, and the shrinker. What
//! version 2 has of its own is here:
//!
//! * [`layout`] is the layout's words: where what stands in an image.
//! * [`plain`] reads an image into the tree, works there, and writes by the
//!   layout. It decides what is expected.
//! * [`direct`] works on the bytes.
//! * `c` (feature `library`) is the C library behind [`boundary`]; the benchmark
//!   has `direct` behind the same.
//! * [`assemble`], [`generate`], [`damage`] make images and lists of calls,
//!   [`harness`] compares, [`wrong`] has broken copies to try all that.

pub mod assemble;
pub mod boundary;
#[cfg(test)]
mod broken;
#[cfg(feature = "library")]
pub mod c;
pub mod calls;
pub mod damage;
pub mod desk;
pub mod direct;
pub mod generate;
pub mod harness;
pub mod layout;
pub mod plain;
pub mod subjects;
pub mod workloads;
pub mod wrong;
