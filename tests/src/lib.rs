//! ZealFS version 1 a second and a third time, in plain Rust, and a harness
//! that compares implementations call by call.
//!
//! * [`plain`] keeps a real tree and its own reader and writer of bytes. It is
//!   written from the paper alone and is what the others are measured by.
//! * [`direct`] works on the image bytes without a tree, as one would write it
//!   for speed; the benchmark compares the library with it.
//! * [`above`] is the link list over the base's calls, whosever they are.
//! * `c` (feature `library`) is the C library behind [`boundary`], which is C's;
//!   the benchmark has `direct` behind the same.
//! * [`harness`] runs a list of calls on two implementations and shrinks a
//!   list that shows a difference.
//! * [`v2`] is all that for version 2 cartridges.

pub mod above;
pub mod assemble;
pub mod boundary;
#[cfg(feature = "library")]
pub mod c;
pub mod calls;
pub mod damage;
pub mod desk;
pub mod direct;
pub mod generate;
pub mod harness;
pub mod listing;
pub mod misjudge;
pub mod plain;
pub mod random;
pub mod rows;
pub mod settings;
pub mod shrink;
pub mod subjects;
pub mod tidy;
pub mod v2;
pub mod workloads;
pub mod wrong;
pub mod wrong_links;
