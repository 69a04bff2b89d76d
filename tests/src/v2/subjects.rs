//! The implementations of version 2 under test.

use super::boundary::Plainly;
use super::calls::Calls;
use super::direct::Direct;
use super::plain::PLAIN;
use crate::subjects::SubjectOf;

/// An implementation and the name it is reported by.
pub type Subject = SubjectOf<dyn Calls>;

/// What is compared with the plain implementation: the one on bytes, and the
/// library when it is on.
pub fn compared() -> Vec<Subject> {
    let direct = Subject {
        name: "direct",
        calls: Box::new(Direct),
    };
    [direct].into_iter().chain(library()).collect()
}

/// The C library, when the feature is on.
#[cfg(feature = "library")]
pub fn library() -> Option<Subject> {
    Some(Subject {
        name: "library",
        calls: Box::new(super::c::Library),
    })
}

#[cfg(not(feature = "library"))]
pub fn library() -> Option<Subject> {
    None
}

/// What the benchmark measures the library by: the one on bytes, called as the
/// library is.
pub fn behind() -> Subject {
    Subject {
        name: "direct",
        calls: Box::new(Plainly),
    }
}

/// All implementations, for cases whose answers the paper states.
pub fn all() -> Vec<Subject> {
    let mut subjects = compared();
    subjects.push(behind());
    subjects.push(Subject {
        name: "plain",
        calls: Box::new(PLAIN),
    });
    subjects
}
