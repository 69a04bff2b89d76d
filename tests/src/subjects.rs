//! The implementations under test.

use crate::boundary::Plainly;
use crate::calls::Calls;
use crate::direct::Direct;
use crate::plain::Plain;

/// An implementation of either version and the name it is reported by.
pub struct SubjectOf<C: ?Sized> {
    pub name: &'static str,
    pub calls: Box<C>,
}

/// One of version 1.
pub type Subject = SubjectOf<dyn Calls>;

/// What is compared with the plain implementation: the one on bytes, and the
/// library when it is on.
pub fn compared() -> Vec<Subject> {
    let direct = Subject {
        name: "direct",
        calls: Box::new(Direct),
    };
    [direct].into_iter().chain(library()).collect()
}

/// The C library, when the feature is on.
#[cfg(feature = "library")]
pub fn library() -> Option<Subject> {
    Some(Subject {
        name: "library",
        calls: Box::new(crate::c::Library),
    })
}

#[cfg(not(feature = "library"))]
pub fn library() -> Option<Subject> {
    None
}

/// What the benchmark measures the library by: the one on bytes, called as the
/// library is.
pub fn behind() -> Subject {
    Subject {
        name: "direct",
        calls: Box::new(Plainly),
    }
}

/// All implementations, for cases whose answers the paper states.
pub fn all() -> Vec<Subject> {
    let mut subjects = compared();
    subjects.push(behind());
    subjects.push(Subject {
        name: "plain",
        calls: Box::new(Plain),
    });
    subjects
}
