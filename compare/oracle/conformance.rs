//! A stub: conformances are not compared.
use crate::swift::SwiftRuntime;

pub struct Conformance;

pub struct TypeReference;

pub struct ConformanceIter<'a, 'p>(&'p SwiftRuntime<'a>);

impl<'a, 'p> ConformanceIter<'a, 'p> {
    pub fn new(rt: &'p SwiftRuntime<'a>) -> Self {
        Self(rt)
    }
}
