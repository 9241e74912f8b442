//! A stub: dynamic replacements are not compared.
use crate::swift::SwiftRuntime;

pub struct DynamicReplacementScope;

pub struct ReplacementIter<'a, 'p>(&'p SwiftRuntime<'a>);

impl<'a, 'p> ReplacementIter<'a, 'p> {
    pub fn new(rt: &'p SwiftRuntime<'a>) -> Self {
        Self(rt)
    }
}
