//! A stub: closure captures are not compared.
use crate::swift::SwiftRuntime;

pub struct CaptureDescriptor;

pub struct CaptureIter<'a, 'p>(&'p SwiftRuntime<'a>);

impl<'a, 'p> CaptureIter<'a, 'p> {
    pub fn new(rt: &'p SwiftRuntime<'a>) -> Self {
        Self(rt)
    }
}
