//! A stub: protocol sections are not compared.
use crate::swift::SwiftRuntime;

pub struct SwiftProtocol<'a, 'p>(&'p SwiftRuntime<'a>);

impl<'a, 'p> SwiftProtocol<'a, 'p> {
    pub fn parent_address(&self) -> u64 {
        0
    }

    pub fn runtime(&self) -> &'p SwiftRuntime<'a> {
        self.0
    }

    pub fn name(&self) -> &'a str {
        ""
    }
}

pub struct ProtocolIter<'a, 'p>(&'p SwiftRuntime<'a>);

impl<'a, 'p> ProtocolIter<'a, 'p> {
    pub fn new(rt: &'p SwiftRuntime<'a>) -> Self {
        Self(rt)
    }
}
