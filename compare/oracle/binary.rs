//! A stub: the type that `SwiftRuntime::build` takes. No comparison builds a runtime from it.

pub struct MachoBinary<'a>(&'a [u8]);

pub struct Header;

pub struct Segment;

pub struct Section<'a>(&'a [u8]);

impl<'a> MachoBinary<'a> {
    pub fn header(&self) -> Header {
        Header
    }

    pub fn raw(&self) -> &'a [u8] {
        self.0
    }

    pub fn segments(&self) -> Vec<Segment> {
        Vec::new()
    }

    pub fn sections(&self) -> Vec<Section<'a>> {
        Vec::new()
    }
}

impl Header {
    pub fn is_64(&self) -> bool {
        true
    }
}

impl Segment {
    pub fn vmaddr(&self) -> u64 {
        0
    }

    pub fn vmsize(&self) -> u64 {
        0
    }

    pub fn fileoff(&self) -> u64 {
        0
    }

    pub fn filesize(&self) -> u64 {
        0
    }
}

impl<'a> Section<'a> {
    pub fn sectname(&self) -> &str {
        ""
    }

    pub fn body(&self) -> &'a [u8] {
        self.0
    }

    pub fn addr(&self) -> u64 {
        0
    }
}
