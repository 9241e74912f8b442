
// For the comparison only: the fields are private.
impl<'a> SwiftRuntime<'a> {
    pub fn for_comparison(
        data: &'a [u8],
        segments: Vec<(u64, u64, u64, u64)>,
        types: Option<SwiftSection<'a>>,
        fieldmd: Option<SwiftSection<'a>>,
        reflstr: Option<SwiftSection<'a>>,
    ) -> Self {
        Self {
            data,
            segments,
            types,
            protos: None,
            proto: None,
            fieldmd,
            replac: None,
            replac2: None,
            capture: None,
            reflstr,
            typeref: None,
            builtin: None,
            entry: None,
            mpenum: None,
            acfuncs: None,
            assocty: None,
        }
    }

    pub fn text_for_comparison(&self, vmaddr: u64) -> Option<&'a str> {
        self.read_cstr(vmaddr)
    }
}
