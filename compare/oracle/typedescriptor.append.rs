
// For the comparison only: a descriptor with any address and flags, whether or not it is a row; and one with any body.
impl<'a, 'p> TypeDescriptor<'a, 'p> {
    pub fn for_comparison(rt: &'p SwiftRuntime<'a>, address: u64, flags: u32) -> Self {
        let flags = ContextDescriptorFlags(flags);
        let body = match flags.kind() {
            ContextDescriptorKind::Class => {
                decode_class_body(rt, address, flags).map(TypeKindBody::Class)
            }
            ContextDescriptorKind::Struct => {
                decode_struct_body(rt, address, flags).map(TypeKindBody::Struct)
            }
            ContextDescriptorKind::Enum => {
                decode_enum_body(rt, address, flags).map(TypeKindBody::Enum)
            }
            _ => None,
        };
        Self::with_body(rt, address, flags.0, body.unwrap_or(TypeKindBody::NonType))
    }

    pub fn with_body(
        rt: &'p SwiftRuntime<'a>,
        address: u64,
        flags: u32,
        body: TypeKindBody<'a>,
    ) -> Self {
        Self {
            rt,
            address,
            flags: ContextDescriptorFlags(flags),
            parent_va: 0,
            name: "",
            body,
        }
    }
}
