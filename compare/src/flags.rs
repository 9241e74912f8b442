//! The flag words: every accessor of context.rs.

use crate::generate::Rng;
use darwinscope::swift::{
    ConformanceFlags, ContextDescriptorFlags, ContextDescriptorKind, FieldDescriptorKind,
    FieldRecordFlags, MetadataInitializationKind, MethodDescriptorFlags, SwiftMethodKind,
    TypeContextDescriptorFlags, TypeReferenceKind,
};

#[link(name = "c_numbers", kind = "static")]
unsafe extern "C" {
    fn hodrupec_context_flags(word: u32, out: &mut [u64; 8]) -> u64;
    fn hodrupec_type_flags(word: u16, out: &mut [u64; 7]) -> u64;
    fn hodrupec_class_flags(word: u16, out: &mut [u64; 9]) -> u64;
    fn hodrupec_conformance_flags(word: u32, out: &mut [u64; 10]) -> u64;
    fn hodrupec_field_kind(raw: u16, out: &mut [u64; 2]) -> u64;
    fn hodrupec_field_flags(word: u32, out: &mut [u64; 4]) -> u64;
    fn hodrupec_method_flags(word: u32, out: &mut [u64; 7]) -> u64;
}

/// What an array holds before a call, so that a number that was not written is noticed.
const UNWRITTEN: u64 = 0x5a5a_a5a5_0ff0_1234;

/// Compares the Rust's numbers with those of a proved call on the same word.
macro_rules! same {
    ($call:ident, $word:expr, $rust:expr) => {{
        let rust = $rust;
        let mut out = [UNWRITTEN; _];
        let status = unsafe { $call($word, &mut out) };
        if (0, rust) != (status, out) {
            return Err(format!(
                "{} {:x}: the Rust {rust:x?}, proved {status} {out:x?}",
                stringify!($call),
                $word
            ));
        }
    }};
}

fn context_kind(kind: ContextDescriptorKind) -> u64 {
    match kind {
        ContextDescriptorKind::Module => 0,
        ContextDescriptorKind::Extension => 1,
        ContextDescriptorKind::Anonymous => 2,
        ContextDescriptorKind::Protocol => 3,
        ContextDescriptorKind::OpaqueType => 4,
        ContextDescriptorKind::Class => 5,
        ContextDescriptorKind::Struct => 6,
        ContextDescriptorKind::Enum => 7,
        ContextDescriptorKind::Other(n) => 256 + u64::from(n),
    }
}

fn initialization(kind: MetadataInitializationKind) -> u64 {
    match kind {
        MetadataInitializationKind::None => 0,
        MetadataInitializationKind::Singleton => 1,
        MetadataInitializationKind::Foreign => 2,
        MetadataInitializationKind::Other => 3,
    }
}

fn reference(kind: TypeReferenceKind) -> u64 {
    match kind {
        TypeReferenceKind::DirectTypeDescriptor => 0,
        TypeReferenceKind::IndirectTypeDescriptor => 1,
        TypeReferenceKind::DirectObjCClassName => 2,
        TypeReferenceKind::IndirectObjCClass => 3,
        TypeReferenceKind::Other(n) => 256 + u64::from(n),
    }
}

pub fn field_kind(kind: FieldDescriptorKind) -> u64 {
    match kind {
        FieldDescriptorKind::Struct => 0,
        FieldDescriptorKind::Class => 1,
        FieldDescriptorKind::Enum => 2,
        FieldDescriptorKind::MultiPayloadEnum => 3,
        FieldDescriptorKind::Protocol => 4,
        FieldDescriptorKind::ClassProtocol => 5,
        FieldDescriptorKind::ObjCProtocol => 6,
        FieldDescriptorKind::ObjCClass => 7,
        FieldDescriptorKind::Other(n) => 256 + u64::from(n),
    }
}

fn method_kind(kind: SwiftMethodKind) -> u64 {
    match kind {
        SwiftMethodKind::Method => 0,
        SwiftMethodKind::Init => 1,
        SwiftMethodKind::Getter => 2,
        SwiftMethodKind::Setter => 3,
        SwiftMethodKind::ModifyCoroutine => 4,
        SwiftMethodKind::ReadCoroutine => 5,
        SwiftMethodKind::Other(n) => 256 + u64::from(n),
    }
}

/// The words of 32 bits.
fn words(word: u32) -> Result<(), String> {
    let f = ContextDescriptorFlags(word);
    same!(
        hodrupec_context_flags,
        word,
        [
            1,
            context_kind(f.kind()),
            f.kind().is_type().into(),
            f.has_invertible_protocols().into(),
            f.is_unique().into(),
            f.is_generic().into(),
            f.kind_specific().into(),
            f.type_flags().0.into(),
        ]
    );
    let f = ConformanceFlags(word);
    same!(
        hodrupec_conformance_flags,
        word,
        [
            1,
            reference(f.type_reference_kind()),
            f.is_retroactive().into(),
            f.is_synthesized_non_unique().into(),
            f.num_conditional_requirements().into(),
            f.has_resilient_witnesses().into(),
            f.has_generic_witness_table().into(),
            f.is_conformance_of_protocol().into(),
            f.has_global_actor_isolation().into(),
            f.num_conditional_pack_descriptors().into(),
        ]
    );
    let f = FieldRecordFlags(word);
    same!(
        hodrupec_field_flags,
        word,
        [
            1,
            f.is_indirect_case().into(),
            f.is_var().into(),
            f.is_artificial().into(),
        ]
    );
    let f = MethodDescriptorFlags(word);
    same!(
        hodrupec_method_flags,
        word,
        [
            1,
            method_kind(f.kind()),
            f.is_instance().into(),
            f.is_dynamic().into(),
            f.is_async().into(),
            f.has_extended_context().into(),
            f.extra_discriminator().into(),
        ]
    );
    Ok(())
}

/// The words of 16 bits.
fn halves(half: u16) -> Result<(), String> {
    let f = TypeContextDescriptorFlags(half);
    same!(
        hodrupec_type_flags,
        half,
        [
            1,
            initialization(f.metadata_initialization()),
            f.has_import_info().into(),
            f.has_canonical_metadata_prespecializations_or_singleton()
                .into(),
            f.has_canonical_metadata_prespecializations().into(),
            f.has_singleton_metadata_pointer().into(),
            f.has_layout_string().into(),
        ]
    );
    same!(
        hodrupec_class_flags,
        half,
        [
            1,
            f.class_has_default_override_table().into(),
            f.class_is_actor().into(),
            f.class_is_default_actor().into(),
            reference(f.class_resilient_superclass_reference_kind()),
            f.class_immediate_members_negative().into(),
            f.class_has_resilient_superclass().into(),
            f.class_has_override_table().into(),
            f.class_has_vtable().into(),
        ]
    );
    same!(
        hodrupec_field_kind,
        half,
        [1, field_kind(FieldDescriptorKind::from_bits(half))]
    );
    Ok(())
}

/// All words of 16 bits; of the words of 32 bits those with only a low or only a high half, and all with at most two bits set or at most
/// two clear.
pub fn exhaustive() -> Result<u64, String> {
    let mut calls = 0;
    for half in 0..=u16::MAX {
        halves(half)?;
        words(u32::from(half))?;
        words(u32::from(half) << 16)?;
        calls += 11;
    }
    for a in 0..32 {
        for b in 0..32 {
            let word = 1 << a | 1 << b;
            words(word)?;
            words(!word)?;
            calls += 8;
        }
    }
    Ok(calls)
}

/// One word at random.
pub fn seeded(rng: &mut Rng) -> Result<u64, String> {
    let word = rng.next() as u32;
    words(word)?;
    halves(word as u16)?;
    Ok(7)
}
