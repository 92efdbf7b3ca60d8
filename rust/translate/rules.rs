//! The rules of the translation, each with its reason and an example.

/// A rule: what it takes, and what it puts in its place.
#[derive(Clone, Copy, Debug, PartialEq, Eq, PartialOrd, Ord)]
pub enum Rule {
    GhostUse,
    GhostMember,
    Clause,
    Tactic,
    Model,
    ConstProof,
    DropDerive,
    DropBound,
    SizedTrait,
    Formatter,
    ErrorDerive,
    DerivedWhere,
    CratePath,
    LibraryPath,
    StdPath,
    Load,
    AllocatedCall,
    Main,
    Prelude,
    DocExample,
    HandleField,
    SeenField,
    RawCall,
    Check,
    CheckDoc,
    ExcludedCase,
}

/// A rule as it is told: its name, why it is there, a line that it changes, and what becomes of it.
pub struct Told {
    pub rule: Rule,
    pub name: &'static str,
    pub reason: &'static str,
    /// The library and the file where that line stands.
    pub place: (&'static str, &'static str),
    pub before: &'static str,
    pub after: &'static str,
}

const fn told(rule: Rule, name: &'static str, reason: &'static str, before: &'static str, after: &'static str) -> Told {
    Told {
        rule,
        name,
        reason,
        place: ("capnp_wire", "lib.rt"),
        before,
        after,
    }
}

impl Told {
    /// The same rule, of a file of another library.
    const fn at(self, library: &'static str, file: &'static str) -> Told {
        Told {
            place: (library, file),
            ..self
        }
    }
}

/// Every rule. The examples have to translate as they say.
pub const RULES: [Told; 26] = [
    told(
        Rule::GhostUse,
        "ghost use",
        "names that only contracts take",
        "ghost use Rattle.capnp_wire.specs.Tree.{Tree};",
        "",
    ),
    told(
        Rule::GhostMember,
        "ghost member",
        "fields and members that the prover alone sees, with their documentation",
        "struct S {\n    a: u8,\n    ghost small: { a < 8 },\n}",
        "struct S {\n    a: u8,\n    \n}",
    ),
    told(
        Rule::Clause,
        "clause",
        "contracts",
        "fn f(n: u8) -> u8\n    ensures same { result ≡ n }\n{ n }",
        "fn f(n: u8) -> u8\n    \n{ n }",
    ),
    told(Rule::Tactic, "tactic", "how a proof is found", "#[tactic(auto)]\nfn f() {}", "\nfn f() {}"),
    told(
        Rule::Model,
        "model",
        "how contracts see a type",
        "impl Model for Set {\n    ghost view = { λ s. s };\n}",
        "\n\n",
    ),
    told(
        Rule::ConstProof,
        "constant proof",
        "a proof about constants is an assertion that the compiler tries",
        "const _: () = prove!(8 <= 9);",
        "const _: () = assert!(8 <= 9);",
    ),
    told(
        Rule::DropDerive,
        "derived drop",
        "in Rust each value may be let go",
        "#[derive(Debug, Drop)]\nstruct S;",
        "#[derive(Debug)]\nstruct S;",
    ),
    told(
        Rule::DropBound,
        "drop bound",
        "the same, of a type parameter",
        "fn f<T: Copy + Drop>(t: T) {}",
        "fn f<T: Copy >(t: T) {}",
    ),
    told(
        Rule::SizedTrait,
        "sized trait",
        "the types of a trait have a size, which Rust wants said",
        "trait Source { fn f(&self); }",
        "trait Source: Sized { fn f(&self); }",
    ),
    told(
        Rule::Formatter,
        "formatter",
        "Rust's formatter hides what it writes to",
        "fn fmt<W: fmt::Write>(&self, f: &mut fmt::Formatter<W>) {}",
        "fn fmt(&self, f: &mut fmt::Formatter<'_>) {}",
    ),
    told(
        Rule::ErrorDerive,
        "error",
        "what `thiserror::Error` derives is written out, so that no crate is needed",
        "#[derive(Debug, thiserror::Error)]\nenum E {\n    #[error(\"no\")]\n    No,\n}",
        "#[derive(Debug)]\nenum E {\n    \n    No,\n} impl std::fmt::Display for E { fn fmt(&self, f: &mut std::fmt::Formatter<'_>) -> std::fmt::Result { match self { E::No => write!(f, \"no\"), } } } impl std::error::Error for E {}",
    ),
    told(
        Rule::DerivedWhere,
        "derived where",
        "what `derive_where` derives is written out: fields that are skipped are not compared",
        "#[derive_where(PartialEq)]\nstruct S {\n    a: u8,\n    #[derive_where(skip)]\n    b: u8,\n}",
        "\nstruct S {\n    a: u8,\n    \n    b: u8,\n} impl PartialEq for S { fn eq(&self, other: &Self) -> bool { self.a == other.a } }",
    ),
    told(
        Rule::CratePath,
        "crate path",
        "each library is a module of one crate",
        "use crate::bytes::part;",
        "use crate::capnp_wire::bytes::part;",
    ),
    told(
        Rule::LibraryPath,
        "library path",
        "the same, of other libraries",
        "use capnp_device::error::Error;",
        "use crate::capnp_device::error::Error;",
    ),
    told(
        Rule::StdPath,
        "std path",
        "`rust/std` stands for Rattle's std, and hands on what Rust's has alike",
        "use std::alloc::Global;",
        "use crate::rattle_std::alloc::Global;",
    ),
    told(
        Rule::Load,
        "load",
        "where no prover has shown that bytes are there, each is looked for: here one test is made for all of a number",
        "let n = u16::from_le_bytes([b[at], b[at + 1]]);",
        "let n = u16::from_le_bytes(crate::rattle_std::slice::array_at(b, at));",
    ),
    told(
        Rule::AllocatedCall,
        "allocated call",
        "calls that are given an allocator, which Rust's of the same name are not",
        "let a = b.to_vec(alloc)?;",
        "let a = b.to_vec_given(alloc)?;",
    ),
    told(
        Rule::Main,
        "main",
        "what starts a program stands in another file",
        "fn main(rt: HostRuntime) {}",
        "pub(crate) fn main(rt: HostRuntime) {}",
    ),
    told(
        Rule::Prelude,
        "prelude",
        "`Vec`, `String`, `format!` and the like are those of `rust/std`",
        "mod bytes;",
        "#[allow(unused_imports)] use crate::rattle_std::prelude::*; #[allow(unused_imports)] use crate::rattle_std::{rattle_format as format, rattle_vec as vec}; mod bytes;",
    ),
    told(
        Rule::DocExample,
        "documented example",
        "an example in the source is one of Rattle, which rustdoc can't try",
        "/// ```rust\nfn f() {}",
        "/// ```rust,ignore\nfn f() {}",
    ),
    told(
        Rule::HandleField,
        "handle's field",
        "a caller in Rust could write the field, and then write what is not the handle's",
        "pub struct PointerBuilder<'a> {\n    pub arena: &'a mut Arena,\n    pub at: usize,\n}",
        "pub struct PointerBuilder<'a> {\n    pub(crate) arena: &'a mut Arena,\n    pub(crate) at: usize,\n}",
    )
    .at("capnp_arena", "pointer_builder.rt"),
    told(
        Rule::SeenField,
        "seen field",
        "a check looks at the field",
        "pub struct Enum<'a> {\n    value: u16,\n    schema: EnumSchema<'a>,\n}",
        "pub struct Enum<'a> {\n    value: u16,\n    pub(crate) schema: EnumSchema<'a>,\n}",
    )
    .at("capnp_dynamic_readers", "dynamic_value.rt"),
    told(
        Rule::RawCall,
        "raw call",
        "a call by positions of words, or of unchecked parts, is the crate's own",
        "impl Arena {\n    pub fn clear(&mut self, at: usize) {}\n}",
        "impl Arena {\n    pub(crate) fn clear(&mut self, at: usize) {}\n}",
    )
    .at("capnp_arena", "arena.rt"),
    told(
        Rule::Check,
        "check",
        "the prover holds a caller in Rattle to the condition; of a caller in Rust the call asks it",
        "impl Builder {\n    fn get(self, index: u32) {}\n}",
        "impl Builder {\n    #[doc = \"\"] #[doc = \"This crate checks the index: one past the end is refused with `NoSuchElement`.\"] fn get(self, index: u32) { crate::checks::element(index, self.arena.get_length(self.at))?;}\n}",
    )
    .at("capnp_dynamic", "hand_element.rt"),
    told(
        Rule::CheckDoc,
        "told check",
        "the page of a checked call says what the check does",
        "impl FieldList {\n    /// The field.\n    pub fn get(self, index: u16) -> Field<'s> {}\n}",
        "impl FieldList {\n    /// The field.\n    #[doc = \"\"] #[doc = \"This crate checks the condition, and panics otherwise.\"] pub fn get(self, index: u16) -> Field<'s> {}\n}",
    )
    .at("capnp_schema", "schema/field_list.rt"),
    told(
        Rule::ExcludedCase,
        "excluded case",
        "a case that a condition excludes says which condition is broken",
        "fn f() {\n    unreachable!()\n}",
        "fn f() {\n    crate::checks::other_kind()\n}",
    )
    .at("capnp_dynamic_readers", "dynamic_value/conversions.rt"),
];

impl Rule {
    /// The rule as it is told.
    pub fn told(self) -> &'static Told {
        &RULES[self as usize]
    }
}
