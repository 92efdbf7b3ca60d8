//! Conversions between what Rust has and what the layer takes.

use crate::capnp_arena::pointer_builder::PointerBuilder;
use crate::capnp_base::text;
use crate::capnp_device::error::{Error, Result};
use crate::capnp_dynamic::dynamic_value;
use crate::capnp_slots::setter::SetterInput;

impl<'a> From<&'a std::string::String> for text::Reader<'a> {
    fn from(text: &'a std::string::String) -> Self {
        text::Reader(text.as_bytes())
    }
}

impl<'a> From<&'a std::string::String> for dynamic_value::Reader<'a> {
    fn from(text: &'a std::string::String) -> Self {
        dynamic_value::Reader::Text(text::Reader(text.as_bytes()))
    }
}

impl SetterInput<text::Owned> for &std::string::String {
    fn set_pointer_builder(builder: PointerBuilder<'_>, input: Self, canonicalize: bool) -> Result<()> {
        <&str>::set_pointer_builder(builder, input.as_str(), canonicalize)
    }
}

impl Error {
    /// The number that stands for the refusal, by which the programs tell it.
    pub fn number(&self) -> u32 {
        self.kind.number()
    }

    /// The refusal's name, as its variant of [`crate::ErrorKind`] is spelled.
    pub fn name(&self) -> &'static str {
        self.kind.name()
    }
}
