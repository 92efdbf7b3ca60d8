//! A set of schemas that is made by the program, a message of the newer of two versions, and what a program that knows
//! the older one reads of it.

use riftcalico::compatible::Compatible;
use riftcalico::introspect::{Type, TypeVariant};
use riftcalico::memory::{Global, String as Text};
use riftcalico::run::{whole_new, Call, Op, Step};
use riftcalico::schema::record::{BrandRecord, FieldRecord, NodeRecord, ValueRecord};
use riftcalico::schema::SchemaSet;
use riftcalico::{dynamic_struct, dynamic_value, memory, message, printer};
use std::error::Error;

/// Two versions of an account: the older one has a name, the newer one also a balance.
fn schemas() -> riftcalico::Result<SchemaSet> {
    let name = || FieldRecord::slot(Global, "name", 0, ValueRecord::Text(memory::Vec::new(Global)));
    let balance = FieldRecord::slot(Global, "balance", 0, ValueRecord::Int64(0))?;
    let older = NodeRecord::structure(Global, 1, "OldAccount", 0, 1, vec![name()?].into())?;
    let newer = NodeRecord::structure(Global, 1, "Account", 1, 1, vec![name()?, balance].into())?;
    let (text, integer) = (Type::from(TypeVariant::Text), Type::from(TypeVariant::Int64));
    let older_brand = BrandRecord::new(Global, 0, vec![text].into())?;
    let newer_brand = BrandRecord::new(Global, 1, vec![text, integer].into())?;
    let nodes = vec![older, newer];
    let brands = vec![older_brand, newer_brand];
    SchemaSet::new(Global, nodes.into(), brands.into(), memory::Vec::new(Global))
}

/// A call on a field of the root.
fn set<'c>(name: &'c str, value: impl Into<dynamic_value::Reader<'c>>) -> Call<'c> {
    Call {
        path: &[],
        last: Step::Named(name),
        op: Op::Set(value.into()),
    }
}

/// What is printed: an account, and the same as the older program reads it.
pub fn lines() -> Result<String, Box<dyn Error>> {
    let schemas = schemas()?;
    let (older, newer) = (
        schemas.get_struct_named("OldAccount")?,
        schemas.get_struct_named("Account")?,
    );
    let calls = [set("name", "Alice"), set("balance", 12i64)];
    let mut text = Text::new(Global);
    let (_replies, bytes) = whole_new(Global, newer, &calls, &mut text, false)?;

    let pair = Compatible::check(Global, older, newer)?.ok_or("the newer account follows the older one")?;
    let root = message::Reader::new(Global, &bytes)?.get_root().get_struct()?;
    let seen = pair.narrow(dynamic_struct::Reader::new(root, newer));
    Ok(format!("{text}\n{}\n", printer::to_string(seen.into(), false)?))
}

fn main() -> Result<(), Box<dyn Error>> {
    print!("{}", lines()?);
    Ok(())
}
