//! Texts with floats: of the message `json.bin`, stated by hand, of random numbers by what Rust prints of them, and of
//! messages without floats as the texts that show none.

#[path = "common/random.rs"]
#[allow(dead_code, reason = "other tests take more of it")]
mod random;

use crate::capnp_dynamic_readers::dynamic_struct;
use crate::capnp_dynamic_readers::dynamic_value::Reader as Value;
use crate::capnp_dynamic_readers::printer::print_within;
use crate::capnp_float_texts::printer::print_floats_within;
use crate::capnp_json_messages::message::read_message as read_json;
use crate::capnp_schema::builtin;
use crate::capnp_schema::schema::StructSchema;
use crate::capnp_schema::set::SchemaSet;
use crate::capnp_set_engine::engine::convert_bytes;
use crate::capnp_sets::message::read_message;
use crate::capnp_wire::error::ErrorKind;
use crate::capnp_wire::message::Reader;
use crate::rattle_std::alloc::Global;
use crate::rattle_std::string::String as OwnString;
use random::Random;
use std::fs;

/// How many random numbers are tried.
const TRIED: usize = if cfg!(debug_assertions) { 100 } else { 3_000 };

const SHOWN: &str = concat!(
    r#"(inner = (left = -7, high = "a\tb\"\u{1}é", right = -9007199254740993), given = "me", "#,
    r#"bytes = 0x"616e79206361726e616c20706c656173", half = 0.5, whole = -1.25, "#,
    r#"rows = [[1.5, -0.25], [], [inf, -inf, nan]], shades = [dark, light], plain = 0x"00ff10", "#,
    r#"parts = [(blob = 0x"0aff", half = 0, whole = 0, around = (first = 255, second = 65535), last = false), "#,
    r#"(none = (), half = 0, whole = 0, around = (first = 0, second = 0), last = true)], "#,
    r#"around = (first = 1, second = 2), last = false)"#,
);

fn file(name: &str) -> Vec<u8> {
    fs::read(format!("{}/examples/{name}", env!("CARGO_MANIFEST_DIR"))).expect("it can be read")
}

fn set_of(request: &str) -> SchemaSet {
    let made = convert_bytes(Global, &file(request), false).expect("it is a request");
    read_message(Global, &made.message).expect("it is a set")
}

/// What a printer comes to with a message's root: the text, or the number of its refusal.
fn printed(
    schema: StructSchema<'_>,
    message: &[u8],
    print: impl FnOnce(Value<'_>, &mut OwnString) -> Result<(), crate::capnp_wire::error::Error>,
) -> Result<String, ErrorKind> {
    let reader = Reader::new(Global, message).expect("it is a message");
    let root = reader.get_root().get_struct().expect("it has a struct");
    let mut out = OwnString::new(Global);
    out.push_str("x").expect("there is memory");
    let result = print(Value::Struct(dynamic_struct::Reader::new(root, schema)), &mut out);
    match result {
        Ok(()) => Ok(String::from(&out.as_str()[1..])),
        Err(error) => {
            assert_eq!(out.as_str(), "x");
            Err(error.kind)
        }
    }
}

fn with_floats(schema: StructSchema<'_>, message: &[u8], indented: bool, limit: u64) -> Result<String, ErrorKind> {
    printed(schema, message, |value, out| print_floats_within(value, false, out, indented, limit))
}

fn without_floats(schema: StructSchema<'_>, message: &[u8], indented: bool, limit: u64) -> Result<String, ErrorKind> {
    printed(schema, message, |value, out| print_within(value, out, indented, limit))
}

#[test]
fn marked_fields_are_shown_as_floats() {
    let set = set_of("json.request");
    let schema = set.find_struct("Shown").expect("it has the struct");
    let message = file("json.bin");
    assert_eq!(with_floats(schema, &message, false, 1 << 20).as_deref(), Ok(SHOWN));
    let integers = without_floats(schema, &message, false, 1 << 20).expect("it has a text");
    assert!(integers.contains("half = 1056964608, whole = 13831680355561635840, rows = [[1069547520, 3196059648], [], "));
    let lines = with_floats(schema, &message, true, 1 << 20).expect("it has a text");
    assert!(lines.contains("\n  half = 0.5,\n  whole = -1.25,\n  rows = [\n    [\n      1.5,\n      -0.25\n    ],\n    [],\n"));
}

/// One byte more than the limit is refused.
#[test]
fn the_limit_is_kept() {
    let set = set_of("json.request");
    let schema = set.find_struct("Shown").expect("it has the struct");
    let message = file("json.bin");
    let long = SHOWN.len() as u64;
    assert_eq!(with_floats(schema, &message, false, long).as_deref(), Ok(SHOWN));
    for limit in 0..long {
        assert_eq!(with_floats(schema, &message, false, limit), Err(ErrorKind::TooLarge), "{limit}");
    }
}

/// A list that stands alone is shown as it is said to be.
#[test]
fn lists_that_stand_alone() {
    let set = set_of("json.request");
    let schema = set.find_struct("Shown").expect("it has the struct");
    let message = file("json.bin");
    for (floats, wanted) in [
        (true, "[[1.5, -0.25], [], [inf, -inf, nan]]"),
        (false, "[[1069547520, 3196059648], [], [2139095040, 4286578688, 2143289344]]"),
    ] {
        let text = printed(schema, &message, |value, out| {
            let Value::Struct(root) = value else { unreachable!() };
            let rows = root.get_named("rows").expect("it has the field");
            print_floats_within(rows, floats, out, false, 100)
        });
        assert_eq!(text.as_deref(), Ok(wanted));
    }
}

#[test]
fn without_marks_the_texts_are_alike() {
    let built_in = builtin::new_set(Global).expect("there is memory");
    let book = set_of("addressbook.request");
    for (set, name, root) in [
        (&built_in, "flat", "Flat"),
        (&built_in, "mixed", "Mixed"),
        (&built_in, "many", "Many"),
        (&built_in, "many_defaults", "Many"),
        (&built_in, "shapes", "Shapes"),
        (&built_in, "shapes_tag", "Shapes"),
        (&built_in, "loop", "Loop"),
        (&built_in, "lists", "Lists"),
        (&built_in, "lists_empty", "Lists"),
        (&built_in, "node", "Node"),
        (&book, "addressbook", "AddressBook"),
    ] {
        let schema = set.find_struct(root).expect("it has the struct");
        let message = file(&format!("{name}.bin"));
        for indented in [false, true] {
            let wanted = without_floats(schema, &message, indented, 1 << 20);
            assert!(wanted.is_ok(), "{name}");
            assert_eq!(with_floats(schema, &message, indented, 1 << 20), wanted, "{name}");
            assert_eq!(with_floats(schema, &message, indented, 9), without_floats(schema, &message, indented, 9), "{name}");
        }
    }
}

/// Rust's shortest digits, laid out without exponent where the first digit stands for 10^-4 or more and few places are
/// before the point.
fn laid_out(scientific: &str, few: i32, many: i32) -> String {
    let (front, exponent) = scientific.split_once('e').expect("an exponent");
    let sign = if front.starts_with('-') { "-" } else { "" };
    let digits: String = front.chars().filter(char::is_ascii_digit).collect();
    let exponent: i32 = exponent.parse().expect("a number");
    let count = digits.len() as i32;
    if exponent < -4 || exponent >= if count <= few { few } else { many } {
        let point = if count > 1 { "." } else { "" };
        let mark = if exponent < 0 { "-" } else { "" };
        return format!("{sign}{}{point}{}e{mark}{:02}", &digits[..1], &digits[1..], exponent.abs());
    }
    if exponent < 0 {
        return format!("{sign}0.{}{digits}", "0".repeat((-exponent - 1) as usize));
    }
    let whole = (exponent + 1) as usize;
    if whole >= digits.len() {
        return format!("{sign}{digits}{}", "0".repeat(whole - digits.len()));
    }
    format!("{sign}{}.{}", &digits[..whole], &digits[whole..])
}

/// Numbers of both widths, as Rust reads and prints them.
#[test]
fn random_numbers_are_shown_as_by_rust() {
    let set = set_of("json.request");
    let schema = set.find_struct("Shown").expect("it has the struct");
    let mut random = Random::new(4, 1);
    for _ in 0..TRIED {
        let half = f32::from_bits(random.next() as u32);
        let whole = f64::from_bits(random.next());
        // A number between two shortest decimals that are as near to it, of which Rust may print either, lies here.
        let tied = (1e4..1e10).contains(&half.abs()) || (1e13..1e18).contains(&whole.abs());
        if tied || !half.is_finite() || !whole.is_finite() {
            continue;
        }
        let text = format!("{{\"half\":{half:e},\"whole\":{whole:e}}}");
        let message = read_json(Global, schema, text.as_bytes(), true).expect("it is read");
        let bytes = message.write_message().expect("there is memory");
        let wanted = format!(
            "half = {}, whole = {}, ",
            laid_out(&format!("{half:e}"), 6, 8),
            laid_out(&format!("{whole:e}"), 15, 17)
        );
        let shown = with_floats(schema, &bytes, false, 1 << 20).expect("it has a text");
        assert!(shown.contains(&wanted), "{text} {shown} {wanted}");
    }
}
