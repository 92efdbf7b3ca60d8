//! Words of marked fields, as Rust reads them: each number's bits, or the place of the first byte that can't stand there; and what
//! is told of numbers that words set.
#![forbid(unsafe_code)]

#[path = "common/random.rs"]
#[allow(dead_code, reason = "other tests take more of it")]
mod random;

use random::Random;
use riftcalico::introspect::{Type, TypeVariant};
use riftcalico::memory::Global;
use riftcalico::patch::{parse_marked_value, PlainValue};
use riftcalico::schema::{builtin, SchemaSet};

/// How many random numbers are tried.
const TRIED: usize = if cfg!(debug_assertions) { 300 } else { 30_000 };

/// The bits that a word stands for under a type, or its place.
fn read(schemas: &SchemaSet, kind: TypeVariant, word: &str) -> Result<u64, usize> {
    match parse_marked_value(Global, schemas, Type::from(kind), true, word.as_bytes()).expect("there is memory") {
        Ok(PlainValue::UInt32(bits)) => Ok(u64::from(bits)),
        Ok(PlainValue::UInt64(bits)) => Ok(bits),
        Ok(_) => panic!("{word} is of another type"),
        Err(place) => Err(place),
    }
}

#[test]
fn words_are_floats_or_have_a_place() {
    let schemas = builtin::new_set(Global).expect("there is memory");
    let rows = [
        ("1.5", Ok(1.5)),
        ("-0", Ok(-0.0)),
        ("1e3", Ok(1000.0)),
        ("0.1E-2", Ok(0.001)),
        ("inf", Ok(f64::INFINITY)),
        ("-inf", Ok(f64::NEG_INFINITY)),
        ("9007199254740993", Ok(9007199254740992.0)),
        ("1e-400", Ok(0.0)),
        ("1e400", Err(5)),
        ("", Err(0)),
        ("1.", Err(2)),
        ("01", Err(1)),
        ("+1", Err(0)),
        (" 1", Err(0)),
        ("1 ", Err(1)),
        ("1e", Err(2)),
        ("0x1", Err(1)),
        ("infinity", Err(3)),
        ("NaN", Err(0)),
    ];
    for (word, wanted) in rows {
        assert_eq!(read(&schemas, TypeVariant::UInt64, word), wanted.map(f64::to_bits), "{word}");
    }
    assert_eq!(read(&schemas, TypeVariant::UInt64, "nan"), Ok(0x7ff8_0000_0000_0000));
    assert_eq!(read(&schemas, TypeVariant::UInt32, "nan"), Ok(0x7fc0_0000));
    assert_eq!(read(&schemas, TypeVariant::UInt32, "16777217"), Ok(u64::from(16777216f32.to_bits())));
    assert_eq!(read(&schemas, TypeVariant::UInt32, "1e39"), Err(4));
}

#[test]
fn random_numbers_are_read_as_by_rust() {
    let schemas = builtin::new_set(Global).expect("there is memory");
    let mut random = Random::new(7, 1);
    for _ in 0..TRIED {
        let number = f64::from_bits(random.next());
        if number.is_finite() {
            let word = format!("{number:e}");
            assert_eq!(read(&schemas, TypeVariant::UInt64, &word), Ok(number.to_bits()), "{word}");
            let narrow: f32 = word.parse().expect("it is a number");
            let wanted = if narrow.is_finite() { Ok(u64::from(narrow.to_bits())) } else { Err(word.len()) };
            assert_eq!(read(&schemas, TypeVariant::UInt32, &word), wanted, "{word}");
        }
    }
}
