//! Floats as text and from words, beside worked rows and Rust's own.
//!
//! Of two shortest decimals that are as near to a float, Rust may print either; ours is the one whose digits are even.

#[path = "common/random.rs"]
#[allow(dead_code, reason = "other tests take more of it")]
mod random;

use crate::capnp_floats::decimal::{decimal_of, Decimal};
use crate::capnp_floats::nearest::nearest;
use crate::capnp_floats::text::{float_text, put_decimal};
use crate::capnp_floats::width::Width;
use crate::capnp_floats::word::{read_float, Refusal};
use crate::rattle_std::alloc::Global;
use random::Random;

/// How many random floats of each width are tried.
const TRIED: usize = if cfg!(debug_assertions) { 300 } else { 20_000 };

/// How many random middles are tried: their texts have up to 1,100 digits.
const MIDDLES: usize = if cfg!(debug_assertions) { 10 } else { 300 };

const WIDTHS: [Width; 2] = [Width::Float32, Width::Float64];

fn text_of(width: Width, bits: u64) -> String {
    let text = float_text(Global, width, bits).expect("there is memory");
    String::from(text.as_str())
}

/// What a word is by Rust: its bits, or none past the range.
fn by_rust(width: Width, word: &str) -> Option<u64> {
    match width {
        Width::Float32 => {
            let number: f32 = word.parse().expect("a number");
            number.is_finite().then(|| u64::from(number.to_bits()))
        }
        Width::Float64 => {
            let number: f64 = word.parse().expect("a number");
            number.is_finite().then(|| number.to_bits())
        }
    }
}

fn check_word(word: &str) {
    for width in WIDTHS {
        let wanted = by_rust(width, word).ok_or(Refusal::PastRange);
        assert_eq!(read_float(width, word.as_bytes()), wanted, "{word}");
    }
}

/// The digits and the exponent of Rust's shortest decimal of a number that is not zero.
fn shortest_by_rust(width: Width, bits: u64) -> (u64, i32) {
    let text = match width {
        Width::Float32 => format!("{:e}", f32::from_bits(bits as u32)),
        Width::Float64 => format!("{:e}", f64::from_bits(bits)),
    };
    let (front, exponent) = text.split_once('e').expect("an exponent");
    let digits: String = front.chars().filter(char::is_ascii_digit).collect();
    let exponent: i32 = exponent.parse().expect("a number");
    (digits.parse().expect("a number"), exponent - (digits.len() as i32 - 1))
}

/// Whether a number's bits are finite, and those without its sign.
fn finite(width: Width, bits: u64) -> Option<u64> {
    let (bits, end) = match width {
        Width::Float32 => (bits & 0x7fff_ffff, 0x7f80_0000),
        Width::Float64 => (bits & 0x7fff_ffff_ffff_ffff, 0x7ff0_0000_0000_0000),
    };
    (bits < end).then_some(bits)
}

fn check_bits(width: Width, bits: u64) {
    let text = text_of(width, bits);
    let masked = match width {
        Width::Float32 => bits & 0xffff_ffff,
        Width::Float64 => bits,
    };
    let Some(number) = finite(width, bits) else {
        return;
    };
    assert_eq!(read_float(width, text.as_bytes()), Ok(masked), "{text}");
    assert_eq!(by_rust(width, &text), Some(masked), "{text}");
    let decimal = decimal_of(width, bits).expect("a finite number");
    assert_eq!(nearest(width, decimal.digits, decimal.exponent), Some(number));
    if number == 0 {
        assert_eq!((decimal.digits, decimal.exponent), (0, 0));
        return;
    }
    let (digits, exponent) = shortest_by_rust(width, number);
    assert_eq!(decimal.exponent, exponent, "{text}");
    let is_tie = decimal.digits.abs_diff(digits) == 1 && decimal.digits.is_multiple_of(2);
    assert!(decimal.digits == digits || is_tie, "{text}: {digits}");
}

#[test]
fn rows_of_texts() {
    let rows: [(Width, u64, &str); 33] = [
        (Width::Float64, 0, "0"),
        (Width::Float64, 0x8000_0000_0000_0000, "-0"),
        (Width::Float32, 0x8000_0000, "-0"),
        (Width::Float64, 0x3ff8_0000_0000_0000, "1.5"),
        (Width::Float64, 0x3fb9_9999_9999_999a, "0.1"),
        (Width::Float32, 0x3dcc_cccd, "0.1"),
        (Width::Float32, 0x4974_2400, "1e06"),
        (Width::Float64, 0x430c_6bf5_2634_0000, "1e15"),
        (Width::Float64, 0x3ee4_f8b5_88e3_68f1, "1e-05"),
        (Width::Float64, 0x3fd5_5555_5555_5555, "0.3333333333333333"),
        (Width::Float64, 1, "5e-324"),
        (Width::Float64, 0x000f_ffff_ffff_ffff, "2.225073858507201e-308"),
        (Width::Float64, 0x0010_0000_0000_0000, "2.2250738585072014e-308"),
        (Width::Float64, 0x7fef_ffff_ffff_ffff, "1.7976931348623157e308"),
        (Width::Float64, 0x433f_ffff_ffff_ffff, "9007199254740991"),
        (Width::Float64, 0x4340_0000_0000_0000, "9007199254740992"),
        (Width::Float64, 0x4340_0000_0000_0001, "9007199254740994"),
        (Width::Float32, 1, "1e-45"),
        (Width::Float32, 0x7f7f_ffff, "3.4028235e38"),
        (Width::Float32, 0x4c3d_b238, "49727710"),
        (Width::Float32, 0x4c8a_3bbf, "72474104"),
        (Width::Float32, 0x0c00_0000, "9.8607613e-32"),
        (Width::Float32, 0x15ae_43fd, "7.038531e-26"),
        (Width::Float32, 0x3f2a_aaab, "0.6666667"),
        // nine digits, as Rust has them
        (Width::Float32, 0x4120_000b, "10.0000105"),
        (Width::Float32, 0x42c8_0002, "100.000015"),
        (Width::Float32, 0x447a_0001, "1000.00006"),
        (Width::Float64, 0x7ff0_0000_0000_0000, "inf"),
        (Width::Float64, 0xfff0_0000_0000_0000, "-inf"),
        (Width::Float32, 0x7f80_0000, "inf"),
        (Width::Float32, 0xff80_0000, "-inf"),
        (Width::Float64, 0xfff0_0000_0000_0001, "nan"),
        (Width::Float32, 0x7fc0_0001, "nan"),
    ];
    for (width, bits, text) in rows {
        assert_eq!(text_of(width, bits), text);
    }
}

#[test]
fn the_layout_for_json_is_that_of_64_bits() {
    let million = decimal_of(Width::Float32, 0x4974_2400).expect("a number");
    let mut text = crate::rattle_std::string::String::new(Global);
    put_decimal(&mut text, Width::Float64, million).expect("there is memory");
    assert_eq!(text.as_str(), "1000000");
    let Decimal { digits, exponent } = million;
    assert_eq!((digits, exponent), (1, 6));
}

#[test]
fn rows_of_words() {
    let past = Err(Refusal::PastRange);
    let rows: [(Width, &str, Result<u64, Refusal>); 27] = [
        (Width::Float64, "9007199254740993", Ok(0x4340_0000_0000_0000)),
        (Width::Float64, "9007199254740995", Ok(0x4340_0000_0000_0002)),
        (Width::Float64, "9007199254740992.99999999999999999999", Ok(0x4340_0000_0000_0000)),
        (Width::Float64, "9007199254740993.00000000000000000001", Ok(0x4340_0000_0000_0001)),
        (Width::Float64, "2.4703282292062327e-324", Ok(0)),
        (Width::Float64, "2.4703282292062328e-324", Ok(1)),
        (Width::Float64, "-1e-400", Ok(0x8000_0000_0000_0000)),
        (Width::Float64, "1.7976931348623158e308", Ok(0x7fef_ffff_ffff_ffff)),
        (Width::Float64, "1.7976931348623159e308", past),
        (Width::Float64, "-1.7976931348623159e308", past),
        (Width::Float64, "1e99999999999999999999999999999999999999", past),
        (Width::Float64, "0e99999999999999999999999999999999999999", Ok(0)),
        (Width::Float64, "1e-99999999999999999999999999999999999999", Ok(0)),
        (Width::Float64, "-0.0", Ok(0x8000_0000_0000_0000)),
        (Width::Float64, "1E+2", Ok(0x4059_0000_0000_0000)),
        (Width::Float64, "inf", Ok(0x7ff0_0000_0000_0000)),
        (Width::Float64, "-inf", Ok(0xfff0_0000_0000_0000)),
        (Width::Float64, "nan", Ok(0x7ff8_0000_0000_0000)),
        (Width::Float32, "16777217", Ok(0x4b80_0000)),
        (Width::Float32, "16777219", Ok(0x4b80_0002)),
        (Width::Float32, "3.4028235677973366e38", Ok(0x7f7f_ffff)),
        (Width::Float32, "340282356779733661637539395458142568448", past),
        (Width::Float32, "340282356779733661637539395458142568447.999", Ok(0x7f7f_ffff)),
        (Width::Float32, "7.038531e-26", Ok(0x15ae_43fd)),
        (Width::Float32, "-7.038531e-26", Ok(0x95ae_43fd)),
        (Width::Float32, "nan", Ok(0x7fc0_0000)),
        (Width::Float32, "-inf", Ok(0xff80_0000)),
    ];
    for (width, word, wanted) in rows {
        assert_eq!(read_float(width, word.as_bytes()), wanted, "{word}");
    }
}

#[test]
fn what_is_no_word_is_told_with_its_place() {
    let rows: [(&str, usize); 24] = [
        ("", 0),
        ("-", 1),
        ("+1", 0),
        (" 1", 0),
        ("1 ", 1),
        ("01", 1),
        ("-00", 2),
        ("0x1", 1),
        (".5", 0),
        ("1.", 2),
        ("1.e5", 2),
        ("1..5", 2),
        ("1.2.3", 3),
        ("1e", 2),
        ("1e+", 3),
        ("1e5.5", 3),
        ("1e5e5", 3),
        ("-nan", 1),
        ("NaN", 0),
        ("nan(5)", 3),
        ("in", 2),
        ("infinity", 3),
        ("-inx", 3),
        ("1_000", 1),
    ];
    for (word, place) in rows {
        for width in WIDTHS {
            assert_eq!(read_float(width, word.as_bytes()), Err(Refusal::NoFloat(place)), "{word}");
        }
    }
}

#[test]
fn random_bits_are_printed_as_by_rust_and_read_back() {
    for width in WIDTHS {
        let mut random = Random::new(1, width as u64);
        for _ in 0..TRIED {
            check_bits(width, random.next());
        }
    }
}

#[test]
fn numbers_around_each_power_of_two_are_printed_and_read_back() {
    for (width, places, end) in [(Width::Float32, 23, 255), (Width::Float64, 52, 2047)] {
        for exponent in 0..end {
            let power: u64 = exponent << places;
            for bits in [power.saturating_sub(1), power, power + 1] {
                check_bits(width, bits);
            }
        }
    }
}

#[test]
fn numbers_of_few_digits_are_printed_and_read_back() {
    let mut random = Random::new(2, 0);
    for _ in 0..TRIED {
        let digits = random.next() % 100_000_000;
        let exponent = random.below(60) as i64 - 30;
        let word = format!("{digits}e{exponent}");
        check_word(&word);
        let bits = by_rust(Width::Float64, &word).expect("in range");
        check_bits(Width::Float64, bits);
    }
}

#[test]
fn random_words_are_read_as_by_rust() {
    let mut random = Random::new(3, 0);
    for _ in 0..TRIED {
        let mut word = String::new();
        if random.once_in(3) {
            word.push('-');
        }
        word.push((b'1' + random.below(9) as u8) as char);
        let most = *random.one_of(&[2, 17, 25, 60]);
        for _ in 0..random.below(most) {
            word.push((b'0' + random.below(10) as u8) as char);
        }
        if random.once_in(2) {
            word.push('.');
            for _ in 0..1 + random.below(most) {
                word.push((b'0' + random.below(10) as u8) as char);
            }
        }
        if !random.once_in(4) {
            let mark = *random.one_of(&["e", "E", "e-", "E+"]);
            word.push_str(mark);
            word.push_str(&random.below(380).to_string());
        }
        check_word(&word);
    }
}

/// The text of `odd / 2^halvings`, with all its digits.
fn exact_text(odd: u64, halvings: usize) -> (String, usize) {
    let mut digits: Vec<u32> = vec![];
    let mut left = odd;
    while left > 0 {
        digits.push((left % 10) as u32);
        left /= 10;
    }
    for _ in 0..halvings {
        let mut carry = 0;
        for digit in &mut digits {
            let product = *digit * 5 + carry;
            *digit = product % 10;
            carry = product / 10;
        }
        while carry > 0 {
            digits.push(carry % 10);
            carry /= 10;
        }
    }
    let text = digits.iter().rev().filter_map(|digit| char::from_digit(*digit, 10));
    (text.collect(), halvings)
}

#[test]
fn middles_go_to_the_even_number_whatever_follows_them_decides() {
    let mut random = Random::new(4, 0);
    for _ in 0..MIDDLES {
        for (bits, most) in [(25, 150), (54, 1075)] {
            let odd = (random.next() >> (64 - bits)) | 1;
            let (text, places) = exact_text(odd, 1 + random.below(most));
            for tail in ["", "0", "1", &"0".repeat(900), &format!("{}1", "0".repeat(900))] {
                check_word(&format!("{text}{tail}e-{}", places + tail.len()));
            }
            // the last digit is 5, so this is a little less than the middle
            let less = &text[..text.len() - 1];
            check_word(&format!("{less}4{}e-{}", "9".repeat(900), places + 900));
        }
    }
}

#[test]
fn words_of_many_digits_are_read() {
    let many = "9".repeat(100_000);
    assert_eq!(read_float(Width::Float64, format!("0.{many}").as_bytes()), Ok(0x3ff0_0000_0000_0000));
    assert_eq!(read_float(Width::Float32, format!("{many}e-100000").as_bytes()), Ok(0x3f80_0000));
    assert_eq!(read_float(Width::Float64, many.as_bytes()), Err(Refusal::PastRange));
    let zeros = "0".repeat(100_000);
    assert_eq!(read_float(Width::Float64, format!("0.{zeros}1e100001").as_bytes()), Ok(0x3ff0_0000_0000_0000));
    assert_eq!(read_float(Width::Float64, format!("1{zeros}e-100000").as_bytes()), Ok(0x3ff0_0000_0000_0000));
}
