//! JSON texts: the known cases of parsers of RFC 8259, each with the place of the first byte that can't stand.

use super::refusing::most_held;
use crate::capnp_json_text::contents::read_string;
use crate::capnp_json_text::decimals::number_parts;
use crate::capnp_json_text::faults::first_fault;
use crate::capnp_json_text::items::{first_item, next_item};
use crate::capnp_json_text::kinds::{kind_of, Bracket, Kind};
use crate::capnp_json_text::rest::skip_blanks;
use crate::capnp_json_text::strings::skip_string;
use crate::capnp_json_text::values::{skip_name, skip_value};
use crate::capnp_json_text::writing::put_string;
use crate::rattle_std::alloc::Global;

fn fault(bytes: &[u8]) -> Option<usize> {
    first_fault(Global, bytes).expect("there is memory")
}

fn are_texts(texts: &[&str]) {
    for text in texts {
        assert_eq!(fault(text.as_bytes()), None, "{text}");
        let spaced = format!("\t\r\n {text} \n");
        assert_eq!(fault(spaced.as_bytes()), None, "{spaced}");
    }
}

/// Each is followed by the place of its fault.
fn are_faulty(rows: &[(&str, usize)]) {
    for (text, place) in rows {
        assert_eq!(fault(text.as_bytes()), Some(*place), "{text}");
    }
}

#[test]
fn numbers() {
    are_texts(&[
        "0", "-0", "1", "-1", "12", "20", "123456789012345678901234567890", "0.0", "-0.0", "1.5", "10.05", "0e0", "0E+0",
        "-1e-1", "1E22", "1e00", "123.456e78", "1e-2", "0.4e00669999", "-123123.12e+3", "1e400",
    ]);
    are_faulty(&[
        ("-", 1),
        ("--1", 1),
        ("-a", 1),
        ("-01", 2),
        ("00", 1),
        ("012", 1),
        ("+1", 0),
        ("++1", 0),
        (".1", 0),
        ("-.1", 1),
        ("1.", 2),
        ("1.a", 2),
        ("1..2", 2),
        ("-2.", 3),
        ("0.e1", 2),
        ("2.e3", 2),
        ("1e", 2),
        ("1e+", 3),
        ("1E-", 3),
        ("1eE2", 2),
        ("0e+-1", 3),
        ("1.2.3", 3),
        ("1e2e3", 3),
        ("1e2.5", 3),
        ("0x1", 1),
        ("0.3e", 4),
        ("1 000", 2),
        ("1,000", 1),
        ("1_000", 1),
        ("1+2", 1),
        ("NaN", 0),
        ("Infinity", 0),
        ("-Infinity", 1),
        ("-NaN", 1),
        ("1f", 1),
        ("\u{FF11}", 0),
        ("[1,-]", 4),
        ("[-1foo]", 3),
    ]);
}

#[test]
fn words() {
    are_texts(&["null", "true", "false", "[null,true,false]"]);
    are_faulty(&[
        ("n", 1),
        ("nul", 3),
        ("nulL", 3),
        ("Null", 0),
        ("nulll", 4),
        ("tru", 3),
        ("truth", 3),
        ("TRUE", 0),
        ("fals", 4),
        ("falsey", 5),
        ("undefined", 0),
        ("true false", 5),
        ("[tru]", 4),
    ]);
}

#[test]
fn strings() {
    are_texts(&[
        r#""""#,
        r#""a""#,
        r#""\"\\\/\b\f\n\r\t""#,
        r#""/ \/""#,
        r#""\u0000\u001f\u007f\uABCD\uabcd""#,
        r#""\ud7ff\ue000\uFFFF""#,
        r#""\uD834\uDD1E\udbff\udfff""#,
        r#""\\u12""#,
        r#""\\\"""#,
        "\"\u{7f}\"",
        "\"\u{80}\u{7ff}\u{800}\u{ffff}\u{10000}\u{10ffff}\"",
        "\"\u{2028}\u{2029}\u{feff}\"",
    ]);
    are_faulty(&[
        (r#"""#, 1),
        (r#""a"#, 2),
        (r#""\"#, 2),
        (r#""\""#, 3),
        (r#""\x00""#, 2),
        (r#""\a""#, 2),
        (r#""\'""#, 2),
        (r#""\N""#, 2),
        (r#""\U0041""#, 2),
        (r#""\u"#, 3),
        (r#""\u""#, 3),
        (r#""\u1""#, 4),
        (r#""\u12""#, 5),
        (r#""\u123""#, 6),
        (r#""\u123"#, 6),
        (r#""\u00g0""#, 5),
        (r#""\u 041""#, 3),
        ("\"\t\"", 1),
        ("\"\n\"", 1),
        ("\"a\0\"", 2),
        ("\"\u{1f}\"", 1),
        ("\"\\\n\"", 2),
        ("'a'", 0),
        ("a", 0),
        (r#""a"b"#, 3),
        (r#""a" "b""#, 4),
        ("[\"\\u00A\"]", 7),
    ]);
}

#[test]
fn surrogates() {
    are_faulty(&[
        (r#""\ud800""#, 7),
        (r#""\ud800"#, 7),
        (r#""\ud800a""#, 7),
        (r#""\ud800\n""#, 8),
        (r#""\ud800\u"#, 9),
        (r#""\ud800\u0041""#, 9),
        (r#""\ud800\ud7ff""#, 10),
        (r#""\ud800\ud800""#, 10),
        (r#""\ud800\udbff\udc00""#, 10),
        (r#""\ud800\ue000""#, 9),
        (r#""\ud800\udc0""#, 12),
        (r#""\udc00""#, 4),
        (r#""\uDFFF\uD800""#, 4),
        (r#""\ud8""#, 5),
        (r#""\udx00""#, 4),
    ]);
    assert_eq!(fault(b"\"\xed\xa0\x80\""), Some(1), "a surrogate as bytes");
}

#[test]
fn arrays() {
    are_texts(&["[]", "[ ]", "[[]]", "[1]", "[1 , 2]", "[\"\",{}]", "[[[]],[]]", "[\n1\n,\n[ \t]\r]"]);
    are_faulty(&[
        ("[", 1),
        ("[1", 2),
        ("[1,", 3),
        ("[1,]", 3),
        ("[,1]", 1),
        ("[,]", 1),
        ("[1,,2]", 3),
        ("[1 2]", 3),
        ("[1:2]", 2),
        ("[}", 1),
        ("[1}", 2),
        ("[1]]", 3),
        ("[[]", 3),
        ("]", 0),
        ("[*]", 1),
        ("[x", 1),
        ("[\u{a0}]", 1),
        ("[\u{c}]", 1),
        ("[1,\n1\n,1", 8),
        ("[1/*a*/]", 2),
        ("[\"a\",\n4\n,1,", 11),
    ]);
}

#[test]
fn objects() {
    are_texts(&[
        "{}",
        "{ }",
        r#"{"":0}"#,
        r#"{"a":1,"a":2}"#,
        r#"{ "a" : { "b" : [ ] } , "c" : null }"#,
        r#"{"\u0000\ud83d\ude00":[]}"#,
    ]);
    are_faulty(&[
        ("{", 1),
        (r#"{"a"#, 3),
        (r#"{"a""#, 4),
        (r#"{"a":"#, 5),
        (r#"{"a":1"#, 6),
        (r#"{"a":1,"#, 7),
        (r#"{"a":1,}"#, 7),
        (r#"{,"a":1}"#, 1),
        (r#"{"a":1,,"b":2}"#, 7),
        (r#"{"a" 1}"#, 5),
        (r#"{"a"=1}"#, 4),
        (r#"{"a"::1}"#, 5),
        (r#"{"a","b"}"#, 4),
        (r#"{"a":}"#, 5),
        (r#"{"a"}"#, 4),
        (r#"{"a":1 "b":2}"#, 7),
        ("{a:1}", 1),
        ("{'a':1}", 1),
        ("{1:1}", 1),
        ("{null:1}", 1),
        ("{[]:1}", 1),
        (r#"{"a":1]"#, 6),
        (r#"{"a":1}}"#, 7),
        (r#"{"a":1}#"#, 7),
        (r#"{"a":/**/1}"#, 5),
        (r#"{"a\ud800":1}"#, 9),
    ]);
}

#[test]
fn nothing_and_more_than_one_value() {
    are_faulty(&[
        ("", 0),
        (" ", 1),
        ("\n\t\r ", 4),
        ("1 2", 2),
        ("[][]", 2),
        ("{}{}", 2),
        ("null\0", 4),
        ("\u{feff}null", 0),
        ("\u{b}1", 0),
        ("1\u{a0}", 1),
        ("\u{2028}1", 0),
        ("[1]x", 3),
    ]);
}

#[test]
fn bytes_that_are_no_utf8() {
    for (bytes, place) in [
        (&b"\"\xff\""[..], 1),
        (b"\"\xc3(\"", 1),
        (b"\"\xc3", 1),
        (b"\"a\xe2\x82", 2),
        (b"\"\xe2\x82\"", 1),
        (b"\"\xc0\x80\"", 1),
        (b"\"\xe0\x80\x80\"", 1),
        (b"\"\xf0\x80\x80\x80\"", 1),
        (b"\"\xf4\x90\x80\x80\"", 1),
        (b"\"\xf5\x80\x80\x80\"", 1),
        (b"\"\x80\"", 1),
        (b"\"\xc3\xa9\x80\"", 3),
        (b"\xff", 0),
        (b"\xc3\xa9", 0),
        (b"[1,\xff]", 3),
        (b"[1,,\"\xff\"]", 3),
        (b"{\"\xff\":1,,}", 2),
        (b"\xef\xbb\xbf{}", 0),
        (b"\xff\xfe[\0]\0", 0),
        (b"\0[\0]", 0),
    ] {
        assert_eq!(fault(bytes), Some(place), "{bytes:x?}");
    }
}

/// What stands before a fault is the beginning of a text, and no longer beginning is one.
#[test]
fn each_beginning_of_a_text_is_one() {
    let text = "{\"a\\u00e9\\ud83d\\ude00\\n\u{1f600}é\" : [ null , true,false , -10.25e+07,0 ,{ } ,[ ], \"\"] , \"b\":{\"c\":[[]]}}";
    assert_eq!(fault(text.as_bytes()), None);
    for (end, _) in text.char_indices() {
        assert_eq!(fault(&text.as_bytes()[..end]), Some(end), "{}", &text[..end]);
    }
    for (at, _) in text.char_indices() {
        let mut changed = text.as_bytes()[..at].to_vec();
        changed.push(1);
        assert_eq!(fault(&changed), Some(at));
        changed.extend_from_slice(text.as_bytes());
        assert_eq!(fault(&changed), Some(at));
    }
}

#[test]
fn ten_million_brackets() {
    let count = 10_000_000;
    let mut deep = vec![b'['; count];
    assert_eq!(fault(&deep), Some(count));
    deep.extend(std::iter::repeat_n(b']', count));
    let (found, most) = most_held(|| fault(&deep));
    assert_eq!(found, None);
    assert!(most <= 32 * 1024 * 1024, "{most} bytes for {count} brackets");
    deep.pop();
    assert_eq!(fault(&deep), Some(2 * count - 1));
    let objects = "{\"\":".repeat(count);
    assert_eq!(fault(objects.as_bytes()), Some(4 * count));
}

fn content(bytes: &[u8]) -> Vec<u8> {
    Vec::from(read_string(Global, bytes).expect("there is memory"))
}

fn written(text: &[u8]) -> Vec<u8> {
    let mut out = crate::rattle_std::vec::Vec::new(Global);
    put_string(&mut out, text).expect("there is memory");
    Vec::from(out)
}

#[test]
fn what_strings_stand_for() {
    for (string, meant) in [
        (r#"""#, ""),
        (r#"a"b"#, "a"),
        (r#"\"\\\/\b\f\n\r\t""#, "\"\\/\u{8}\u{c}\n\r\t"),
        (r#"\u0041\u00e9\u00E9\u20ac\uFFFF\u0000""#, "Aéé€\u{ffff}\0"),
        (r#"\ud83d\ude00\uD800\uDC00\udbff\udfff""#, "\u{1f600}\u{10000}\u{10ffff}"),
        ("é€\u{1f600}\u{7f}\"", "é€\u{1f600}\u{7f}"),
    ] {
        assert_eq!(content(string.as_bytes()), meant.as_bytes(), "{string}");
    }
}

#[test]
fn strings_that_are_written_are_read_back() {
    let all: Vec<u8> = (0..=255).collect();
    let strings: [&[u8]; 4] = [b"", &all, "é\u{1f600}".as_bytes(), br#""\\""#];
    for text in strings {
        let string = written(text);
        assert_eq!(content(&string[1..]), text);
        assert_eq!(skip_string(&string[1..]), Ok(&[][..]));
    }
    let row = "\"\\\"\\\\/\\b\\t\\n\\f\\r\\u0000\\u000b\\u001f\u{7f}é\"";
    assert_eq!(written("\"\\/\u{8}\t\n\u{c}\r\0\u{b}\u{1f}\u{7f}é".as_bytes()), row.as_bytes());
    assert_eq!(fault(row.as_bytes()), None);
}

#[test]
fn parts_of_numbers() {
    for (number, is_negative, whole, fraction, is_exponent_negative, exponent) in [
        ("0", false, "0", "", false, ""),
        ("-12.50e-03,", true, "12", "50", true, "03"),
        ("7E+10 ", false, "7", "", false, "10"),
        ("1.5]", false, "1", "5", false, ""),
    ] {
        let parts = number_parts(number.as_bytes());
        assert_eq!(parts.is_negative, is_negative);
        assert_eq!(parts.whole, whole.as_bytes());
        assert_eq!(parts.fraction, fraction.as_bytes());
        assert_eq!(parts.is_exponent_negative, is_exponent_negative);
        assert_eq!(parts.exponent, exponent.as_bytes());
    }
}

/// The text without the blanks in it, by a walk over its values.
fn walked(bytes: &[u8], out: &mut String) -> usize {
    let rest = skip_value(Global, bytes).expect("there is memory").expect("a value is there");
    let end = rest.len();
    match kind_of(bytes[0]) {
        Some(Kind::Array) => {
            out.push('[');
            let mut item = first_item(Bracket::Square, skip_blanks(&bytes[1..]));
            while let Some(element) = item {
                let left = walked(element, out);
                item = next_item(skip_blanks(&element[element.len() - left..]));
                out.push(if item.is_some() { ',' } else { ' ' });
            }
            out.push(']');
        }
        Some(Kind::Object) => {
            out.push('{');
            let mut item = first_item(Bracket::Curly, skip_blanks(&bytes[1..]));
            while let Some(name) = item {
                out.push_str(std::str::from_utf8(&content(&name[1..])).expect("UTF-8"));
                out.push(':');
                let value = skip_name(name).expect("a name is there");
                let left = walked(value, out);
                item = next_item(skip_blanks(&value[value.len() - left..]));
                out.push(if item.is_some() { ',' } else { ' ' });
            }
            out.push('}');
        }
        Some(_) => out.push_str(std::str::from_utf8(&bytes[..bytes.len() - end]).expect("UTF-8")),
        None => panic!("no value is there"),
    }
    end
}

#[test]
fn a_walk_over_a_text() {
    let text = r#"{"a" : [ 1 , "x]\"" ,[ ], null], "\u0062":{ } ,"c":{"d":-1.5e3 }}"#;
    let mut out = String::new();
    assert_eq!(walked(text.as_bytes(), &mut out), 0);
    assert_eq!(out, r#"{a:[1,"x]\"",[],null ],b:{},c:{d:-1.5e3 } }"#);
}
