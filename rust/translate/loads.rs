//! Numbers whose bytes are named one by one.

use super::edits::Edits;
use super::rules::Rule;
use super::tokens::{Kind, Words};

/// Takes the bytes of each number by one call where they stand in a row.
pub fn join_loads(words: &Words<'_>, edits: &mut Edits) {
    for index in 0..words.list.len() {
        if words.at(index) != "from_le_bytes" || !words.is(index, Kind::Name) {
            continue;
        }
        let open = words.after(words.after(index));
        let Some(close) = words.closing(open).filter(|_| words.at(open) == "[") else {
            continue;
        };
        if let Some((bytes, place)) = row_in(words, open, close) {
            let call = format!("crate::rattle_std::slice::array_at({bytes}, {place})");
            edits.replace(words, Rule::Load, open, close, &call);
        }
    }
}

/// The names of the bytes and of their first place, where a list between brackets names bytes in a row.
fn row_in<'a>(words: &Words<'a>, open: usize, close: usize) -> Option<(&'a str, &'a str)> {
    let first = words.after(open);
    let bytes = words.at(first);
    let place = words.at(words.after(words.after(first)));
    let is_named = [bytes, place]
        .iter()
        .all(|name| name.starts_with(|letter: char| letter.is_ascii_lowercase()));
    let mut at = first;
    let mut count = 0;
    while at < close {
        at = byte_behind(words, at, bytes, place, count)?;
        count += 1;
        if words.at(at) == "," {
            at = words.after(at);
        }
    }
    (is_named && at == close).then_some((bytes, place))
}

/// The word behind `bytes[place + number]`, if that stands here; the first is `bytes[place]`.
fn byte_behind(words: &Words<'_>, at: usize, bytes: &str, place: &str, number: usize) -> Option<usize> {
    let number = number.to_string();
    let first = [bytes, "[", place, "]"];
    let later = [bytes, "[", place, "+", number.as_str(), "]"];
    let texts: &[&str] = if number == "0" { &first } else { &later };
    words
        .reads(at, texts)
        .then(|| texts.iter().fold(at, |at, _| words.after(at)))
}
