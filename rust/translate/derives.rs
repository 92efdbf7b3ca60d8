//! Derives that are written out.

use super::bounds;
use super::edits::Edits;
use super::rules::Rule;
use super::tokens::{Kind, Words};

/// A struct or enum behind its attributes.
struct Item<'a> {
    is_enum: bool,
    name: &'a str,
    /// Its parameters, as `<'a>`.
    parameters: &'a str,
    open: usize,
    close: usize,
}

/// Writes out what is derived and Rust has not.
pub fn write_derives(words: &Words<'_>, edits: &mut Edits) {
    for index in 0..words.list.len() {
        if words.at(index) != "#" || !words.is(index, Kind::Mark) {
            continue;
        }
        match words.at(words.after(words.after(index))) {
            "derive" => write_derive(words, edits, index),
            "derive_where" if !words.reads(index, &["#", "[", "derive_where", "(", "skip"]) => {
                write_derived_where(words, edits, index);
            }
            _ => {}
        }
    }
}

/// The struct or enum with fields in braces that stands behind an attribute, with nothing between but other attributes,
/// documentation and its visibility.
fn item_behind<'a>(words: &Words<'a>, attribute: usize) -> Option<Item<'a>> {
    let keyword = keyword_behind(words, attribute)?;
    let name = words.after(keyword);
    let open = bounds::after_parameters(words, words.after(name));
    if !words.is(name, Kind::Name) || words.at(open) != "{" {
        return None;
    }
    let head = &words.text[words.list[name].end..words.list[open].start];
    Some(Item {
        is_enum: words.at(keyword) == "enum",
        name: words.at(name),
        parameters: head.trim(),
        open,
        close: words.closing(open)?,
    })
}

/// The `struct` or `enum` behind an attribute.
fn keyword_behind(words: &Words<'_>, attribute: usize) -> Option<usize> {
    let mut at = attribute;
    loop {
        at = match words.at(at) {
            "#" => words.after(words.closing(words.after(at))?),
            "pub" if words.at(words.after(at)) == "(" => words.after(words.closing(words.after(at))?),
            "pub" => words.after(at),
            "struct" | "enum" => return Some(at),
            _ if words.is(at, Kind::Doc) || words.is(at, Kind::Tactic) => words.after(at),
            _ => return None,
        }
    }
}

/// The names in the brackets of an attribute, each with its words.
fn names_in(words: &Words<'_>, attribute: usize) -> Vec<(usize, usize)> {
    let open = words.after(words.after(words.after(attribute)));
    let Some(close) = words.closing(open) else {
        return Vec::new();
    };
    let mut names = Vec::new();
    let mut first = words.after(open);
    let mut at = first;
    while at <= close {
        if at == close || words.at(at) == "," {
            if first < at {
                names.push((first, words.before(at).unwrap_or(first)));
            }
            first = words.after(at);
        }
        at = words.after(at);
    }
    names
}

/// Takes from `derive` what Rust does not derive.
fn write_derive(words: &Words<'_>, edits: &mut Edits, attribute: usize) {
    let names = names_in(words, attribute);
    let text_of = |name: &(usize, usize)| &words.text[words.list[name.0].start..words.list[name.1].end];
    let is_taken = |name: &(usize, usize)| matches!(text_of(name), "Drop" | "thiserror::Error");
    for (number, name) in names.iter().enumerate() {
        if !is_taken(name) {
            continue;
        }
        let rule = if text_of(name) == "Drop" {
            Rule::DropDerive
        } else {
            Rule::ErrorDerive
        };
        // with the comma before it, or behind it where it is the first
        match (number, names.get(number + 1)) {
            (0, Some(next)) => edits.take(words, rule, name.0, next.0 - 1),
            (0, None) => edits.take(words, rule, name.0, name.1),
            _ => edits.take(words, rule, names[number - 1].1 + 1, name.1),
        }
        if rule == Rule::ErrorDerive {
            write_error(words, edits, attribute);
        }
    }
}

/// Writes out what `thiserror::Error` derives.
fn write_error(words: &Words<'_>, edits: &mut Edits, attribute: usize) {
    let Some(item) = item_behind(words, attribute).filter(|item| item.parameters.is_empty()) else {
        edits.refuse(
            words,
            attribute,
            "thiserror::Error of no plain struct or enum".to_string(),
        );
        return;
    };
    let texts = take_error_texts(words, edits, attribute, item.close);
    let body = if item.is_enum {
        let arms: String = texts
            .iter()
            .map(|(behind, text)| error_arm(words, edits, &item, *behind, text))
            .collect();
        format!("match self {{ {arms}}}")
    } else if let [(_, text)] = texts[..] {
        let fields = fields_of(words, edits, item.open, item.close);
        format!("let Self {{ {fields}.. }} = self; write!(f, {text})")
    } else {
        edits.refuse(words, attribute, "a struct's error without one text".to_string());
        return;
    };
    let name = item.name;
    let written = format!(
        " impl std::fmt::Display for {name} {{ fn fmt(&self, f: &mut std::fmt::Formatter<'_>) -> std::fmt::Result \
         {{ {body} }} }} impl std::error::Error for {name} {{}}"
    );
    edits.insert_after(words, Rule::ErrorDerive, item.close, written);
}

/// Takes each `#[error(..)]`, and answers its text and the word behind it.
fn take_error_texts<'a>(words: &Words<'a>, edits: &mut Edits, from: usize, to: usize) -> Vec<(usize, &'a str)> {
    let mut texts = Vec::new();
    for index in from..to {
        if !words.reads(index, &["#", "[", "error", "("]) {
            continue;
        }
        let text = words.after(words.after(words.after(words.after(index))));
        let close = words.after(words.after(text));
        if words.is(text, Kind::Literal) && words.reads(words.after(text), &[")", "]"]) {
            edits.take(words, Rule::ErrorDerive, index, close);
            texts.push((words.after(close), words.at(text)));
        } else {
            edits.refuse(words, index, "an error of more than one text".to_string());
        }
    }
    texts
}

/// The arm of a variant that stands at a word.
fn error_arm(words: &Words<'_>, edits: &mut Edits, item: &Item<'_>, variant: usize, text: &str) -> String {
    if !words.is(variant, Kind::Name) {
        edits.refuse(
            words,
            variant,
            "what stands behind #[error(..)] is no variant".to_string(),
        );
    }
    let open = words.after(variant);
    let fields = match (words.at(open), words.closing(open)) {
        ("{", Some(close)) => format!(" {{ {}.. }}", fields_of(words, edits, open, close)),
        ("(", _) => "(..)".to_string(),
        _ => String::new(),
    };
    format!("{}::{}{fields} => write!(f, {text}), ", item.name, words.at(variant))
}

/// The names of fields between two braces, each with a comma. Refused are names that would mean something else in what
/// is written out: `f` is its formatter, and of a field `source` thiserror makes the error's source.
fn fields_of(words: &Words<'_>, edits: &mut Edits, open: usize, close: usize) -> String {
    let names = field_names(words, open, close);
    for name in names.iter().filter(|name| matches!(words.at(**name), "f" | "source")) {
        edits.refuse(words, *name, format!("an error's field {}", words.at(*name)));
    }
    names.iter().map(|name| format!("{}, ", words.at(*name))).collect()
}

fn field_names(words: &Words<'_>, open: usize, close: usize) -> Vec<usize> {
    let is_field = |at: &usize| {
        words.is(*at, Kind::Name)
            && words.at(words.after(*at)) == ":"
            && !words.reads(words.after(*at), &[":", ":"])
            && words.text_before(*at) != ":"
    };
    (open..close).filter(is_field).collect()
}

/// Writes out what `derive_where` derives for a struct.
fn write_derived_where(words: &Words<'_>, edits: &mut Edits, attribute: usize) {
    let item = item_behind(words, attribute).filter(|item| !item.is_enum);
    let (Some(close), Some(item)) = (words.closing(words.after(attribute)), item) else {
        edits.refuse(words, attribute, "derive_where of no struct with fields".to_string());
        return;
    };
    let fields = take_skips(words, edits, &item);
    let mut written = String::new();
    for (first, last) in names_in(words, attribute) {
        match derived_impl(words.at(first), &item, &fields).filter(|_| first == last) {
            Some(text) => written.push_str(&text),
            None => edits.refuse(words, first, format!("derive_where({}..)", words.at(first))),
        }
    }
    edits.take(words, Rule::DerivedWhere, attribute, close);
    edits.insert_after(words, Rule::DerivedWhere, item.close, written);
}

/// The fields of a struct, as what is derived looks at them.
#[derive(Default)]
struct Fields<'a> {
    compared: Vec<&'a str>,
    shown: Vec<&'a str>,
    /// Whether a field is neither.
    hides: bool,
}

/// Takes the attributes that skip a field, and answers the fields that are compared and those that are shown.
fn take_skips<'a>(words: &Words<'a>, edits: &mut Edits, item: &Item<'_>) -> Fields<'a> {
    let skip_all = ["#", "[", "derive_where", "(", "skip", ")", "]"];
    let skip_compared = ["#", "[", "derive_where", "(", "skip", "(", "EqHashOrd", ")", ")", "]"];
    let mut fields = Fields::default();
    let mut last = item.open;
    for field in field_names(words, item.open, item.close) {
        let skip = (last..field).find(|at| words.reads(*at, &["#", "[", "derive_where"]));
        last = field;
        let Some(skip) = skip else {
            fields.compared.push(words.at(field));
            fields.shown.push(words.at(field));
            continue;
        };
        let is_shown = words.reads(skip, &skip_compared);
        match words.closing(words.after(skip)) {
            Some(close) if is_shown || words.reads(skip, &skip_all) => {
                edits.take(words, Rule::DerivedWhere, skip, close);
            }
            _ => edits.refuse(words, skip, "a field's derive_where that is not known".to_string()),
        }
        if is_shown {
            fields.shown.push(words.at(field));
        } else {
            fields.hides = true;
        }
    }
    fields
}

/// One derived trait, over the fields that it looks at.
fn derived_impl(name: &str, item: &Item<'_>, fields: &Fields<'_>) -> Option<String> {
    let (parameters, own) = (item.parameters, item.name);
    let compared = &fields.compared;
    let pairs: Vec<String> = compared
        .iter()
        .map(|field| format!("self.{field} == other.{field}"))
        .collect();
    let hashes: String = compared
        .iter()
        .map(|field| format!("self.{field}.hash(state); "))
        .collect();
    let shown: String = fields
        .shown
        .iter()
        .map(|field| format!(".field(\"{field}\", &self.{field})"))
        .collect();
    let finish = if fields.hides {
        "finish_non_exhaustive"
    } else {
        "finish"
    };
    Some(match name {
        "PartialEq" => format!(
            " impl{parameters} PartialEq for {own}{parameters} {{ fn eq(&self, other: &Self) -> bool {{ {} }} }}",
            pairs.join(" && ")
        ),
        "Eq" => format!(" impl{parameters} Eq for {own}{parameters} {{}}"),
        "Hash" => format!(
            " impl{parameters} std::hash::Hash for {own}{parameters} {{ fn hash<H: std::hash::Hasher>(&self, \
             state: &mut H) {{ {hashes}}} }}"
        ),
        "Debug" => format!(
            " impl{parameters} std::fmt::Debug for {own}{parameters} {{ fn fmt(&self, f: &mut \
             std::fmt::Formatter<'_>) -> std::fmt::Result {{ f.debug_struct(\"{own}\"){shown}.{finish}() }} }}"
        ),
        _ => return None,
    })
}
