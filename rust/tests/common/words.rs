//! Paths and calls as words: those of the examples, those that a schema leads to, and changes of both.

use super::random::Random;
use riftcalico::introspect::{Type, TypeVariant};
use riftcalico::schema::{Field, StructSchema};

/// Calls that the examples make, each after the name of its struct.
const CALLS: [(&str, &str); 31] = [
    ("Flat", "set a 5"),
    ("Flat", "get a"),
    ("Mixed", "set a 6"),
    ("Mixed", "set a 65536"),
    ("Mixed", "set y 255"),
    ("Mixed", "get y"),
    ("Mixed", "set b a \"word\""),
    ("Mixed", "set c 1"),
    ("Many", "get n"),
    ("Shapes", "which ."),
    ("Shapes", "set word w"),
    ("Shapes", "get circle.r"),
    ("Shapes", "get tag.u1"),
    ("Lists", "set raw 0x\"41\""),
    ("Lists", "set t x"),
    ("Lists", "set items.1.a 7"),
    ("Lists", "get items.1.a"),
    ("Lists", "get #1"),
    ("Node", "set size inlineComposite"),
    ("Node", "set displayName a name"),
    ("Node", "set id 18446744073709551615"),
    ("Station", "get neighbours.0.title"),
    ("Station", "get readings.1"),
    ("AddressBook", "initn people 2"),
    ("AddressBook", "set people.0.id 123"),
    ("AddressBook", "set people.0.phones.0.type mobile"),
    ("AddressBook", "set people.1.phones.0.number \"555-7654\""),
    ("AddressBook", "set people.1.phones.1.type 2"),
    ("AddressBook", "set people.1.employment.unemployed ()"),
    ("AddressBook", "set people.1.email bob@example.org"),
    ("AddressBook", "set people.1.employment.employer us"),
];

/// Values at the edges of the grammar and of the types.
const VALUES: [&str; 42] = [
    "",
    "()",
    "true",
    "false",
    "0",
    "1",
    "-1",
    "7",
    "127",
    "128",
    "-128",
    "-129",
    "255",
    "256",
    "32767",
    "-32768",
    "65535",
    "65536",
    "2147483647",
    "-2147483648",
    "4294967295",
    "4294967296",
    "9223372036854775807",
    "-9223372036854775808",
    "18446744073709551615",
    "18446744073709551616",
    "007",
    "+1",
    "0x\"00ff\"",
    "0x\"0\"",
    "\"quoted \\\"\\u{7f}\\n\"",
    "\"open",
    "no quotes",
    "mobile",
    "é\u{0}ü",
    "inlineComposite",
    "{}",
    "[]",
    "[1, 2]",
    "[null]",
    "{\"a\":5}",
    "[{\"a\":1},{}]",
];

/// Lengths: short, or past what the format can say. None between, which would take gigabytes.
const LENGTHS: [&str; 12] = [
    "0",
    "1",
    "2",
    "3",
    "5",
    "8",
    "64",
    "1000",
    "536870912",
    "4294967295",
    "4294967296",
    "-1",
];

/// Characters that mean something in a word, and some that don't.
const LETTERS: [char; 28] = [
    '.',
    '#',
    ' ',
    '"',
    '\\',
    '0',
    '9',
    '-',
    '+',
    '(',
    ')',
    'x',
    'u',
    '{',
    '}',
    '[',
    ']',
    ':',
    ',',
    'a',
    'Z',
    '_',
    '/',
    '\t',
    '\n',
    'é',
    '\u{7f}',
    '\u{1f600}',
];

/// A call's word, for a struct of this name and schema.
pub fn call(random: &mut Random, name: &str, schema: StructSchema<'_>) -> String {
    let mut word = if random.once_in(3) {
        of_examples(random, name)
    } else {
        along_schema(random, schema)
    };
    while random.once_in(12) {
        word = changed(random, &word);
    }
    if is_heavy(&word) {
        "which .".to_string()
    } else {
        word
    }
}

/// A path's word.
pub fn path(random: &mut Random, schema: StructSchema<'_>) -> String {
    let (mut word, _) = walked(random, schema);
    while random.once_in(12) {
        word = changed(random, &word);
    }
    word
}

/// A word with a character taken away, doubled, put in or replaced.
pub fn changed(random: &mut Random, word: &str) -> String {
    let mut letters: Vec<char> = word.chars().collect();
    let letter = *random.one_of(&LETTERS);
    let place = random.below(letters.len() + 1);
    match random.below(4) {
        0 => letters.insert(place, letter),
        1 if place < letters.len() => {
            letters.remove(place);
        }
        2 if place < letters.len() => letters[place] = letter,
        3 if place < letters.len() => letters.insert(place, letters[place]),
        _ => {}
    }
    letters.into_iter().collect()
}

/// Whether a word makes a list so long that it takes gigabytes.
pub fn is_heavy(word: &str) -> bool {
    let numbers = word.split(|letter: char| !letter.is_ascii_digit());
    let mut lengths = numbers.filter_map(|digits| digits.parse::<u64>().ok());
    (word.contains("initn") || word.contains("resize")) && lengths.any(|length| (1_001..1 << 29).contains(&length))
}

fn of_examples(random: &mut Random, name: &str) -> String {
    let known: Vec<&str> = CALLS
        .iter()
        .filter(|(one, _)| *one == name)
        .map(|(_, word)| *word)
        .collect();
    if known.is_empty() || random.once_in(8) {
        return random.one_of(&CALLS).1.to_string();
    }
    let (operation, rest) = random.one_of(&known).split_once(' ').unwrap_or(("which", "."));
    let (path, value) = rest.split_once(' ').unwrap_or((rest, ""));
    match random.below(4) {
        0 => format!("{operation} {path} {}", random.one_of(&VALUES)),
        1 => format!("{} {path}", random.one_of(&["get", "has", "which", "init", "clear"])),
        _ if value.is_empty() => format!("{operation} {path}"),
        _ => format!("{operation} {path} {value}"),
    }
}

fn along_schema(random: &mut Random, schema: StructSchema<'_>) -> String {
    let (path, leaf) = walked(random, schema);
    if random.once_in(5) {
        return edited(random, schema, &path, leaf);
    }
    match random.below(9) {
        0 => format!("get {path}"),
        1 => format!("has {path}"),
        2 => format!("which {path}"),
        3 => format!("init {path}"),
        4 => format!("initn {path} {}", random.one_of(&LENGTHS)),
        5 => format!("clear {path}"),
        6 => format!("set {path} {}", random.one_of(&VALUES)),
        _ => format!("set {path} {}", fitting(random, leaf)),
    }
}

/// An edit of the list at a path, or a copy there.
fn edited(random: &mut Random, schema: StructSchema<'_>, path: &str, leaf: Option<Type>) -> String {
    let element = match leaf.map(|leaf| leaf.which()) {
        Some(TypeVariant::List(element)) => Some(element),
        _ => None,
    };
    let index = *random.one_of(&["0", "0", "1", "2", "9", "x"]);
    match random.below(6) {
        0 => format!("insert {path}.{index} {}", fitting(random, element)),
        1 => format!("remove {path}.{index}"),
        2 => format!("resize {path} {}", random.one_of(&LENGTHS)),
        3 => format!("copy {path} {}", walked(random, schema).0),
        _ => format!("append {path} {}", fitting(random, element)),
    }
}

/// A value that fits a type, mostly.
fn fitting(random: &mut Random, leaf: Option<Type>) -> &'static str {
    let values: &[&str] = match leaf.map(|leaf| leaf.which()) {
        Some(TypeVariant::Void) => &["()"],
        Some(TypeVariant::Bool) => &["true", "false"],
        Some(TypeVariant::Text) => &["", "x", "a longer text", "\"q\\\"\\n\"", "é"],
        Some(TypeVariant::Data) => &["0x\"\"", "0x\"00ff\"", "0x\"0102030405060708090a\""],
        Some(TypeVariant::Struct(_) | TypeVariant::List(_) | TypeVariant::AnyPointer) => &VALUES,
        _ => &["0", "1", "5", "100", "127"],
    };
    values[random.below(values.len())]
}

/// A path along a schema, and the type that it leads to.
fn walked(random: &mut Random, schema: StructSchema<'_>) -> (String, Option<Type>) {
    let mut words = Vec::new();
    let mut here = Some(schema);
    let mut leaf = None;
    while let Some(schema) = here {
        let Some(field) = any_field(random, schema) else {
            break;
        };
        let name = field.get_proto().name.as_str();
        words.push(if random.once_in(8) {
            format!("#{}", field.get_index())
        } else {
            name.to_string()
        });
        leaf = Some(field.get_type());
        here = field.get_group();
        if here.is_none() {
            here = entered(random, schema, &mut leaf, &mut words);
        }
        if random.once_in(4) {
            break;
        }
    }
    if words.is_empty() || random.once_in(24) {
        return (".".to_string(), None);
    }
    (words.join("."), leaf)
}

/// Goes on from a field that is no group: through elements to a struct.
fn entered<'a>(
    random: &mut Random,
    schema: StructSchema<'a>,
    leaf: &mut Option<Type>,
    words: &mut Vec<String>,
) -> Option<StructSchema<'a>> {
    while let Some(TypeVariant::List(element)) = leaf.map(|leaf| leaf.which()) {
        if random.once_in(4) {
            return None;
        }
        words.push(random.one_of(&["0", "0", "1", "1", "2", "7", "4294967295"]).to_string());
        *leaf = Some(element);
    }
    match leaf.map(|leaf| leaf.which()) {
        Some(TypeVariant::Struct(named)) => schema.get_set().get_struct(named.number),
        _ => None,
    }
}

/// A field of a struct, where it has one.
pub fn any_field<'a>(random: &mut Random, schema: StructSchema<'a>) -> Option<Field<'a>> {
    let fields = schema.get_fields().ok()?;
    if fields.is_empty() {
        return None;
    }
    Some(fields.get(random.below(usize::from(fields.len())) as u16))
}
