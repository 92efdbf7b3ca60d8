//! Command lines, as they are typed in a shell.
//!
//! Blanks separate words. A word of letters, digits and `@%+=:,./_-` stands as it is, any other in single quotes. A word
//! with control characters stands in `$'..'`, where `\n`, `\t`, `\\`, `\'` and `\xNN` are one character each.

/// The words of a command line, unless it is malformed.
pub fn split_words(line: &str) -> Option<Vec<String>> {
    let mut words = Vec::new();
    let mut rest = line.trim_start_matches(' ');
    while !rest.is_empty() {
        let (word, after) = first_word(rest)?;
        words.push(word);
        rest = after.trim_start_matches(' ');
        if !rest.is_empty() && rest.len() == after.len() {
            return None;
        }
    }
    Some(words)
}

/// The word at the beginning of a text, and the text behind it.
fn first_word(text: &str) -> Option<(String, &str)> {
    if let Some(text) = text.strip_prefix("$'") {
        return escaped_word(text);
    }
    if let Some(text) = text.strip_prefix('\'') {
        let (word, rest) = text.split_once('\'')?;
        return Some((word.to_string(), rest));
    }
    let is_plain = |letter: char| letter.is_ascii_alphanumeric() || "@%+=:,./_-".contains(letter);
    let end = text.find(|letter| !is_plain(letter)).unwrap_or(text.len());
    (end > 0).then(|| (text[..end].to_string(), &text[end..]))
}

/// The word with escapes up to a quote, and the text behind the quote.
fn escaped_word(text: &str) -> Option<(String, &str)> {
    let mut word = String::new();
    let mut letters = text.chars();
    loop {
        let letter = match letters.next()? {
            '\'' => return Some((word, letters.as_str())),
            '\\' => match letters.next()? {
                'n' => '\n',
                't' => '\t',
                'x' => {
                    let digits = [letters.next()?, letters.next()?];
                    let number = u8::from_str_radix(&String::from_iter(digits), 16).ok()?;
                    char::from(number)
                }
                letter @ ('\\' | '\'') => letter,
                _ => return None,
            },
            letter => letter,
        };
        word.push(letter);
    }
}

#[test]
fn command_lines_are_split_as_in_a_shell() {
    let split = |line| split_words(line).map(|words| words.join("|"));
    let words = r#"get  --limit 1 '' 'set t "x"' $'a\tb\'\\\x1b'"#;
    assert_eq!(
        split(words).as_deref(),
        Some("get|--limit|1||set t \"x\"|a\tb'\\\u{1b}")
    );
    for line in [
        "'get", "items.*", "get'a'", "'a''b'", "$'a", r"$'\q'", r"$'\x1'", "\"a\"",
    ] {
        assert_eq!(split(line), None, "{line}");
    }
}
