//! The words of a source file: those of Rust one by one, and each part that only the prover reads as one.
//!
//! Together the words are the file, byte for byte.

/// What a word is.
#[derive(Clone, Copy, Debug, PartialEq, Eq)]
pub enum Kind {
    /// Blanks and line breaks.
    Space,
    /// A comment that documents nothing.
    Comment,
    /// A line of an item's documentation, `/// ..`.
    Doc,
    /// A line of a file's documentation, `//! ..`.
    FileDoc,
    /// A name or keyword.
    Name,
    /// A lifetime.
    Lifetime,
    /// A text, character or number.
    Literal,
    /// One character of punctuation.
    Mark,
    /// `ghost use ..;`
    GhostUse,
    /// A ghost member or field, up to its `;` or `,`.
    GhostMember,
    /// `requires NAME {..}` or `ensures NAME {..}`
    Clause,
    /// `#[tactic(..)]`, `#![tactic(..)]` or `#[cycle(..)]`.
    Tactic,
}

/// A word, by its place in the file.
#[derive(Clone, Copy, Debug)]
pub struct Word {
    pub kind: Kind,
    pub start: usize,
    pub end: usize,
}

/// A file with its words.
pub struct Words<'a> {
    pub text: &'a str,
    pub list: Vec<Word>,
}

/// Words of which it is not known what they mean, by their place in the file.
#[derive(Clone, Debug)]
pub struct Unknown {
    pub at: usize,
    pub what: String,
}

impl<'a> Words<'a> {
    /// The words of a file, or the first that can't be told.
    pub fn new(text: &'a str) -> Result<Words<'a>, Unknown> {
        let mut list = Vec::new();
        let mut start = 0;
        while start < text.len() {
            let (kind, end) = next_word(text, start)?;
            list.push(Word { kind, start, end });
            start = end;
        }
        let words = Words { text, list };
        words.match_brackets()?;
        Ok(words)
    }

    /// Refuses a bracket without another that closes or opens it.
    fn match_brackets(&self) -> Result<(), Unknown> {
        let mut open = Vec::new();
        for (index, word) in self.list.iter().enumerate().filter(|(_, word)| word.kind == Kind::Mark) {
            match self.at(index) {
                "(" | "[" | "{" => open.push(index),
                ")" | "]" | "}" => {
                    let is_closed = open
                        .pop()
                        .is_some_and(|first| close_of(self.at(first)) == self.at(index));
                    if !is_closed {
                        return Err(unknown(self.text, word.start));
                    }
                }
                _ => {}
            }
        }
        match open.last() {
            Some(first) => Err(unknown(self.text, self.list[*first].start)),
            None => Ok(()),
        }
    }

    /// The text of a word; none past the end.
    pub fn at(&self, index: usize) -> &'a str {
        self.list.get(index).map_or("", |word| &self.text[word.start..word.end])
    }

    /// Whether a word is of this kind.
    pub fn is(&self, index: usize, kind: Kind) -> bool {
        self.list.get(index).is_some_and(|word| word.kind == kind)
    }

    /// The next word that is no space or comment; one past the end where there is none.
    pub fn after(&self, index: usize) -> usize {
        let mut next = index + 1;
        while next < self.list.len() && is_between(self.list[next].kind) {
            next += 1;
        }
        next
    }

    /// The last word before that is no space or comment.
    pub fn before(&self, index: usize) -> Option<usize> {
        self.list[..index].iter().rposition(|word| !is_between(word.kind))
    }

    /// The text of that word.
    pub fn text_before(&self, index: usize) -> &'a str {
        self.before(index).map_or("", |found| self.at(found))
    }

    /// Whether the words from one on have these texts, with nothing but spaces and comments between.
    pub fn reads(&self, index: usize, texts: &[&str]) -> bool {
        let mut at = index;
        for text in texts {
            if self.at(at) != *text {
                return false;
            }
            at = self.after(at);
        }
        true
    }

    /// The word that closes the bracket at one; none where no bracket opens there.
    pub fn closing(&self, open: usize) -> Option<usize> {
        if !self.is(open, Kind::Mark) || !matches!(self.at(open), "(" | "[" | "{") {
            return None;
        }
        let mut depth = 0usize;
        for index in open..self.list.len() {
            if self.list[index].kind != Kind::Mark {
                continue;
            }
            match self.at(index) {
                "(" | "[" | "{" => depth += 1,
                ")" | "]" | "}" => {
                    // none is open where no bracket stands at the first word
                    depth = depth.checked_sub(1)?;
                    if depth == 0 {
                        return Some(index);
                    }
                }
                _ => {}
            }
        }
        None
    }
}

/// The bracket that closes one.
fn close_of(open: &str) -> &'static str {
    match open {
        "(" => ")",
        "[" => "]",
        _ => "}",
    }
}

/// Whether a word of this kind may stand between any two others.
fn is_between(kind: Kind) -> bool {
    matches!(kind, Kind::Space | Kind::Comment)
}

/// Whether a character can be one of a name.
fn is_of_name(letter: char) -> bool {
    letter.is_ascii_alphanumeric() || letter == '_'
}

/// The word at a place.
fn next_word(text: &str, start: usize) -> Result<(Kind, usize), Unknown> {
    let rest = &text[start..];
    let first = rest.chars().next().unwrap_or(' ');
    if first.is_ascii_whitespace() {
        return Ok((Kind::Space, start + run(rest, |letter| letter.is_ascii_whitespace())));
    }
    if rest.starts_with("//") {
        return Ok((comment_kind(rest), start + rest.find('\n').unwrap_or(rest.len())));
    }
    if rest.starts_with("/*") || rest.starts_with("*/") || is_raw_name(rest) {
        return Err(unknown(text, start));
    }
    if let Some(length) = literal(rest) {
        return length
            .map(|length| (Kind::Literal, start + length))
            .ok_or(unknown(text, start));
    }
    if is_of_name(first) {
        return named_word(text, start);
    }
    if let Some(length) = tactic(rest) {
        return Ok((Kind::Tactic, start + length));
    }
    if first == '\'' && rest[1..].starts_with(is_of_name) {
        return Ok((Kind::Lifetime, start + 1 + run(&rest[1..], is_of_name)));
    }
    if first == '\'' {
        return Err(unknown(text, start));
    }
    if first.is_ascii_punctuation() {
        return Ok((Kind::Mark, start + 1));
    }
    Err(unknown(text, start))
}

/// Whether a name stands here that would be a keyword but for its `r#`.
fn is_raw_name(rest: &str) -> bool {
    rest.strip_prefix("r#").is_some_and(|name| name.starts_with(is_of_name))
}

/// The length of what a text begins with.
fn run(text: &str, is_in: impl Fn(char) -> bool) -> usize {
    text.find(|letter| !is_in(letter)).unwrap_or(text.len())
}

fn comment_kind(rest: &str) -> Kind {
    if rest.starts_with("//!") {
        Kind::FileDoc
    } else if rest.starts_with("///") && !rest.starts_with("////") {
        Kind::Doc
    } else {
        Kind::Comment
    }
}

/// The length of the text, character or number that stands here; a `None` inside where it has no end.
fn literal(rest: &str) -> Option<Option<usize>> {
    let first = rest.chars().next()?;
    if first.is_ascii_digit() {
        return Some(Some(number(rest)));
    }
    let prefix = run(rest, |letter| letter == 'b' || letter == 'r');
    let hashes = run(&rest[prefix..], |letter| letter == '#');
    let body = &rest[prefix + hashes..];
    match &rest[..prefix] {
        "" | "b" if hashes == 0 && body.starts_with('"') => Some(quoted(body).map(|length| prefix + length)),
        "r" | "br" if body.starts_with('"') => {
            let end = format!("\"{}", "#".repeat(hashes));
            Some(
                body[1..]
                    .find(&end)
                    .map(|length| prefix + hashes + 1 + length + end.len()),
            )
        }
        "" | "b" if hashes == 0 && body.starts_with('\'') => character(body).map(|length| Some(prefix + length)),
        _ => None,
    }
}

/// The length of a number with its suffix. A range's dots are no part of it.
fn number(rest: &str) -> usize {
    let whole = run(rest, is_of_name);
    let fraction = &rest[whole..];
    let has_fraction = fraction.starts_with('.') && fraction[1..].starts_with(|letter: char| letter.is_ascii_digit());
    if has_fraction {
        whole + 1 + run(&fraction[1..], is_of_name)
    } else {
        whole
    }
}

/// The length of a text in quotes.
fn quoted(rest: &str) -> Option<usize> {
    let mut letters = rest.char_indices().skip(1);
    while let Some((at, letter)) = letters.next() {
        match letter {
            '\\' => {
                letters.next();
            }
            '"' => return Some(at + 1),
            _ => {}
        }
    }
    None
}

/// The length of a character in quotes; none where a lifetime stands here.
fn character(rest: &str) -> Option<usize> {
    let letter = rest[1..].chars().next()?;
    if letter == '\\' {
        return rest.get(3..)?.find('\'').map(|length| 3 + length + 1);
    }
    let end = 1 + letter.len_utf8();
    rest[end..].starts_with('\'').then_some(end + 1)
}

/// The attribute that guides the prover, if one stands here.
fn tactic(rest: &str) -> Option<usize> {
    let heads = ["#![tactic(", "#[tactic(", "#[cycle("];
    let head = heads.iter().find(|head| rest.starts_with(**head))?;
    let mut depth = 1usize;
    for (at, letter) in rest.char_indices().skip(head.len()) {
        match letter {
            '(' | '[' => depth += 1,
            '"' | '\'' => return None,
            ')' | ']' if depth == 0 => return Some(at + 1),
            ')' | ']' => depth -= 1,
            _ => {}
        }
    }
    None
}

/// The word that begins with a name: a name, or a part that only the prover reads.
fn named_word(text: &str, start: usize) -> Result<(Kind, usize), Unknown> {
    let rest = &text[start..];
    let length = run(rest, is_of_name);
    let ghost = |found: Option<(Kind, usize)>| {
        found
            .map(|(kind, length)| (kind, start + length))
            .ok_or(unknown(text, start))
    };
    match &rest[..length] {
        "ghost" => ghost(ghost_part(rest)),
        "requires" | "ensures" => ghost(clause(rest, length).map(|end| (Kind::Clause, end))),
        _ => Ok((Kind::Name, start + length)),
    }
}

/// The length of a clause whose keyword has this length.
fn clause(rest: &str, keyword: usize) -> Option<usize> {
    let at = keyword + usize::from(rest[keyword..].starts_with('*'));
    let at = at + blanks(&rest[at..]);
    let at = at + run(&rest[at..], is_of_name);
    let at = at + blanks(&rest[at..]);
    braces(&rest[at..]).map(|length| at + length)
}

/// The length of a part that begins with `ghost`.
fn ghost_part(rest: &str) -> Option<(Kind, usize)> {
    if let Some(names) = rest.strip_prefix("ghost use ") {
        return ghost_names(names).map(|length| (Kind::GhostUse, rest.len() - names.len() + length));
    }
    let name = "ghost ".len();
    if !rest.starts_with("ghost ") {
        return None;
    }
    let length = rest[name..].find([':', '='])?;
    if rest[name..name + length].contains(['{', ';', '\n']) {
        return None;
    }
    let mut at = name + length + 1;
    at += blanks(&rest[at..]);
    at += braces(&rest[at..])?;
    for answer in ["by", "="] {
        let next = at + blanks(&rest[at..]);
        if let Some(after) = rest[next..].strip_prefix(answer) {
            let open = next + answer.len() + blanks(after);
            at = open + braces(&rest[open..])?;
        }
    }
    rest[at..]
        .starts_with([';', ','])
        .then_some((Kind::GhostMember, at + 1))
}

/// The length of a path, and of another name for it or names in braces behind it, up to their `;`.
fn ghost_names(rest: &str) -> Option<usize> {
    let path = run(rest, |letter| {
        !letter.is_ascii_whitespace() && letter != '{' && letter != ';'
    });
    let behind = &rest[path..];
    let length = match behind.strip_prefix(" as ") {
        Some(name) => behind.len() - name.len() + run(name, is_of_name),
        None => braces(behind).unwrap_or(0),
    };
    let end = path + length;
    (path > 0 && rest[end..].starts_with(';')).then_some(end + 1)
}

fn blanks(text: &str) -> usize {
    run(text, |letter| letter.is_ascii_whitespace())
}

/// The length of what stands in braces here. The prover's language has names with primes in them, so these are no
/// quotes. A text in quotes may have no brace, and no comment may stand here.
fn braces(text: &str) -> Option<usize> {
    if !text.starts_with('{') {
        return None;
    }
    let mut depth = 0usize;
    let mut letters = text.char_indices();
    while let Some((at, letter)) = letters.next() {
        match letter {
            '"' => {
                let length = text[at + 1..].find('"')?;
                if text[at + 1..at + 1 + length].contains(['{', '}', '\\', '\n']) {
                    return None;
                }
                letters.find(|(_, letter)| *letter == '"');
            }
            '-' | '/' if is_comment(&text[at..]) => return None,
            '{' => depth += 1,
            '}' => {
                depth -= 1;
                if depth == 0 {
                    return Some(at + 1);
                }
            }
            _ => {}
        }
    }
    None
}

/// Whether a comment of the prover's language, or of Rust, begins here.
fn is_comment(rest: &str) -> bool {
    ["-- ", "//", "/*"].iter().any(|mark| rest.starts_with(mark))
}

fn unknown(text: &str, at: usize) -> Unknown {
    let line = text[at..].lines().next().unwrap_or("");
    Unknown {
        at,
        what: line.chars().take(80).collect(),
    }
}
