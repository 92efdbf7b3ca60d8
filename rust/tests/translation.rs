//! The translation: what is taken and what is left are the source, each rule is used and does what it says, and what is
//! not known is refused.

#[allow(dead_code, reason = "the build script uses more of it")]
#[path = "../translate/mod.rs"]
mod translate;

use std::collections::BTreeSet;
use std::fs;
use std::path::{Path, PathBuf};
use translate::checks::{CASES, CHECKS};
use translate::handles::{HANDLES, MESSAGE, MESSAGE_CALLS, RAW_CALLS, SEEN};
use translate::workspace::Workspace;
use translate::{Kind, Place, Rule, Translation, Words, RULES};

/// A source file of a crate.
#[derive(Clone)]
struct Source {
    library: String,
    /// Its path below the crate's `src`.
    file: String,
    path: PathBuf,
    text: String,
}

fn root() -> &'static Path {
    Path::new(env!("CARGO_MANIFEST_DIR"))
}

/// The source files of all crates, also of those that cargo does not build.
fn sources() -> Vec<Source> {
    let workspace = Workspace::read(root()).expect("crates.txt");
    let mut sources = Vec::new();
    for library in workspace.names() {
        for file in workspace.files(&library).expect("the crate's folder") {
            let path = workspace.path(&library, &file);
            let text = fs::read_to_string(&path).expect("a source file");
            sources.push(Source {
                library: library.clone(),
                file: file.display().to_string(),
                path,
                text,
            });
        }
    }
    assert!(sources.len() > 400, "{} files", sources.len());
    sources
}

fn libraries() -> Vec<String> {
    Workspace::read(root()).expect("crates.txt").names()
}

fn translated<'a>(source: &'a Source, libraries: &[String]) -> Translation<'a> {
    let place = Place {
        library: &source.library,
        file: &source.file,
        libraries,
    };
    let path = source.path.display();
    let translation = Translation::new(&place, &source.text).unwrap_or_else(|lines| panic!("{path}: {lines:?}"));
    assert!(translation.missing().is_empty(), "{path}: {:?}", translation.missing());
    translation
}

#[test]
fn what_is_taken_and_what_is_left_are_the_source() {
    let libraries = libraries();
    for source in sources() {
        let translation = translated(&source, &libraries);
        let pieces = translation.pieces();
        let before: String = pieces.iter().map(|piece| piece.before).collect();
        let after: String = pieces.iter().map(|piece| piece.after).collect();
        let path = source.path.display();
        assert!(before == source.text, "{path}: the pieces are not the file");
        assert!(
            after == translation.rust(),
            "{path}: the pieces are not what is written"
        );
        for piece in pieces.iter().filter(|piece| piece.rule.is_none()) {
            assert_eq!(piece.before, piece.after, "{path}: a change without a rule");
        }
        for piece in &pieces {
            let breaks = |text: &str| text.matches('\n').count();
            assert_eq!(
                breaks(piece.before),
                breaks(piece.after),
                "{path}: a line loses its number"
            );
        }
    }
}

/// What the compiler reads of the words that are left is what it would have read of them in the source: no word that is
/// left is joined with another.
#[test]
fn what_is_left_reads_as_the_same_words() {
    let libraries = libraries();
    for source in sources() {
        let translation = translated(&source, &libraries);
        let path = source.path.display();
        let rust = translation.rust();
        let read = Words::new(&rust).unwrap_or_else(|unknown| panic!("{path}: {}", unknown.what));
        let read: BTreeSet<(usize, usize)> = read.list.iter().map(|word| (word.start, word.end)).collect();
        let words = Words::new(&source.text).unwrap_or_else(|unknown| panic!("{path}: {}", unknown.what));
        for (start, end, text) in left(&words, &translation) {
            assert!(
                read.contains(&(start, end)),
                "{path}: {text} is no word of what is written"
            );
        }
    }
}

/// The words that no rule touches, each with where it stands in what is written.
fn left<'a>(words: &Words<'a>, translation: &Translation<'_>) -> Vec<(usize, usize, &'a str)> {
    let mut list = Vec::new();
    let pieces = translation.pieces();
    let (mut before, mut after) = (0, 0);
    for (number, piece) in pieces.iter().enumerate() {
        let end = before + piece.before.len();
        let next = pieces.get(number + 1).and_then(|piece| piece.rule);
        let first = words.list.partition_point(|word| word.start < before);
        for word in words.list[first..].iter().take_while(|word| word.end <= end) {
            let is_lengthened = word.end == end && matches!(next, Some(Rule::AllocatedCall | Rule::DocExample));
            if piece.rule.is_none() && word.kind != Kind::Space && !is_lengthened {
                let start = after + (word.start - before);
                list.push((
                    start,
                    start + (word.end - word.start),
                    &words.text[word.start..word.end],
                ));
            }
        }
        before = end;
        after += piece.after.len();
    }
    list
}

/// What the rules take, in all files: each time with the rule.
fn taken(sources: &[Source]) -> Vec<(Rule, String)> {
    let libraries = libraries();
    let mut taken = Vec::new();
    for source in sources {
        for piece in translated(source, &libraries).pieces() {
            taken.extend(piece.rule.map(|rule| (rule, piece.before.to_string())));
        }
    }
    taken
}

#[test]
fn each_rule_is_used() {
    let sources = sources();
    let taken = taken(&sources);
    let mut wrong = Vec::new();
    println!("| Rule | Uses | A search finds |\n|---|---|---|");
    for told in &RULES {
        let count = taken.iter().filter(|(rule, _)| *rule == told.rule).count();
        let searched = searched(told.rule, &sources, &taken);
        println!("| {} | {count} | {searched} |", told.name);
        if count == 0 || count != searched {
            wrong.push(told.name);
        }
    }
    assert!(
        wrong.is_empty(),
        "not used, or otherwise than a search finds: {wrong:?}"
    );
}

/// How often a rule should be used, as a search of the lines tells.
fn searched(rule: Rule, sources: &[Source], taken: &[(Rule, String)]) -> usize {
    let starts = |heads: &[&str]| lines(sources, &|line| starts_with(line, heads));
    let has = |text: &str| {
        code_lines(sources)
            .map(|line| line.matches(text).count())
            .sum::<usize>()
    };
    match rule {
        Rule::GhostUse | Rule::GhostMember | Rule::Clause | Rule::Tactic | Rule::Model => {
            ghost_lines(rule, sources, taken)
        }
        Rule::ConstProof => has("prove!("),
        Rule::DropDerive => lines(sources, &|line| line.starts_with("#[derive(") && line.contains("Drop")),
        Rule::DropBound => has(": Drop") + has("+ Drop"),
        Rule::SizedTrait => lines(sources, &|line| is_trait(line) && !line.contains(": Sized")),
        Rule::Formatter => 2 * has("Formatter<W>"),
        Rule::ErrorDerive => 2 * has("thiserror::Error") + starts(&["#[error("]),
        Rule::DerivedWhere => 2 * starts(&["#[derive_where("]) - starts(&["#[derive_where(skip"]),
        Rule::Main => starts(&["fn main("]),
        Rule::Prelude => sources.len(),
        Rule::CratePath => paths(&["crate".to_string()], sources, taken),
        Rule::StdPath => paths(&["std".to_string()], sources, taken),
        Rule::LibraryPath => paths(&libraries(), sources, taken),
        Rule::Load => has("from_le_bytes(["),
        Rule::AllocatedCall => has(".to_vec(") + has(".collect("),
        Rule::DocExample => {
            let is_example = |line: &&str| line.starts_with("/// ```rust") || line.starts_with("//! ```rust");
            all_lines(sources).filter(is_example).count()
        }
        _ => searched_for_callers(rule, sources),
    }
}

/// The same, of the rules for what callers in Rust get. A check that finds no call, or several, fails each test.
fn searched_for_callers(rule: Rule, sources: &[Source]) -> usize {
    let checks = CHECKS.iter().flat_map(|(_, _, checks)| *checks);
    match rule {
        Rule::HandleField => {
            let handles: Vec<(&str, &str)> = HANDLES.iter().map(|(library, file, _)| (*library, *file)).collect();
            let is_field = |line: &str| line.starts_with("pub ") && line.contains(": ") && line.ends_with(',');
            lines(&files_at(sources, &handles), &is_field)
        }
        Rule::SeenField => SEEN.len(),
        Rule::RawCall => {
            message_calls(sources)
                .filter(|name| !MESSAGE_CALLS.contains(name))
                .count()
                + RAW_CALLS.len()
        }
        Rule::Check => checks.filter(|(_, line, _)| !line.is_empty()).count(),
        Rule::CheckDoc => checks.filter(|(_, _, told)| !told.is_empty()).count(),
        _ => {
            let cases: Vec<(&str, &str)> = CASES.iter().map(|(library, file, _)| (*library, *file)).collect();
            lines(&files_at(sources, &cases), &|line| line.contains("unreachable!()"))
        }
    }
}

/// The sources at these places.
fn files_at(sources: &[Source], places: &[(&str, &str)]) -> Vec<Source> {
    let is_there = |source: &&Source| places.contains(&(source.library.as_str(), source.file.as_str()));
    sources.iter().filter(is_there).cloned().collect()
}

/// The names of the public calls on messages that are built.
fn message_calls(sources: &[Source]) -> impl Iterator<Item = &str> {
    let files = sources.iter().filter(|source| source.library == MESSAGE.0);
    files.flat_map(|source| {
        let mut is_in = false;
        source.text.lines().filter_map(move |line| {
            if line.starts_with("impl") {
                is_in = line == "impl Arena {";
            }
            let name = line.strip_prefix("    pub fn ").filter(|_| is_in)?;
            name.split(['(', '<']).next()
        })
    })
}

#[test]
fn the_calls_on_a_message_are_there() {
    let sources = sources();
    let mut names: Vec<&str> = message_calls(&sources)
        .filter(|name| MESSAGE_CALLS.contains(name))
        .collect();
    names.sort_unstable();
    assert_eq!(names, MESSAGE_CALLS);
}

/// The lines of parts that only the prover reads. What stands within a model is taken with it.
fn ghost_lines(rule: Rule, sources: &[Source], taken: &[(Rule, String)]) -> usize {
    let is_in = |line: &str| match rule {
        Rule::GhostUse => line.starts_with("ghost use "),
        Rule::GhostMember => {
            let member = line.strip_prefix("pub ").unwrap_or(line);
            member.starts_with("ghost ") && !member.starts_with("ghost use ")
        }
        Rule::Clause => starts_with(line, &["requires ", "ensures ", "requires* ", "ensures* "]),
        Rule::Tactic => starts_with(line, &["#[tactic(", "#![tactic(", "#[cycle("]),
        _ => starts_with(
            line,
            &["impl Model for ", "impl<'s> Model for ", "use std::marker::Model;"],
        ),
    };
    let within = inside(Rule::Model, taken, &|line| usize::from(is_in(line)));
    lines(sources, &is_in) - if rule == Rule::Model { 0 } else { within }
}

fn starts_with(line: &str, heads: &[&str]) -> bool {
    heads.iter().any(|head| line.starts_with(head))
}

/// How often paths begin with these names, but for those in tactics and models.
fn paths(names: &[String], sources: &[Source], taken: &[(Rule, String)]) -> usize {
    let search = |line: &str| {
        names
            .iter()
            .map(|name| line.matches(&format!("{name}::")).count())
            .sum()
    };
    let all: usize = code_lines(sources).map(search).sum();
    all - inside(Rule::Tactic, taken, &search) - inside(Rule::Model, taken, &search)
}

/// How many lines that are no comments are so.
fn lines(sources: &[Source], is_in: &dyn Fn(&str) -> bool) -> usize {
    code_lines(sources).filter(|line| is_in(line)).count()
}

fn is_trait(line: &str) -> bool {
    ["pub trait ", "pub(crate) trait ", "trait "]
        .iter()
        .any(|head| line.starts_with(head))
}

/// All lines, without the blanks around them.
fn all_lines(sources: &[Source]) -> impl Iterator<Item = &str> {
    sources.iter().flat_map(|source| source.text.lines()).map(str::trim)
}

/// The lines that are no comments.
fn code_lines(sources: &[Source]) -> impl Iterator<Item = &str> {
    all_lines(sources).filter(|line| !line.starts_with("//"))
}

/// What a search finds in the lines that a rule takes.
fn inside(rule: Rule, taken: &[(Rule, String)], search: &dyn Fn(&str) -> usize) -> usize {
    let texts = taken.iter().filter(|(one, _)| *one == rule).map(|(_, text)| text);
    texts
        .flat_map(|text| text.lines())
        .map(|line| search(line.trim()))
        .sum()
}

#[test]
fn examples_translate_as_they_say() {
    let libraries = ["capnp_wire".to_string(), "capnp_device".to_string()];
    let mut wrong = Vec::new();
    for (number, told) in RULES.iter().enumerate() {
        assert_eq!(told.rule as usize, number, "{} stands elsewhere", told.name);
        assert_eq!(told.rule.told().name, told.name);
        let (library, file) = told.place;
        let place = Place {
            library,
            file,
            libraries: &libraries,
        };
        let translation = match Translation::new(&place, told.before) {
            Ok(translation) => translation,
            Err(lines) => {
                wrong.push(format!("{}: {lines:?}", told.name));
                continue;
            }
        };
        // what stands at the head of each file is an example of its own
        let is_told = |rule: Option<Rule>| rule != Some(Rule::Prelude) || told.rule == Rule::Prelude;
        let pieces = translation.pieces();
        let after: String = pieces
            .iter()
            .filter(|piece| is_told(piece.rule))
            .map(|piece| piece.after)
            .collect();
        if after != told.after || !pieces.iter().any(|piece| piece.rule == Some(told.rule)) {
            wrong.push(format!("{}: {after:?}", told.name));
        }
    }
    assert!(wrong.is_empty(), "{}", wrong.join("\n"));
}

/// Texts that no rule knows, each with the line and the words that are told.
const UNKNOWN: [(&str, &str); 71] = [
    // attributes, macros and proofs
    ("fn f() {}\n#[must_use]\nfn g() {}", "2: #[must_use], an attribute"),
    ("#![no_std]\nfn f() {}", "1: #[[], an attribute"),
    ("#[cfg(unix)]\nfn f() {}", "1: #[cfg], an attribute"),
    (
        "#[unsafe(export_name = \"g\")]\nfn f() {}",
        "1: #[unsafe], an attribute",
    ),
    ("fn f() {\n    println!(\"a\");\n}", "2: println!, a macro"),
    ("macro_rules! m { () => {} }", "1: macro_rules!, a macro"),
    ("fn f() {\n    prove!(1 < 2);\n}", "2: a prove! within code"),
    ("const N: () = prove!(1 < 2);", "1: a prove! within code"),
    // ghost parts
    ("fn f() {}\nghost x;", "2: ghost x;"),
    ("struct S {\n    ghost a { b },\n}", "2: ghost a { b },"),
    ("struct S {\n    ghost a: { b }\n}", "2: ghost a: { b }"),
    ("struct S {\n    ghost a: { b,\n}", "2: ghost a: { b,"),
    ("struct S { pub(crate) ghost a: { b }, c: u8 }", "1: ghost a: { b },"),
    (
        "impl T for S {\n    #[tactic(auto)]\n    ghost a = { b };\n}",
        "3: ghost a = { b };",
    ),
    ("fn f(ghost a: { b },) {}", "1: ghost a: { b },"),
    ("ghost use a", "1: ghost use a"),
    ("ghost  use a;", "1: ghost  use a;"),
    ("ghost use a\nuse b;", "1: ghost use a"),
    ("ghost use a.{b};\nghost use c d;", "2: ghost use c d;"),
    ("#[tactic(using(\"]\"))]\nfn f() {}", "1: #[tactic], an attribute"),
    // clauses
    (
        "fn f()\n    ensures same\n{ }",
        "2: a clause that stands at no function",
    ),
    ("fn f()\n    ensures same\n;", "2: ensures same"),
    ("fn f()\n    ensures same { a\n", "2: ensures same { a"),
    ("fn f()\n    ensures { a \"}\" }\n{}", "2: ensures { a \"}\" }"),
    ("fn f()\n    ensures { a -- b }\n{}", "2: ensures { a -- b }"),
    (
        "fn f() {\n    requires { a }\n}",
        "2: a clause that stands at no function",
    ),
    (
        "fn f(a: u8,\n    requires { a }\n) {}",
        "2: a clause that stands at no function",
    ),
    ("requires { a }", "1: a clause that stands at no function"),
    (
        "fn f() {\n    let g = |x: u8| -> u8 requires { a } { x };\n}",
        "2: a clause that stands at no function",
    ),
    // models
    (
        "impl Model for S {\n    fn f() {}\n}",
        "2: code within an impl of Model",
    ),
    ("use std::marker::{Model};", "1: Model where no import"),
    ("fn f<T: Model>() {}", "1: Model where no import"),
    ("impl Model for S;", "1: impl Model for .."),
    ("#[inline]\nimpl Model for S {\n}", "2: a model behind"),
    // bounds
    (
        "impl Drop for S {\n    fn drop(self) {}\n}",
        "1: Drop where no bound is",
    ),
    ("fn f() {\n    Drop;\n}", "2: Drop where no bound is"),
    ("use std::ops::Drop;", "1: a path of Drop"),
    ("fn f<T: ops::Drop>() {}", "1: a path of Drop"),
    ("trait T where Self: Copy { }", "1: a trait whose head is not known"),
    ("trait T<F: Fn() -> u8> { }", "1: a trait whose head is not known"),
    // derives
    (
        "#[derive(thiserror::Error)]\nstruct S(u8);",
        "1: thiserror::Error of no plain",
    ),
    (
        "#[derive(thiserror::Error)]\nstruct S;\nstruct T { a: u8 }",
        "1: thiserror::Error of no plain",
    ),
    (
        "#[derive(thiserror::Error)]\nenum E<T> { A(T) }",
        "1: thiserror::Error of no plain",
    ),
    (
        "#[derive(thiserror::Error)]\nstruct S { a: u8 }",
        "1: a struct's error without one text",
    ),
    (
        "#[derive(thiserror::Error)]\nenum E {\n    #[error(\"{}\", 1)]\n    A,\n}",
        "3: an error of more than one text",
    ),
    (
        "#[derive(thiserror::Error)]\nenum E {\n    #[error(transparent)]\n    A(B),\n}",
        "3: an error of more than one",
    ),
    (
        "#[derive(thiserror::Error)]\nenum E {\n    #[error(\"a\")]\n    #[cold]\n    A,\n}",
        "4: what stands behind #[error(..)]",
    ),
    (
        "#[derive(thiserror::Error)]\nenum E {\n    #[error(\"{f}\")]\n    A { f: u8 },\n}",
        "4: an error's field f",
    ),
    (
        "#[derive(thiserror::Error)]\n#[error(\"a\")]\nstruct S { source: T }",
        "3: an error's field source",
    ),
    (
        "#[derive_where(Debug)]\nenum E { A }",
        "1: derive_where of no struct with fields",
    ),
    (
        "#[derive_where(Debug)]\nstruct S(u8);",
        "1: derive_where of no struct with fields",
    ),
    (
        "#[derive_where(Debug; T)]\nstruct S { a: u8 }",
        "1: derive_where(Debug..)",
    ),
    ("#[derive_where(Ord)]\nstruct S { a: u8 }", "1: derive_where(Ord..)"),
    (
        "#[derive_where(Debug)]\nstruct S {\n    #[derive_where(skip(Debug))]\n    a: u8,\n}",
        "3: a field's derive_where",
    ),
    // names
    ("use std;", "1: the name std where no path begins"),
    ("fn f(std: u8) {}", "1: the name std where no path begins"),
    ("use ::std::mem;", "1: the name std where no path begins"),
    (
        "fn f() -> u8 {\n    core::mem::take()\n}",
        "2: the name core where no path begins",
    ),
    ("mod capnp_device;", "1: the name capnp_device where no path begins"),
    ("use crate as c;", "1: the name crate where no path begins"),
    ("mod m {\n    fn f() {}\n}", "2: more than constants in a module"),
    (
        "fn f(rt: HostRuntime) {}",
        "1: a runtime by value, of what is no program",
    ),
    // characters and brackets
    ("fn f() {\n    let µ = 1;\n}", "2: µ = 1;"),
    ("fn f() {} /* a */", "1: /* a */"),
    ("fn f(r#type: u8) {}", "1: r#type: u8) {}"),
    ("fn f() {\n    g('ab');\n}", "2: ');"),
    ("fn f() {\n    g(\"a);\n}", "2: \"a);"),
    ("fn f() {\n    g(r#\"a\");\n}", "2: r#\"a\");"),
    ("fn f() {\n    g('\\", "2: '\\"),
    ("fn f() {\n    g(1];\n}", "2: ];"),
    ("fn f() {\n    if a {\n}", "1: {"),
];

/// Texts that could be read wrongly, each with what stays of it.
const KNOWN: [(&str, &str); 12] = [
    (
        "const C: [char; 4] = ['{', '}', '\\'', '\\\\'];",
        "const C: [char; 4] = ['{', '}', '\\'', '\\\\'];",
    ),
    (
        "const B: [u8; 2] = [b'{', b'\\''];",
        "const B: [u8; 2] = [b'{', b'\\''];",
    ),
    (
        "const S: &str = \"ghost x; } std::mem \\\" rt;\";",
        "const S: &str = \"ghost x; } std::mem \\\" rt;\";",
    ),
    (
        "const R: &str = r#\"a \"std::b\" {\"#;",
        "const R: &str = r#\"a \"std::b\" {\"#;",
    ),
    (
        "// ghost x; std::mem {\nfn f<'a>(a: &'a u8) {}",
        "// ghost x; std::mem {\nfn f<'a>(a: &'a u8) {}",
    ),
    (
        "/// `requires` of std::mem\nfn f() {}",
        "/// `requires` of std::mem\nfn f() {}",
    ),
    ("pub(crate) fn f() {}", "pub(crate) fn f() {}"),
    (
        "pub(in crate::bytes) fn f() {}",
        "pub(in crate::capnp_wire::bytes) fn f() {}",
    ),
    (
        "use {std::mem, crate::bytes};",
        "use {crate::rattle_std::mem, crate::capnp_wire::bytes};",
    ),
    (
        "fn f() { for i in 0..std::mem::size_of::<u8>() {} }",
        "fn f() { for i in 0..crate::rattle_std::mem::size_of::<u8>() {} }",
    ),
    (
        "fn f() { if !(a) && b != c && !d {} }",
        "fn f() { if !(a) && b != c && !d {} }",
    ),
    (
        "fn f() { a.repeat(g(1, 2)); vec![rt; 5]; }",
        "fn f() { a.repeat(g(1, 2)); vec![rt; 5]; }",
    ),
];

#[test]
fn what_could_be_read_wrongly_is_not() {
    let libraries = ["capnp_wire".to_string(), "capnp_device".to_string()];
    let place = Place {
        library: "capnp_wire",
        file: "lib.rt",
        libraries: &libraries,
    };
    for (text, expected) in KNOWN {
        let translation = Translation::new(&place, text).unwrap_or_else(|lines| panic!("{text}: {lines:?}"));
        let pieces = translation.pieces();
        let own = pieces.iter().filter(|piece| piece.rule != Some(Rule::Prelude));
        assert_eq!(own.map(|piece| piece.after).collect::<String>(), expected);
    }
}

#[test]
fn what_is_not_known_is_refused() {
    let libraries = ["capnp_wire".to_string(), "capnp_device".to_string()];
    let place = Place {
        library: "capnp_wire",
        file: "lib.rt",
        libraries: &libraries,
    };
    let mut wrong = Vec::new();
    for (text, expected) in UNKNOWN {
        match Translation::new(&place, text) {
            Ok(translation) => wrong.push(format!("{text:?} becomes {:?}", translation.rust())),
            Err(lines) if lines.iter().any(|line| line.starts_with(expected)) => {}
            Err(lines) => wrong.push(format!("{text:?} is refused with {lines:?}")),
        }
    }
    assert!(wrong.is_empty(), "{}", wrong.join("\n"));
}

#[test]
fn a_refusal_names_file_and_line() {
    // outside the repository, whose gate takes every list of crates for its own
    let folder = std::env::temp_dir().join(format!("riftcalico-refused-{}", std::process::id()));
    let source = folder.join("crates/one/src");
    fs::create_dir_all(&source).expect("a folder");
    let file = source.join("lib.rt");
    let write = |path: &Path, text: &str| fs::write(path, text).expect("a file");
    write(&folder.join("crates.txt"), "# The crates\n\none: thiserror\n");
    write(&file, "fn f() {}\n\n#[must_use]\nfn g() {\n    println!(\"a\");\n}\n");
    let workspace = Workspace::read(&folder).expect("crates.txt");
    let refused = workspace
        .write(&workspace.crates[0], &folder.join("out"))
        .expect_err("a refusal")
        .to_string();
    let path = file.display();
    let lines: Vec<&str> = refused.lines().collect();
    assert_eq!(lines.len(), 2, "{refused}");
    assert!(
        lines.contains(&format!("{path}:3: #[must_use], an attribute that is not known").as_str()),
        "{refused}"
    );
    assert!(
        lines.contains(&format!("{path}:5: println!, a macro that is not known").as_str()),
        "{refused}"
    );
    for list in ["one thiserror", "one: two", "one shared: ", "one:\none:", ": one"] {
        write(&folder.join("crates.txt"), list);
        let refused = Workspace::read(&folder)
            .err()
            .map_or(String::new(), |error| error.to_string());
        assert!(refused.contains("crates.txt:"), "{list:?}: {refused}");
    }
    fs::remove_dir_all(&folder).expect("the folder was made above");
}

/// Words that Rattle alone has, or that only contracts have.
const RATTLE: [&str; 10] = [
    "ghost",
    "requires",
    "ensures",
    "tactic",
    "cycle",
    "prove",
    "Model",
    "derive_where",
    "thiserror",
    "Drop",
];

#[test]
fn nothing_of_rattle_is_left() {
    let libraries = libraries();
    for source in sources() {
        let rust = translated(&source, &libraries).rust();
        let path = source.path.display();
        let words = Words::new(&rust).unwrap_or_else(|unknown| panic!("{path}: {}", unknown.what));
        for index in 0..words.list.len() {
            let kind = words.list[index].kind;
            let is_ghost = matches!(kind, Kind::GhostUse | Kind::GhostMember | Kind::Clause | Kind::Tactic);
            let is_left = kind == Kind::Name && RATTLE.contains(&words.at(index));
            assert!(!is_ghost && !is_left, "{path}: {} is left", words.at(index));
            if words.reads(index, &["#", "[", "test", "]"]) {
                let open = (index..words.list.len())
                    .find(|at| words.at(*at) == "(")
                    .expect("parameters");
                assert!(words.reads(open, &["(", ")"]), "{path}: a test has parameters");
            }
        }
    }
}

#[test]
fn the_readme_has_each_rule() {
    let readme = fs::read_to_string(root().join("rust/README.md")).expect("rust/README.md");
    let row = |told: &translate::Told| format!("|{}|{}|", told.name, told.reason);
    let rows: Vec<String> = RULES.iter().map(row).collect();
    let table = rows.join("\n");
    assert!(
        readme.contains(&table),
        "the table of rules in rust/README.md should be:\n{table}"
    );
}

/// Calls of Rust's std that take memory, and end the program where there is none.
const TAKING: [&str; 22] = [
    "clone",
    "cloned",
    "collect",
    "concat",
    "join",
    "repeat",
    "replace",
    "sort",
    "sort_by",
    "sort_by_key",
    "sort_by_cached_key",
    "to_ascii_lowercase",
    "to_ascii_uppercase",
    "to_lowercase",
    "to_owned",
    "to_string",
    "to_uppercase",
    "to_vec",
    "into_boxed_slice",
    "into_string",
    "replacen",
    "into_vec",
];

/// Whether a word ends the path of an import. A function of the source may have a name of Rust's std; its calls are seen.
fn is_import(words: &Words, index: usize) -> bool {
    let mut place = words.before(index);
    while let Some(at) = place {
        if words.at(at) != ":" && !words.is(at, Kind::Name) {
            return false;
        }
        if words.at(at) == "use" {
            return true;
        }
        place = words.before(at);
    }
    false
}

/// What is translated calls nothing of Rust's std that takes memory: such a call is given the allocator, or answers a
/// `Result`, as those of `rust/std` alone do. No type is named that would take memory as it is made.
#[test]
fn no_call_takes_memory_unasked() {
    let libraries = libraries();
    for source in sources() {
        let rust = translated(&source, &libraries).rust();
        let path = source.path.display();
        let words = Words::new(&rust).unwrap_or_else(|unknown| panic!("{path}: {}", unknown.what));
        for index in 0..words.list.len() {
            let open = words.after(index);
            let is_boxed = words.is(index, Kind::Name) && matches!(words.at(index), "Box" | "Rc" | "Arc" | "BTreeMap");
            assert!(!is_boxed, "{path}: {}", words.at(index));
            if !matches!(words.text_before(index), "." | ":") || !TAKING.contains(&words.at(index)) {
                continue;
            }
            if is_import(&words, index) {
                continue;
            }
            let is_generic = words.reads(open, &[":", ":", "<"]);
            let close = words.closing(open);
            let is_given = words.at(words.after(open)) == "alloc";
            let is_result = close.is_some_and(|close| words.at(words.after(close)) == "?");
            assert!(
                !is_generic && (is_given || is_result),
                "{path}: .{}(..)",
                words.at(index)
            );
        }
    }
}
