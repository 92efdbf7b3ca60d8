//! JSON texts that `from-json` makes messages of, and how a want of room is told.

use std::io::{Read, Write};
use std::process::{Command, Output, Stdio};

const RIFTCALICO: &str = env!("CARGO_BIN_EXE_riftcalico");

/// A message whose root is a `Flat` with this number.
fn flat(number: u8) -> Vec<u8> {
    let mut bytes = vec![0; 24];
    bytes[4] = 2;
    bytes[12] = 1;
    bytes[16] = number;
    bytes
}

/// A message is written as soon as the line of its text is there.
#[test]
fn texts_are_answered_as_they_come() {
    let mut child = Command::new(RIFTCALICO)
        .args(["from-json", "--each", "Flat"])
        .stdin(Stdio::piped())
        .stdout(Stdio::piped())
        .spawn()
        .expect("the program starts");
    let mut input = child.stdin.take().expect("there is an input");
    let mut output = child.stdout.take().expect("there is an output");
    for number in 1..=3 {
        input.write_all(format!("\n{{\"a\":{number}}}\n").as_bytes()).expect("the text is written");
        let mut message = [0; 24];
        output.read_exact(&mut message).expect("a message is read");
        assert_eq!(message[..], flat(number));
    }
    drop(input);
    let mut rest = Vec::new();
    output.read_to_end(&mut rest).expect("the output is read");
    assert!(rest.is_empty());
    assert!(child.wait().expect("the program ends").success());
}

/// What the program comes to with so much memory, in KB.
fn within(memory: u32, words: &str) -> Output {
    Command::new("sh")
        .args(["-c", &format!("ulimit -v {memory}; exec \"$0\" {words}"), RIFTCALICO])
        .stdin(Stdio::null())
        .output()
        .expect("the program starts")
}

/// Asserts that it is refused, and what is told.
fn is_refused(output: &Output, told: &str) {
    assert_eq!(String::from_utf8_lossy(&output.stderr), told);
    assert_eq!(output.status.code(), Some(1));
    assert!(output.stdout.is_empty());
}

/// Where there is memory for as much as the limit allows, the limit is told; else the want of memory.
#[test]
fn a_limit_is_told_from_a_want_of_memory() {
    let call = "1: initn bytes 500000000: refused: ";
    is_refused(&within(200_000, "new Lists 'initn bytes 500000000'"), &format!("{call}1 OutOfMemory\n"));
    is_refused(&within(200_000, "new --limit 10000 Lists 'initn bytes 500000000'"), &format!("{call}11 TooLarge\n"));
}
