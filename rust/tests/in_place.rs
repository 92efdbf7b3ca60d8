//! A file that `patch --in-place` replaces, or leaves as it was.

use std::fs;
use std::path::{Path, PathBuf};
use std::process::{Command, Output, Stdio};

const RIFTCALICO: &str = env!("CARGO_BIN_EXE_riftcalico");

/// A message whose root is a `Flat` with this number.
fn flat(number: u8) -> Vec<u8> {
    let mut bytes = vec![0; 24];
    bytes[4] = 2;
    bytes[12] = 1;
    bytes[16] = number;
    bytes
}

/// A folder of a test's own, empty.
fn folder(name: &str) -> PathBuf {
    let folder = Path::new(env!("CARGO_TARGET_TMPDIR")).join(name);
    let _ = fs::remove_dir_all(&folder);
    fs::create_dir_all(&folder).expect("the folder is made");
    folder
}

/// What `patch` with these words comes to in a folder.
fn patch(folder: &Path, words: &[&str]) -> Output {
    Command::new(RIFTCALICO)
        .arg("patch")
        .args(words)
        .current_dir(folder)
        .stdin(Stdio::null())
        .output()
        .expect("the program starts")
}

/// Asserts what a run came to, that it wrote nothing on standard output, and what the folder has.
fn came_to(output: &Output, status: i32, told: &str, folder: &Path, files: &[(&str, &[u8])]) {
    assert_eq!(String::from_utf8_lossy(&output.stderr), told);
    assert_eq!(output.status.code(), Some(status));
    assert!(output.stdout.is_empty());
    let count = fs::read_dir(folder).expect("the folder is read").count();
    assert_eq!(count, files.len());
    for (name, bytes) in files {
        assert_eq!(&fs::read(folder.join(name)).expect("the file is read"), bytes, "{name}");
    }
}

#[test]
fn a_message_takes_the_place_of_the_old() {
    let folder = folder("in_place_one");
    fs::write(folder.join("m"), flat(5)).expect("the file is written");
    let output = patch(&folder, &["--in-place", "m", "Flat", "get a", "set a 9"]);
    came_to(&output, 0, "1: get a = 5\n", &folder, &[("m", &flat(9))]);
}

#[test]
fn all_messages_do() {
    let folder = folder("in_place_each");
    fs::write(folder.join("m"), [flat(5), flat(6)].concat()).expect("the file is written");
    let output = patch(&folder, &["--each", "--in-place", "m", "Flat", "set a 9"]);
    came_to(&output, 0, "", &folder, &[("m", &[flat(9), flat(9)].concat())]);
}

#[cfg(unix)]
#[test]
fn permissions_are_kept() {
    use std::os::unix::fs::PermissionsExt;
    let folder = folder("in_place_permissions");
    let file = folder.join("m");
    for mode in [0o600, 0o640, 0o777] {
        fs::write(&file, flat(5)).expect("the file is written");
        fs::set_permissions(&file, fs::Permissions::from_mode(mode)).expect("they are set");
        let output = patch(&folder, &["--in-place", "m", "Flat", "set a 9"]);
        came_to(&output, 0, "", &folder, &[("m", &flat(9))]);
        let kept = fs::metadata(&file).expect("the file is there").permissions().mode();
        assert_eq!(kept & 0o7777, mode);
    }
}

#[test]
fn what_is_refused_leaves_the_file() {
    let folder = folder("in_place_refused");
    let two = [flat(5), vec![0; 8]].concat();
    let rows: [(&[u8], &[&str], i32, &str); 5] = [
        (
            &flat(5),
            &["Flat", "set b 9"],
            1,
            "1: set b 9: refused: 20 FieldNotFound in Flat\n",
        ),
        (
            &flat(5),
            &["Flat", "set a x"],
            2,
            "1: set a x: can't be read at 6; wanted: 0 to 65535\n",
        ),
        (
            &flat(5),
            &["Flatt", "set a 9"],
            1,
            "refused: 64 NameNotFound (Flatt); near: Flat; see riftcalico structs\n",
        ),
        (&[], &["Flat", "set a 9"], 1, "refused: 2 Truncated (m)\n"),
        (
            &two,
            &["--each", "Flat", "get a", "initn a 2"],
            1,
            "message 1: 1: get a = 5\nmessage 1: 2: initn a 2: refused: 26 InitnIsOnlyValidForListTextOrDataFields\n",
        ),
    ];
    for (bytes, words, status, told) in rows {
        fs::write(folder.join("m"), bytes).expect("the file is written");
        let output = patch(&folder, &[&["--in-place", "m"], words].concat());
        came_to(&output, status, told, &folder, &[("m", bytes)]);
    }
}

#[test]
fn a_new_file_that_is_there_is_left() {
    let folder = folder("in_place_there");
    fs::write(folder.join("m"), flat(5)).expect("the file is written");
    fs::write(folder.join("m.riftcalico-new"), "mine").expect("the file is written");
    let output = patch(&folder, &["--in-place", "m", "Flat", "set a 9"]);
    let files: [(&str, &[u8]); 2] = [("m", &flat(5)), ("m.riftcalico-new", b"mine")];
    came_to(&output, 1, "refused: 13 WriteFailed (m)\n", &folder, &files);
}

#[test]
fn a_file_that_is_not_there_is_not_made() {
    let folder = folder("in_place_missing");
    let output = patch(&folder, &["--in-place", "m", "Flat", "set a 9"]);
    came_to(&output, 1, "refused: 12 ReadFailed (m)\n", &folder, &[]);
}
