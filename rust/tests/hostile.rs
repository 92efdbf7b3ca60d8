//! Damaged messages, sets and requests: each call answers a value or a refusal, and none panics.
//!
//! `cargo test` runs this with debug assertions and overflow checks, so no sum wraps and no index is out of range.
//! What is answered is held to what else is answered of the same bytes: a message that is copied has the text that it
//! had before, and a set that is written is read back.
#![forbid(unsafe_code)]

mod common;

#[path = "hostile/messages.rs"]
mod messages;
#[path = "hostile/reading.rs"]
mod reading;

use common::bases::Examples;
use common::bounds::is_within;
use common::damage::damaged;
use common::random::Random;
use common::threads::on_all_processors;
use messages::{Calls, Came};
use riftcalico::schema::SchemaSet;
use riftcalico::Result;
use std::panic::{catch_unwind, AssertUnwindSafe};

/// How many damaged messages are read, printed and patched.
const MESSAGES: u64 = 200_000;

/// How many damaged sets, and how many damaged requests, are read.
const SETS: u64 = 20_000;
const REQUESTS: u64 = 10_000;

/// How many steps the walk of a set or request may take, to be read.
const STEPS: usize = 20_000;

/// Does a piece of work by its seed. A panic in it is told with the seed.
fn by_seed<T>(what: &str, seed: u64, work: impl FnOnce() -> T) -> T {
    catch_unwind(AssertUnwindSafe(work)).unwrap_or_else(|_| panic!("the {what} of seed {seed}: see above"))
}

#[test]
fn damaged_messages_are_answered() {
    let examples = Examples::read();
    let came = on_all_processors(MESSAGES, |seed| {
        by_seed("message", seed, || messages::try_one(&examples, seed))
    });
    let count = |wanted: Came| came.iter().filter(|one| one.0 == wanted).count();
    let (printed, copied) = (count(Came::Printed), count(Came::Copied));
    let (refused, passed_over) = (count(Came::Refused), count(Came::TooMuch));
    let calls = came.iter().fold(Calls::default(), |sum, one| sum.plus(one.1));
    eprintln!("{copied} messages were printed and copied, {printed} printed alone, {refused} refused");
    eprintln!("{passed_over} messages have too much to read, and were not read whole");
    eprintln!("{} calls were answered, {} refused", calls.answered, calls.refused);
    assert!(
        copied > 20_000 && printed > 1_000 && refused > 20_000,
        "the damage is too slight or too heavy"
    );
    assert!(passed_over < 20_000, "too many messages are passed over");
    assert!(
        calls.answered > 10_000 && calls.refused > 1_000,
        "the calls are too easy or too hard"
    );
}

/// Reads a set by a reading of bytes, where that isn't too much; a set is written and read back alike.
fn try_set(bytes: &[u8], read: fn(&[u8]) -> Result<SchemaSet>) -> Option<bool> {
    if !is_within(bytes, STEPS) {
        return None;
    }
    let Ok(schemas) = read(bytes) else {
        return Some(false);
    };
    let written = schemas.to_message().expect("a set that was read is short");
    let again = SchemaSet::from_message(&written).expect("a set that was written is read back");
    assert!(again.nodes() == schemas.nodes() && again.brands() == schemas.brands() && again.enums() == schemas.enums());
    Some(true)
}

/// Tells how many sets were read, which has to be neither nearly all nor nearly none.
fn tell_sets(what: &str, came: &[Option<bool>]) {
    let count = |wanted: Option<bool>| came.iter().filter(|one| **one == wanted).count();
    let (read, refused) = (count(Some(true)), count(Some(false)));
    eprintln!(
        "{read} {what} were read, {refused} refused, {} passed over",
        count(None)
    );
    assert!(
        read > came.len() / 20 && refused > came.len() / 20,
        "the damage is too slight or too heavy"
    );
}

#[test]
fn damaged_sets_are_answered() {
    let examples = Examples::read();
    let came = on_all_processors(SETS, |seed| {
        by_seed("set", seed, || {
            let mut random = Random::new(3, seed);
            let place = random.below(examples.set_messages.len());
            try_set(
                &damaged(&mut random, &examples.set_messages[place]),
                SchemaSet::from_message,
            )
        })
    });
    tell_sets("sets", &came);
}

#[test]
fn damaged_requests_are_answered() {
    let examples = Examples::read();
    let came = on_all_processors(REQUESTS, |seed| {
        by_seed("request", seed, || {
            let mut random = Random::new(4, seed);
            let place = random.below(examples.requests.len());
            try_set(
                &damaged(&mut random, &examples.requests[place]),
                SchemaSet::from_request,
            )
        })
    });
    tell_sets("requests", &came);
}
