//! The system's allocator, but that it may refuse a request of a test, and counts the bytes that are held.
#![allow(
    unsafe_code,
    reason = "an allocator can't be written without; each call is handed on as it came"
)]

use std::alloc::{GlobalAlloc, Layout, System};
use std::cell::Cell;
use std::ptr::null_mut;

thread_local! {
    /// The bytes that this thread holds beyond those that it had, and the most that it held so. It is read by an
    /// allocator, so it must not take memory itself.
    static HELD: Cell<(isize, isize)> = const { Cell::new((0, 0)) };
}

/// Counts bytes that are taken, and others that are given back then.
fn count(taken: usize, given: usize) {
    let change = |held: &Cell<(isize, isize)>| {
        let (now, most) = held.get();
        let now = now.saturating_add_unsigned(taken);
        held.set((now.saturating_sub_unsigned(given), most.max(now)));
    };
    // a thread that ends has nothing to count any more
    let _ = HELD.try_with(change);
}

/// Does something. Answers what it answers, and the most bytes that this thread held meanwhile beyond those that it had.
pub fn most_held<T>(act: impl FnOnce() -> T) -> (T, isize) {
    HELD.set((0, 0));
    let answer = act();
    (answer, HELD.get().1)
}

/// The requests for memory of an act that have been made, and which of them is refused.
#[derive(Clone, Copy)]
struct Watch {
    made: u64,
    refused: u64,
}

thread_local! {
    /// What this thread's act is watched by. It is read by an allocator, so it must not take memory itself.
    static WATCHED: Cell<Option<Watch>> = const { Cell::new(None) };
}

/// Counts a request for memory, and answers whether it is the one to be refused.
fn is_refused() -> bool {
    let count = |watched: &Cell<Option<Watch>>| {
        let Some(watch) = watched.get() else {
            return false;
        };
        let made = watch.made + 1;
        watched.set(Some(Watch { made, ..watch }));
        // a panic takes memory to say what is wrong
        made == watch.refused && !std::thread::panicking()
    };
    WATCHED.try_with(count).unwrap_or(false)
}

/// Stops watching when it goes, also by a panic.
struct Watching;

impl Drop for Watching {
    fn drop(&mut self) {
        WATCHED.set(None);
    }
}

/// Does something with its request for memory of this number refused, from 1 on. Answers what it answers, and whether
/// it made so many requests.
pub fn with_refused<T>(number: u64, act: impl FnOnce() -> T) -> (T, bool) {
    WATCHED.set(Some(Watch {
        made: 0,
        refused: number,
    }));
    let watching = Watching;
    let answer = act();
    let made = WATCHED.get().map_or(0, |watch| watch.made);
    drop(watching);
    (answer, made >= number)
}

/// Does something again and again, with each of its requests for memory refused in turn, until none is. Hands each answer
/// on, with whether a request was refused. Answers how many requests there are.
///
/// What is done may only call the layer: Rust's own collections end the program where memory is refused. What it needs is
/// made before, and what it leaves is looked at in `see`.
pub fn refuse_each<S, T>(
    mut start: impl FnMut() -> S,
    act: impl Fn(&mut S) -> T,
    mut see: impl FnMut(S, T, bool),
) -> u64 {
    let mut number = 1;
    loop {
        let mut state = start();
        let (answer, is_refused) = with_refused(number, || act(&mut state));
        see(state, answer, is_refused);
        if !is_refused {
            return number - 1;
        }
        number += 1;
    }
}

struct Refusing;

#[global_allocator]
static REFUSING: Refusing = Refusing;

// SAFETY: the calls are those of the system's allocator, whose conditions are the caller's. A refusal is a null, which
// leaves an old block as it was.
unsafe impl GlobalAlloc for Refusing {
    unsafe fn alloc(&self, layout: Layout) -> *mut u8 {
        if is_refused() {
            return null_mut();
        }
        count(layout.size(), 0);
        // SAFETY: as above
        unsafe { System.alloc(layout) }
    }

    unsafe fn alloc_zeroed(&self, layout: Layout) -> *mut u8 {
        if is_refused() {
            return null_mut();
        }
        count(layout.size(), 0);
        // SAFETY: as above
        unsafe { System.alloc_zeroed(layout) }
    }

    unsafe fn realloc(&self, old: *mut u8, layout: Layout, size: usize) -> *mut u8 {
        if is_refused() {
            return null_mut();
        }
        // the old block is there until the new one is
        count(size, layout.size());
        // SAFETY: as above
        unsafe { System.realloc(old, layout, size) }
    }

    unsafe fn dealloc(&self, old: *mut u8, layout: Layout) {
        count(0, layout.size());
        // SAFETY: as above
        unsafe { System.dealloc(old, layout) }
    }
}
