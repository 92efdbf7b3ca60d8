//! Work on all processors.

use std::sync::atomic::{AtomicU64, Ordering};
use std::sync::Mutex;
use std::thread;

/// Does a piece of work for each number below a count, on all processors, and answers what came of them, in no order.
pub fn on_all_processors<T: Send>(count: u64, work: impl Fn(u64) -> T + Sync) -> Vec<T> {
    let next = AtomicU64::new(0);
    let done = Mutex::new(Vec::new());
    let processors = thread::available_parallelism().map_or(1, usize::from);
    thread::scope(|scope| {
        for _ in 0..processors {
            scope.spawn(|| {
                let mut own = Vec::new();
                loop {
                    let number = next.fetch_add(1, Ordering::Relaxed);
                    if number >= count {
                        break;
                    }
                    own.push(work(number));
                }
                done.lock()
                    .expect("no thread panics while it holds the list")
                    .extend(own);
            });
        }
    });
    done.into_inner().expect("no thread panics while it holds the list")
}
