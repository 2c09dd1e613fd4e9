//! Work spread over the machine's processors.

use std::collections::BTreeMap;
use std::sync::atomic::{AtomicU64, Ordering};
use std::sync::Mutex;
use std::thread;

pub fn processors() -> usize {
    thread::available_parallelism().map_or(1, usize::from)
}

/// What the work gives for each turn, in their order, or the first failure. After a failure no further turn begins.
pub fn spread<T, E>(turns: u64, workers: usize, work: impl Fn(u64) -> Result<T, E> + Sync) -> Result<Vec<T>, E>
where
    T: Send,
    E: Send,
{
    let next = AtomicU64::new(0);
    let given = Mutex::new(BTreeMap::new());
    thread::scope(|scope| {
        for _ in 0..workers {
            scope.spawn(|| loop {
                let turn = next.fetch_add(1, Ordering::Relaxed);
                if turn >= turns {
                    break;
                }
                let result = work(turn);
                if result.is_err() {
                    next.store(turns, Ordering::Relaxed);
                }
                given.lock().expect("no worker panics here").insert(turn, result);
            });
        }
    });
    given.into_inner().expect("no worker panics here").into_values().collect()
}
