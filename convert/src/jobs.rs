//! Elements in parallel: workers make results, which are taken in the order of the elements.

use std::collections::BTreeMap;
use std::sync::atomic::{AtomicUsize, Ordering};
use std::sync::mpsc::sync_channel;
use std::thread;

/// The stack of a worker: shapes may lie deep within one another.
const STACK: usize = 256 << 20;
/// How many elements a worker takes at a time.
const TAKEN: usize = 4;

/// Makes `count` results by `jobs` workers, and gives them to `take` in their order. `worker` makes a worker's own
/// function. Gives an error where no thread can be started.
pub fn in_order<T, W>(
    count: usize,
    jobs: usize,
    worker: impl Fn() -> W + Sync,
    mut take: impl FnMut(usize, T),
) -> std::io::Result<()>
where
    T: Send,
    W: FnMut(usize) -> T,
{
    let next = AtomicUsize::new(0);
    let (results, made) = sync_channel::<(usize, T)>(256);
    thread::scope(|scope| {
        let (next, worker) = (&next, &worker);
        for _ in 0..jobs.max(1) {
            let results = results.clone();
            let work = move || {
                let mut make = worker();
                loop {
                    let first = next.fetch_add(TAKEN, Ordering::Relaxed);
                    if first >= count {
                        return;
                    }
                    for place in first..(first + TAKEN).min(count) {
                        if results.send((place, make(place))).is_err() {
                            return;
                        }
                    }
                }
            };
            thread::Builder::new()
                .stack_size(STACK)
                .spawn_scoped(scope, work)?;
        }
        drop(results);
        let mut waiting = BTreeMap::new();
        let mut due = 0;
        for (place, result) in made {
            waiting.insert(place, result);
            while let Some(result) = waiting.remove(&due) {
                take(due, result);
                due += 1;
            }
        }
        Ok(())
    })
}

#[cfg(test)]
mod tests {
    use super::*;

    #[test]
    fn results_come_in_order() {
        for jobs in [1, 4] {
            let mut taken = Vec::new();
            let square = || |place: usize| place * place;
            in_order(1000, jobs, square, |place, result| {
                taken.push((place, result))
            })
            .unwrap();
            let wanted: Vec<(usize, usize)> = (0..1000).map(|k| (k, k * k)).collect();
            assert_eq!(taken, wanted);
        }
    }
}
