//! Work spread over several threads.

use std::sync::atomic::{AtomicUsize, Ordering};
use std::sync::Mutex;

/// Works on each item once, so many at a time; answers stand in the order of the items. Behind each, `told` hears
/// how many are done.
pub fn spread<T: Sync, R: Send>(
    items: &[T],
    workers: usize,
    work: impl Fn(&T) -> R + Sync,
    told: impl Fn(usize) + Sync,
) -> Vec<R> {
    let next = AtomicUsize::new(0);
    let done: Mutex<Vec<(usize, R)>> = Mutex::new(Vec::new());
    std::thread::scope(|threads| {
        for _ in 0..workers.clamp(1, items.len().max(1)) {
            threads.spawn(|| loop {
                let at = next.fetch_add(1, Ordering::Relaxed);
                let Some(item) = items.get(at) else { break };
                let answer = work(item);
                // Told while nobody else can be, so that the numbers only rise.
                let mut done = done.lock().expect("no thread panics");
                done.push((at, answer));
                told(done.len());
            });
        }
    });
    let mut done = done.into_inner().expect("no thread panics");
    done.sort_by_key(|(at, _)| *at);
    done.into_iter().map(|(_, answer)| answer).collect()
}

#[cfg(test)]
mod tests {
    use super::*;
    use std::sync::Barrier;

    #[test]
    fn each_item_is_worked_on_once_whatever_the_number_of_workers() {
        for (items, workers) in
            [(0, 4), (1, 4), (7, 0), (7, 1), (7, 2), (100, 3), (100, 64), (3, 100)]
        {
            let all: Vec<usize> = (0..items).collect();
            let times: Vec<AtomicUsize> = all.iter().map(|_| AtomicUsize::new(0)).collect();
            let heard = Mutex::new(Vec::new());
            let work = |n: &usize| {
                times[*n].fetch_add(1, Ordering::Relaxed);
                n * n
            };
            let answers = spread(&all, workers, work, |done| heard.lock().unwrap().push(done));
            let squares: Vec<usize> = all.iter().map(|n| n * n).collect();
            assert_eq!(answers, squares, "{items} items, {workers} workers");
            assert!(times.iter().all(|n| n.load(Ordering::Relaxed) == 1));
            assert_eq!(heard.into_inner().unwrap(), (1..=items).collect::<Vec<usize>>());
        }
    }

    /// Each item waits for another one: a single worker would never end.
    #[test]
    fn so_many_items_are_under_way_at_a_time() {
        for workers in [2, 3, 5] {
            let items: Vec<usize> = (0..4 * workers).collect();
            let together = Barrier::new(workers);
            let work = |n: &usize| {
                together.wait();
                *n
            };
            assert_eq!(spread(&items, workers, work, |_| ()), items);
        }
    }

    /// The first item is the last to be done, and its answer is the first.
    #[test]
    fn answers_stand_in_the_order_of_the_items() {
        let items = [0, 1, 2, 3, 4, 5];
        let done = AtomicUsize::new(0);
        let work = |n: &usize| {
            while *n == 0 && done.load(Ordering::Acquire) < items.len() - 1 {
                std::thread::yield_now();
            }
            *n
        };
        let answers = spread(&items, 2, work, |n| done.store(n, Ordering::Release));
        assert_eq!(answers, items);
    }
}
