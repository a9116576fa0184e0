//! Work on a range of numbers by all cores, with answers in the numbers' order.

use std::ops::Range;
use std::sync::atomic::{AtomicUsize, Ordering};
use std::sync::Mutex;
use std::thread;

/// One answer for each chunk of the range, in order, whichever thread made it.
pub fn in_order<T: Send>(
    numbers: Range<u64>,
    chunk: u64,
    work: impl Fn(Range<u64>) -> T + Sync,
) -> Vec<T> {
    let chunks: Vec<Range<u64>> = numbers
        .clone()
        .step_by(chunk as usize)
        .map(|first| first..(first + chunk).min(numbers.end))
        .collect();
    let answers: Vec<Mutex<Option<T>>> = chunks.iter().map(|_| Mutex::new(None)).collect();
    let taken = AtomicUsize::new(0);
    let threads = thread::available_parallelism().map_or(1, |count| count.get());
    thread::scope(|scope| {
        for _ in 0..threads {
            scope.spawn(|| loop {
                let place = taken.fetch_add(1, Ordering::Relaxed);
                let Some(chunk) = chunks.get(place) else {
                    break;
                };
                let answer = work(chunk.clone());
                *answers[place].lock().expect("a chunk is written once") = Some(answer);
            });
        }
    });
    let answers = answers.into_iter().map(|answer| answer.into_inner().ok().flatten());
    answers.map(|answer| answer.expect("every chunk has its answer")).collect()
}
