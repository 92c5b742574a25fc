//! What timed examples share.

use std::time::{Duration, Instant};

/// The least times of these, which take turns, so that a change of the
/// machine's pace meets them all.
pub fn least<const N: usize>(mut calls: [&mut dyn FnMut(); N]) -> [Duration; N] {
    let from = Instant::now();
    let mut least = [Duration::MAX; N];
    let mut rounds = 0;
    while rounds < 15 || from.elapsed() < Duration::from_millis(1_500) {
        for (call, least) in calls.iter_mut().zip(&mut least) {
            let start = Instant::now();
            call();
            *least = start.elapsed().min(*least);
        }
        rounds += 1;
    }
    least
}
