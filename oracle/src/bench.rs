//! How long a tick takes: stepping and building its record.

use std::hint::black_box;
use std::path::Path;
use std::time::{Duration, Instant};

use oracle::{Lent, play, questions};

use crate::program;

/// Plays `dir`'s circuit and script again and again for about a second, each
/// time from the start, with a log and areas large enough. The start is not
/// counted.
pub fn bench(dir: &Path) -> String {
    let Some((circuit, script)) = program::read(dir, true) else { return "refused 14".to_string() };
    let lent = Lent { log: usize::MAX, values: usize::MAX, units: usize::MAX, delays: usize::MAX };
    let (circuit, script) = match questions::ask(&circuit, &script, Some(&lent)) {
        Ok(both) => both,
        Err(number) => return format!("refused {number}"),
    };
    let mut log = Vec::new();
    let (mut spent, mut ticks) = (Duration::ZERO, 0);
    while spent < Duration::from_secs(1) {
        let mut machine = play::start(&circuit, &script);
        log.clear();
        let from = Instant::now();
        let (stop, done) = play::play_into(&mut log, &mut machine, script.lengths.len(), lent.log);
        spent += from.elapsed();
        black_box(&log);
        if done == 0 {
            return format!("no tick done, stop {stop}");
        }
        ticks += done;
    }
    format!("{:.1} ns a tick, {ticks} ticks", spent.as_nanos() as f64 / ticks as f64)
}
