//! Scripts cut short.

use oracle::circuits::Case;

/// The case with only the first ticks of its script.
pub fn first_ticks(case: &Case, ticks: usize) -> Case {
    let word = |i: usize| i64::from_le_bytes(case.script[8 * i..][..8].try_into().unwrap());
    let (t, s) = (word(0) as usize, word(1) as usize);
    let stimuli = (0..ticks).map(|k| word(2 + t + k) as usize).sum();
    let part = |from: usize, n: usize| (from..from + n).map(word);
    let words: Vec<i64> = [ticks as i64, stimuli as i64]
        .into_iter()
        .chain(part(2, ticks))
        .chain(part(2 + t, ticks))
        .chain(part(2 + 2 * t, stimuli))
        .chain(part(2 + 2 * t + s, stimuli))
        .collect();
    let script = words.iter().flat_map(|w| w.to_le_bytes()).collect();
    Case { script, name: format!("{} ({ticks})", case.name), ..case.clone() }
}
