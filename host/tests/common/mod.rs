//! What the comparisons share.

/// So many bytes of garbage, not the same for each call.
pub fn garbage(length: usize, seed: u64) -> Vec<u8> {
    let mut state = seed.wrapping_mul(0x9e37_79b9_7f4a_7c15) | 1;
    let mut next = || {
        state ^= state << 13;
        state ^= state >> 7;
        state ^= state << 17;
        state
    };
    let mut bytes: Vec<u8> = (0..length / 8 + 1).flat_map(|_| next().to_le_bytes()).collect();
    bytes.truncate(length);
    bytes
}

/// The words of the line of docs/FORMAT.md that begins so.
pub fn format_words(named: &str) -> Vec<i64> {
    let page = include_str!("../../../docs/FORMAT.md");
    let start = format!("{named}: ");
    let line = page.lines().find_map(|line| line.strip_prefix(&start)).expect(&start);
    line.split_whitespace().map(|word| word.parse().expect(word)).collect()
}
