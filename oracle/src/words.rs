//! Words of eight bytes, least first, signed.

/// The words of `bytes`, if they are whole.
pub fn words(bytes: &[u8]) -> Option<Vec<i64>> {
    let (whole, rest) = bytes.as_chunks::<8>();
    rest.is_empty().then(|| whole.iter().map(|w| i64::from_le_bytes(*w)).collect())
}

/// Hands out a list of words part by part.
pub struct Parts<'a>(pub &'a [i64]);

impl Parts<'_> {
    pub fn next(&mut self, length: usize) -> Vec<i64> {
        let (part, rest) = self.0.split_at(length);
        self.0 = rest;
        part.to_vec()
    }
}
