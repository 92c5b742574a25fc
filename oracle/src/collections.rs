//! The hash tables of the source. Their hashing lies outside the source; a
//! short multiply-and-rotate stands in. No result depends on their order.

use std::hash::{BuildHasherDefault, Hasher};

pub type HashMap<K, V> = std::collections::HashMap<K, V, BuildHasherDefault<Rotate>>;
pub type HashSet<K> = std::collections::HashSet<K, BuildHasherDefault<Rotate>>;

#[derive(Clone, Copy, Default)]
pub struct Rotate(u64);

impl Rotate {
    fn add(&mut self, word: u64) {
        self.0 = (self.0.rotate_left(5) ^ word).wrapping_mul(0x517c_c1b7_2722_0a95);
    }
}

impl Hasher for Rotate {
    fn write(&mut self, bytes: &[u8]) {
        for &b in bytes {
            self.add(u64::from(b));
        }
    }

    fn write_u16(&mut self, n: u16) {
        self.add(u64::from(n));
    }

    fn write_u32(&mut self, n: u32) {
        self.add(u64::from(n));
    }

    fn finish(&self) -> u64 {
        self.0
    }
}
