//! Hash tables for names and for what else inputs choose: quick, and with a seed of each table's own, so that nobody
//! can make inputs whose names collide.

use std::collections::hash_map::RandomState;
use std::collections::{HashMap, HashSet};
use std::hash::{BuildHasher, Hasher};

/// A map with a quick hash.
pub type FastMap<K, V> = HashMap<K, V, Seed>;
/// A set with a quick hash.
pub type FastSet<T> = HashSet<T, Seed>;

/// The seed of a table, at random.
#[derive(Clone, Copy, Debug)]
pub struct Seed {
    start: u64,
    factor: u64,
}

impl Default for Seed {
    fn default() -> Seed {
        let random = RandomState::new();
        let word = |number: u64| {
            let mut hasher = random.build_hasher();
            hasher.write_u64(number);
            hasher.finish()
        };
        Seed { start: word(0), factor: word(1) | 1 }
    }
}

impl BuildHasher for Seed {
    type Hasher = QuickHasher;

    fn build_hasher(&self) -> QuickHasher {
        QuickHasher { state: self.start, factor: self.factor }
    }
}

/// A hash to which eight bytes at a time are multiplied: the two halves of the product are folded into one, so that the
/// difference between two states depends on the seed.
#[derive(Clone, Copy, Debug)]
pub struct QuickHasher {
    state: u64,
    factor: u64,
}

impl QuickHasher {
    fn mix(&mut self, word: u64) {
        let product = u128::from(self.state ^ word) * u128::from(self.factor);
        self.state = product as u64 ^ (product >> 64) as u64;
    }
}

impl Hasher for QuickHasher {
    fn write(&mut self, bytes: &[u8]) {
        let mut chunks = bytes.chunks_exact(8);
        for chunk in &mut chunks {
            let mut word = [0; 8];
            word.copy_from_slice(chunk);
            self.mix(u64::from_le_bytes(word));
        }
        let rest = chunks.remainder();
        if !rest.is_empty() {
            let word = rest.iter().rev().fold(0, |word, byte| word << 8 | u64::from(*byte));
            self.mix(word | (rest.len() as u64) << 56);
        }
    }

    fn write_u8(&mut self, word: u8) {
        self.mix(word.into());
    }

    fn write_u32(&mut self, word: u32) {
        self.mix(word.into());
    }

    fn write_u64(&mut self, word: u64) {
        self.mix(word);
    }

    fn write_usize(&mut self, word: usize) {
        self.mix(word as u64);
    }

    fn finish(&self) -> u64 {
        self.state
    }
}

#[cfg(test)]
mod tests {
    use super::*;

    fn hash(seed: &Seed, bytes: &[u8]) -> u64 {
        let mut hasher = seed.build_hasher();
        hasher.write(bytes);
        hasher.finish()
    }

    #[test]
    fn each_table_has_another_seed() {
        let (one, other) = (Seed::default(), Seed::default());
        assert_ne!(hash(&one, b"main"), hash(&other, b"main"));
        assert_eq!(hash(&one, b"main"), hash(&one, b"main"));
    }

    #[test]
    fn each_byte_and_the_length_of_the_end_count() {
        let seed = Seed::default();
        let texts: [&[u8]; 6] = [b"", b"a", b"a\0", b"12345678", b"12345678\0", b"123456789"];
        let found: HashSet<u64> = texts.iter().map(|text| hash(&seed, text)).collect();
        assert_eq!(found.len(), texts.len());
    }

    /// Words that differ in their highest bits collide with any seed if a hash only multiplies and rotates.
    #[test]
    fn a_difference_cannot_be_taken_back_without_the_seed() {
        let one = [0, 0].map(u64::to_le_bytes).concat();
        let other = [1 << 63, 1 << 4].map(u64::to_le_bytes).concat();
        let collides = |_: &i32| {
            let seed = Seed::default();
            hash(&seed, &one) == hash(&seed, &other)
        };
        assert!((0..10).filter(collides).count() < 2);
    }

    #[test]
    fn tables_find_what_was_entered() {
        let names: FastMap<String, usize> = (0..1000).map(|number| (format!("name_{number}"), number)).collect();
        assert!((0..1000).all(|number| names.get(&format!("name_{number}")) == Some(&number)));
        assert_eq!(names.get("name_1000"), None);
    }
}
