//! A quick test whether a name may be in a set.

use super::elf::hash_of;

/// A set of names that may say yes of one that is not in it, by a table of bits.
#[derive(Clone, Debug, Default)]
pub(crate) struct NameFilter {
    bits: Vec<u64>,
}

impl NameFilter {
    /// A set of names.
    pub(crate) fn of<N: AsRef<[u8]>>(names: impl ExactSizeIterator<Item = N>) -> NameFilter {
        let words = (names.len() / 4 + 1).next_power_of_two().max(16);
        let mut bits = vec![0; words];
        for name in names {
            let hash = hash_of(name.as_ref()) as usize;
            if let Some(word) = bits.get_mut(hash >> 6 & (words - 1)) {
                *word |= 1 << (hash & 63);
            }
        }
        NameFilter { bits }
    }

    /// Whether a name of this hash may be in the set.
    pub(crate) fn may_have(&self, hash: u32) -> bool {
        let (hash, words) = (hash as usize, self.bits.len());
        let word = self.bits.get(hash >> 6 & words.wrapping_sub(1));
        word.map_or(false, |word| word >> (hash & 63) & 1 == 1)
    }
}
